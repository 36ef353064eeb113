#!/usr/bin/env python3
"""Which definitions a reader has to believe, for each face of the list FACES.

    tools/believe.py                prints how many lines and files each face rests on
    tools/believe.py CALL..         prints what these calls rest on, file by file: CRATE, CRATE::FUNCTION, CRATE::TYPE or CRATE::TYPE::METHOD,
                                    with (CLAUSE ..) behind it for some of its clauses alone
    tools/believe.py --write        writes the tables into docs/BELIEVE.md, between its two marks
    tools/believe.py --check        ends with status 1 where the page is out of date
    tools/believe.py --unused       prints the definitions of specs/ that no face reaches, by file

A definition is believed if a clause of a call names it (`requires`, `ensures`, the laws of its trait, what clauses see of the
types in its signature), or if a believed definition names it. So no lemma counts: nothing that is believed names one.
Lines are those of the definition with its type, without comments, blank lines and imports.

The calls of a crate are those that its lib.rt passes on, and the methods of the types and traits that it passes on; worked rows
(`worked_..`) are none. Names are followed by their spelling, through the lines `use` and `ghost use`, and through the crates that pass
them on (passed_on.py). Names that a definition binds itself (its arguments, `λ x.`, `(x : A)`, `x ←`, `let x`), fields and projections
are no names of definitions.
"""

import re
import sys
import textwrap
from pathlib import Path

from passed_on import at_home

TOP = Path(__file__).resolve().parent.parent
PAGE = TOP / "docs" / "BELIEVE.md"
BEGIN, END = "<!-- written by tools/believe.py -->", "<!-- to here -->"
COLUMNS = 160

# The faces of the page: a title, and the calls. What a crate passes on is read off its lib.rt.
FACES = [
    ("`marlowe run`, and the texts that it reads", "marlowe_run::run marlowe_refusals::refusal contract_json::read_contract contract_json::read_input contract_json::read_state "
     "contract_json::read_transaction"),
    ("The transaction function on a tree, its laws, and states", "evaluation::value evaluation::holds semantics states"),
    ("Tables: what compiles to which, and runs on them", "marlowe_run::table_text compiler table machine"),
    ("Bytes and ids", "contract_bytes eutxo_types"),
    ("The check of a transaction, over any script, and its laws", "bundle eutxo parallel_check::check_all"),
    ("Marlowe as a script", "roles"),
    ("The chain: each call and its reply", "ledger chain::Chain::genesis chain::Chain::step(entry,mine,told,err,stays) chain::Chain::call(entry,reply,err,stays) chain::Chain::tick chain::Chain::entries chain::Chain::history(all,legal,begins) "
     "chain::Chain::resolve chain::Chain::front chain::Chain::steps_of"),
    ("The headline's first half: what holds after every history", "chain::Chain::history(first,stands,in_use,fits,shown) ledger_spec::starts_are_told"),
    ("Its laws, over every list of accepted transactions", "ledger_laws"),
    ("The builders", "builder"),
    ("The headline's second half: what is built is accepted", "chain::Chain::step(second) chain::Chain::history(throughout) chain::both_halves_hold_of_legal_histories builder_laws"),
    ("Many threads: what each was told, one history, and parties", "hub parties"),
    ("Contracts and outcomes written as texts", "contract_json::write_contract contract_json::write_outcome"),
    ("The analysis of a contract: what never comes, and what is paid", "analysis::analyse"),
    ("`marlowe analyse`: what it prints", "marlowe_analyse::analyse_text"),
]

# words of the language, and names that are there without an import
WORDS = set("Type Unit tt ⊥ × → = : | * _ record data where do let in rw cc absurd abbrev pub mutual unfoldable module infixl infixr ( ) { } , ; . λ ← result Self".split())
CRATES = [line.split(":")[0] for line in (TOP / "crates.txt").read_text().splitlines() if ":" in line and not line.startswith("#")]
TOKEN = re.compile(r'"(?:\\.|[^"\\])*"|\[\]|[(){},;.λ]|[^\s(){},;."λ]+')
HEAD = re.compile(r"^((?:abbrev |unfoldable |pub )*)(data |record )?(\S+)(?: :| [({].*:)")
USE = re.compile(r"^(?:pub |ghost )?use ([\w.]+?)(?:\.\{(.*)\}| as (\w+))?;?$")


def crate_of(path):
    return path.relative_to(TOP / "crates").parts[0]


class Scope:
    """What the names of a file mean: `names` has a module and a name for each, `modules` the modules that have a name here,
    and `passed_on` the names that the file hands to who imports it."""

    def __init__(self, lines):
        self.names, self.modules, self.passed_on = {}, {}, {}
        for line in lines:
            found = USE.match(line.strip())
            if not found:
                continue
            path, listed, alias = found.groups()
            for part in filter(None, (listed or "").split(", ")):
                name, _, new = part.partition(" as ")
                self.add(new or name, (path, name))
                if line.startswith("pub"):
                    self.passed_on[new or name] = (path, name)
            if not listed:
                self.modules[alias or path.split(".")[-1]] = path

    def add(self, name, target):
        """A name, and the signs of an operator: `+` of `◌+◌`; the arrow of `do` stands for `◌>>=◌`."""
        self.names[name] = target
        for part in filter(None, name.split("◌")) if "◌" in name else []:
            self.names[part] = target
            if part == ">>=":
                self.names["←"] = target


def binders(text):
    """The names that a text binds: in `(x y : A)` and in `λ x y.`."""
    groups = re.findall(r"[({]((?:[^\s(){}:,.=]+ )+): ", text) + re.findall(r"λ ((?:[^\s(){}:,.=]+ ?)+)\.", text)
    return {name for group in groups for name in group.split()}


class Definition:
    """A definition: its lines, and those of the blocks around it (`mutual`, `module _ .. where`)."""

    def __init__(self, file, name, above, lines):
        self.file, self.name, self.above, self.lines = file, name, above, lines

    def statements(self):
        """Its type and each of its equations, with the lines that continue them."""
        texts = [text for _, text in self.lines]
        indent = min(len(text) - len(text.lstrip()) for text in texts)
        whole = "\n".join(text[indent:] for text in texts)
        return [text for _, text in self.above] + re.split(r"\n(?! )", whole)

    def bound_in(self, statement):
        """The names that a statement binds, its own fields and constructors among them."""
        bound = binders(statement) | set(re.findall(r"^ *(?:(?:abbrev|unfoldable|pub) )*([^\s(){}]+) : ", statement, re.M))
        depth, left = 0, []
        for token in TOKEN.findall(statement):
            depth += (token in "({") - (token in ")}")
            if depth == 0 and token in (":", "="):
                break
            left.append(token)
        if token == "=":  # an equation: what stands on its left is bound, but for constructors
            bound |= {word for word in left if not self.file.is_maker(word)}
        for _, text in self.above:
            bound |= binders(text)
        return bound - set("(){},;.") - {self.name}


class File:
    """A file of specs/: its definitions, and its scope. Lines are pairs of a number and a text without comments."""

    def __init__(self, path, module):
        self.path, self.module, self.definitions, self.makers = path, module, {}, {}
        texts = [re.sub(r"(^|\s)--(\s.*)?$", "", line) for line in path.read_text().splitlines()]
        lines = [(number, text.rstrip()) for number, text in enumerate(texts, 1) if text.strip()]
        self.scope = Scope([text for _, text in lines])
        self.read([line for line in lines if not USE.match(line[1])], 0, [])
        for name in list(self.definitions) + list(self.makers):
            self.scope.add(name, (module, name))

    def read(self, lines, indent, above):
        """Reads the definitions that begin at this indentation; `above` has the heads of the blocks around them."""
        place, waiting = 0, []
        while place < len(lines):
            text, end = lines[place][1][indent:], place + 1
            while end < len(lines) and lines[end][1].startswith(" " * (indent + 1)):
                end += 1
            if re.match(r"(abbrev |unfoldable )?mutual$|module _", text):
                inner = lines[place + 1][1]
                self.read(lines[place + 1:end], len(inner) - len(inner.lstrip()), above + [lines[place]])
            elif re.match(r"infix[lr]? ", text):
                waiting = [lines[place]]
            elif not re.match(r"pub (mod|ruleset) ", text):
                end = self.define(lines, place, end, indent, above + waiting)
                waiting = []
            place = end

    def define(self, lines, place, end, indent, above):
        """Reads the definition that begins at this place, and gives the place behind it."""
        head = HEAD.match(lines[place][1][indent:])
        name = head.group(3) if head else lines[place][1].split()[-1]
        if not (head and head.group(2)):  # a function has its equations at the same indentation
            while end < len(lines) and not self.begins(lines[end][1][indent:]):
                end += 1
        definition = Definition(self, name, above, lines[place:end])
        if head and head.group(2) == "data ":
            self.makers.update({text.split()[0]: definition for _, text in lines[place + 1:end]})
        self.definitions[name] = definition
        return end

    @staticmethod
    def begins(text):
        """Whether a definition begins with this line, or a block of them."""
        return bool(re.match(r"(abbrev|unfoldable|pub|data|record|mutual|module|infix[lr]?)\b|\S+ : ", text))

    def is_maker(self, word):
        """Whether a word of a pattern is a constructor: other than definitions, these keep their meaning there."""
        module, name = self.scope.names.get(word, (None, None))
        file = LIBRARY.files.get(module and at_home(module))
        if not module or not file:
            return module is not None
        return name in file.makers or file is not self and file.is_maker(name)


class Library:
    """The files of specs/ of all crates, by their modules."""

    def __init__(self):
        self.files = {}
        for crate in CRATES:
            for path in sorted((TOP / "crates" / crate / "specs").glob("*.antt")):
                self.files[f"Rattle.{crate}.specs.{path.stem}"] = File(path, f"Rattle.{crate}.specs.{path.stem}")

    def find(self, module, name):
        """The definition of a name, also where a file passes it on from another."""
        file = self.files[at_home(module)]
        if name in file.scope.passed_on:
            return self.find(*file.scope.passed_on[name])
        if name not in file.definitions and name not in file.makers:
            sys.exit(f"{module} has no {name}")
        return file.definitions.get(name) or file.makers[name]

    def order(self):
        """All modules in reading order: lower crates first, and in a crate first what others import."""
        out = []

        def visit(module):
            if module not in out:
                near = sorted(path for path, _ in self.files[module].scope.names.values() if path in self.files and path.split(".")[1] == module.split(".")[1])
                for path in near:
                    if path != module:
                        visit(path)
                out.append(module)

        for crate in CRATES:
            for module in self.files:
                if module.split(".")[1] == crate:
                    visit(module)
        return out


class Code:
    """The source files: clauses of calls, what clauses see of types, and where types are declared."""

    def __init__(self):
        self.texts, self.types, self.models = {}, {}, {}
        for crate in CRATES:
            for path in sorted((TOP / "crates" / crate / "src").rglob("*.rt")):
                text = self.texts[path] = path.read_text()
                for found in re.finditer(r"^pub (?:enum|struct) (\w+)", text, re.M):
                    self.types.setdefault(found.group(1), {})[crate] = (path, found.start())
                for found in re.finditer(r"^impl(?:<(.*)>)? Model for (\w+).*\{$", text, re.M):
                    value = re.search(r"ghost Value = (\{.*\});", text[found.start():])
                    self.models.setdefault(found.group(2), {})[crate] = (path, value.group(1), set(re.findall(r"\w+", found.group(1) or "")))

    def laws(self, path, trait):
        """The laws of a trait, as a call's clauses."""
        text = self.texts[path]
        start = text.index("pub trait " + trait)
        generics = re.match(r"[^{]*", text[start:]).group()
        ghosts = set(re.findall(r"^    ghost (\w+): ", text, re.M)) | set(re.findall(r"\b[A-Z]\w*", generics))
        return path, Scope(text.splitlines()), re.findall(r"ghost \w+: (\{.*?\});", text[start:text.index("\n}\n", start)], re.S), "", ghosts

    def clauses_at(self, path, text, found, wanted=()):
        """The same for a function that was found in a file."""
        ghosts = set(re.findall(r"^    ghost (\w+): ", text, re.M)) | {"self"}
        end = self.end_of(text, found.end(), r"\{|;|\s(ensures|requires)\b")
        signature, clauses = text[found.end():end], []
        while clause := re.compile(r"\s*(?:ensures|requires)\*?\s*(\w*)\s*\{").match(text, end):
            end = self.end_of(text, clause.end(), r"\}") + 1
            if not wanted or clause.group(1) in wanted:
                clauses.append(text[clause.end():end - 1])
        owner = re.findall(r"^impl(?:<.*?>)? (\w+)", text[:found.start()], re.M)
        generics = re.findall(r"\b([A-Z]\w*): ", text)
        arguments = ghosts | set(re.findall(r"(\w+):", signature)) | set(generics)
        return path, Scope(text.splitlines()), clauses, signature + " " + (owner[-1] if "self" in signature and owner else ""), arguments

    @staticmethod
    def end_of(text, place, stop):
        """The first place outside brackets where this stands."""
        depth = 0
        while depth or not re.compile(stop).match(text, place):
            depth += (text[place] in "([{") - (text[place] in ")]}")
            place += 1
        return place

    def home(self, table, name, crate):
        """The crate of a type: this crate, or the highest below it that has the name."""
        homes = [home for home in CRATES[:CRATES.index(crate) + 1] if home in table.get(name, {})]
        return homes[-1] if homes else None

    def declaration(self, crate, name):
        """The lines of a type's declaration, without comments and attributes."""
        path, start = self.types[name][crate]
        text = self.texts[path]
        end = self.end_of(text, start, r"\{|;")
        end = self.end_of(text, end + 1, r"\}") if text[end] == "{" else end
        return [line for line in text[start:end + 1].splitlines() if line.strip() and not re.match(r"\s*(//|#)", line)]


class Beliefs:
    """All that some calls rest on: definitions, names of the kit, and types of the code with their lines."""

    def __init__(self, calls=()):
        self.reached, self.kit, self.types, self.unknown = {}, {}, {}, set()
        for path, scope, clauses, signature, arguments in calls:
            for clause in clauses:
                self.follow(clause, scope, arguments | binders(clause), path)
            self.follow_types(signature, crate_of(path))

    def lines(self, module=None):
        """How many lines of definitions are reached, in one file or in all."""
        return len({(d.file.module, number) for d in self.reached.values() for number, _ in d.above + d.lines if module in (None, d.file.module)})

    def follow_types(self, text, crate):
        """Types that a signature or a declaration names, and what clauses see of them."""
        for name in re.findall(r"\b[A-Z]\w*", text):
            home = CODE.home(CODE.types, name, crate)
            if not home or (home, name) in self.types:
                continue
            lines, model = CODE.declaration(home, name), CODE.home(CODE.models, name, crate)
            if model:  # seen as plain data: its fields are the crate's own affair
                path, value, arguments = CODE.models[name][model]
                self.types[home, name] = 0
                self.follow(value, Scope(CODE.texts[path].splitlines()), arguments, path)
            else:
                self.types[home, name] = len(lines)
                self.follow_types("\n".join(re.sub(r"^\s*[A-Z]\w*", "", line) for line in lines), home)  # without the names of variants

    def meet(self, path, name):
        """A name of a module is met."""
        path = at_home(path)
        parts = path.split(".")
        if len(parts) < 4 or parts[1] not in CRATES:
            self.kit.setdefault(path, set()).add(name)
        elif parts[3] == "declared":
            self.follow_types(parts[5] if len(parts) > 5 else name, parts[1])
        elif parts[3] not in ("contracts", "formers"):  # these two the compiler writes
            definition = LIBRARY.find(path, name)
            if (definition.file.module, definition.name) not in self.reached:
                self.reached[definition.file.module, definition.name] = definition
                for statement in definition.statements():
                    self.follow(statement, definition.file.scope, definition.bound_in(statement), definition.file.path)

    def follow(self, text, scope, bound, path):
        """Meets all names of a text but those that are bound in it."""
        bound, last = set(bound), ""
        for line in text.splitlines():
            tokens, later = list(TOKEN.finditer(line)), set()
            # (a record may stand on several lines, a field on each)
            words = [last if last in ("{", ";") else ""] + [token.group() for token in tokens] + ["", ""]
            last = tokens[-1].group() if tokens else last
            for at, word in enumerate(words[1:-2], 1):
                before, after = words[at - 1], words[at + 1]
                if before == "." and line[tokens[at - 1].start() - 1] == "." or before in ("{", ";") and after == "=":
                    continue  # a projection or a field
                if after == "←":
                    later.add(word)
                elif before == "let":
                    bound.add(word)
                elif word in bound:
                    continue
                elif word in scope.modules and after == ".":
                    self.meet(scope.modules[word], words[at + 2])
                elif word in scope.names:
                    self.meet(*scope.names[word])
                elif path.suffix == ".rt" and word in CODE.types:
                    self.follow_types(word, crate_of(path))
                elif word not in WORDS and not re.match(r'"|-?\d', word):
                    self.unknown.add(f"{path.relative_to(TOP)}: {word}")
            bound |= later


LIBRARY, CODE = Library(), Code()


PRELUDE = "Rattle.std.specs.Prelude"


def short(module):
    """A module of the kit as a reader names it: its crate, and the file."""
    return " ".join(part for part in module.split(".")[1:] if part not in ("specs", "declared"))


def listed(names):
    return ", ".join(f"`{name}`" for name in names)


def public_functions():
    """All functions that a crate passes on, and methods of what it passes on: the crate, the type or trait, the name, the file, its text and the place there."""
    for path, text in CODE.texts.items():
        lib = CODE.texts.get(TOP / "crates" / crate_of(path) / "src" / "lib.rt", "")
        passed_on = set(re.findall(r"\w+", " ".join(re.findall(r"^pub use [\w:]*::(.*?);", lib, re.M | re.S))))
        for found in re.finditer(r"^( *)(pub )?fn (\w+)", text, re.M):
            owner = re.findall(r"^(impl|pub trait)(?:<.*?>)? (\w+)", text[:found.start()], re.M)[-1:] if found.group(1) else []
            is_public = found.group(2) or owner and owner[0][0] == "pub trait"
            name = owner[0][1] if owner else found.group(3)
            if is_public and name in passed_on and not name.startswith("worked_"):
                yield crate_of(path), owner[0][1] if owner else "", found.group(3), path, text, found


def calls_of(words):
    """The calls that the words name, each with its clauses."""
    calls = []
    for word in words.split():
        word, _, wanted = word.rstrip(")").partition("(")
        crate, *names = word.split("::")
        before = len(calls)
        traits = set()
        for home, owner, name, path, text, found in PUBLIC:
            path_of = ([owner] if owner else []) + [name]
            if home == crate and path_of[:len(names)] == names:
                calls.append(CODE.clauses_at(path, text, found, wanted.split(",") if wanted else ()))
                if owner and "pub trait " + owner in text and (path, owner) not in traits:
                    traits.add((path, owner))
                    calls.append(CODE.laws(path, owner))
        if len(calls) == before:
            sys.exit(f"no crate passes on {word}")
    return calls


PUBLIC = list(public_functions())


def section(title, beliefs):
    """What some calls rest on, file by file."""
    rows = [f"{title}: {beliefs.lines()} lines of definitions", ""]
    for module in LIBRARY.order():
        here = [d.name for (home, _), d in beliefs.reached.items() if home == module]
        if here:
            file = LIBRARY.files[module]
            names = [name for name in file.definitions if name in here]
            parts = "all" if len(names) == len(file.definitions) else ", ".join(names)
            rows.append(f"  {beliefs.lines(module):4} {file.path.relative_to(TOP / 'crates')}: {parts}")
    kit = [f"{short(module)} ({', '.join(sorted(names))})" for module, names in sorted(beliefs.kit.items())]
    rows += ["", "Of the kit: " + "; ".join(kit)]
    plain = sorted(name for (_, name), count in beliefs.types.items() if not count)
    types = [f"{crate} " + ", ".join(name for home, name in beliefs.types if home == crate and name not in plain)
             for crate in CRATES if any(home == crate and name not in plain for home, name in beliefs.types)]
    rows += [f"Types of the code, {sum(beliefs.types.values())} lines: " + "; ".join(types) + (f"; seen as plain data: {', '.join(plain)}" if plain else "")]
    return "\n".join(rows)


def first_words(file):
    """What the first comment of a file says, up to the end of its first sentence."""
    words = []
    for line in file.path.read_text().splitlines():
        if not line.startswith("--"):
            break
        words.append(line.lstrip("- "))
    said = re.match(r".*?(?:\.(?= [A-Z(])|:(?= )|$)", " ".join(words)).group().rstrip(".: ")
    return said.replace("|", "\\|")


def ranges(numbers):
    """Numbers that rise, with three and more that follow one another as `4-7`."""
    runs = []
    for number in numbers:
        if runs and number == runs[-1][-1] + 1:
            runs[-1].append(number)
        else:
            runs.append([number])
    return " ".join(f"{run[0]}-{run[-1]}" if len(run) > 2 else " ".join(map(str, run)) for run in runs)


def file_row(begin, said):
    """A row of the table of files. Where it would be too wide it lacks what stands in brackets, and then what is told last."""
    whole = re.sub(r" \([^()]*\)", "", said)
    for text in (said, whole, whole.split("; ")[0], re.split(", (?:as|and) ", whole)[0]):
        row = f"{begin} {text} |"
        if len(row) <= COLUMNS:
            break
    return row


def page():
    """The tables of the page."""
    faces = [(title, Beliefs(calls_of(words))) for title, words in FACES]
    unknown = sorted(set().union(*(beliefs.unknown for _, beliefs in faces)))
    if unknown:
        sys.exit("names that have no meaning here:\n" + "\n".join(unknown))
    rows = ["## Faces", "", "| | Face | Lines | Files | Lines of types |", "|---|---|---|---|---|"]
    for mark, (title, beliefs) in enumerate(faces, 1):
        rows.append(f"| {mark} | {title} | {beliefs.lines()} | {len({module for module, _ in beliefs.reached})} | {sum(beliefs.types.values())} |")
    rows += ["", "## Files, in reading order", "", "| File | Lines | Faces | It has |", "|---|---|---|---|"]
    for module in LIBRARY.order():
        lines = {(d.file.module, number) for _, beliefs in faces for d in beliefs.reached.values() for number, _ in d.above + d.lines if d.file.module == module}
        if lines:
            file = LIBRARY.files[module]
            marks = ranges([mark for mark, (_, beliefs) in enumerate(faces, 1) if beliefs.lines(module)])
            name = str(file.path.relative_to(TOP / "crates")).replace("/specs/", " ")
            rows.append(file_row(f"| {name} | {len(lines)} | {marks} |", first_words(file)))
    rows += ["", "## Words of the kit", ""]
    for module in sorted(set().union(*(beliefs.kit for _, beliefs in faces))):
        words = listed(sorted(set().union(*(beliefs.kit.get(module, set()) for _, beliefs in faces))))
        rows += textwrap.wrap(f"- {short(module)}: {words}", COLUMNS, subsequent_indent="  ", break_long_words=False, break_on_hyphens=False)
    return "\n".join(rows) + "\n"


def unused():
    """Prints what no face reaches, by file: with `+` where another public clause does."""
    believed, others = {}, {}
    for _, words in FACES:
        believed.update(Beliefs(calls_of(words)).reached)
    for _, _, _, path, text, found in PUBLIC:
        others.update(Beliefs([CODE.clauses_at(path, text, found)]).reached)
    for module in LIBRARY.order():
        left = [name for name in LIBRARY.files[module].definitions if (module, name) not in believed]
        if left:
            print(f"{module}: " + " ".join(("+" if (module, name) in others else "") + name for name in left))


def main():
    arguments = sys.argv[1:]
    if arguments == ["--unused"]:
        return unused()
    if arguments and not arguments[0].startswith("-"):
        return print("\n\n".join(section(call, Beliefs(calls_of(call))) for call in arguments))
    text = PAGE.read_text() if PAGE.exists() else f"{BEGIN}\n{END}\n"
    head, rest = text.split(BEGIN)
    new = head + BEGIN + "\n" + page() + END + rest.split(END)[1]
    if arguments == ["--write"]:
        PAGE.write_text(new)
    elif arguments == ["--check"]:
        sys.exit(0 if new == text else "docs/BELIEVE.md is out of date: tools/believe.py --write")
    elif not arguments:
        print(page().split("## Files")[0])
    else:
        sys.exit(__doc__)


if __name__ == "__main__":
    main()

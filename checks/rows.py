"""Files of rows: the texts that lines give, as crates/rows_given says, and each row with what is written below it."""
import os

CRATES = os.path.join(os.path.dirname(os.path.abspath(__file__)), "..", "crates")


class NoSuchRow(Exception):
    """The line is none of a program's."""


class Given:
    """The texts that lines gave so far: those with a name, and what files hold."""

    def __init__(self):
        self.named, self.files, self.last, self.has_state = {}, {}, None, False

    def whole(self, text):
        """A text, with what has a name in place of each name between two `$`."""
        pieces = text.split("$")
        if any(name not in self.named for name in pieces[1::2]):
            raise NoSuchRow
        return b"".join(self.named[piece] if place % 2 else piece.encode() for place, piece in enumerate(pieces))

    def keep(self, name, text):
        self.files[name], self.last = self.whole(text), name

    def keeps(self, word, rest):
        """Whether a line gives a text, or nothing."""
        name, _, text = rest.partition(" ")
        if word == "let":
            self.named[name] = self.whole(text)
        elif word == "file":
            self.keep(name, text)
        elif word == "text":
            self.keep(word, rest)
        elif word in ("contract", "state"):
            self.has_state = word == "state"
            self.keep(word + ".json", rest)
        elif word == "more":
            self.files[self.last] += self.whole(rest)
        elif word == "times":
            self.files[self.last] += b"".join(self.whole(text).replace(b"%", str(time).encode()) for time in range(int(name)))
        elif word == "hex":
            self.files[self.last] += bytes.fromhex(rest)
        return word in ("", "#", "let", "file", "text", "contract", "state", "more", "times", "hex")


def lines_of(path):
    with open(path, encoding="utf-8") as file:
        return file.read().removesuffix("\n").split("\n")


def answered(lines):
    """Each line that is no answer, with what is written below it."""
    place = 0
    while place < len(lines):
        line, place = lines[place], place + 1
        written = []
        while place < len(lines) and lines[place].startswith("="):
            written.append(lines[place][1:].removeprefix(" "))
            place += 1
        yield line, written


def with_answers(rows):
    """The text of a file: each line, with its answer below it."""
    return "".join(line + "\n" + "".join(f"= {each}\n" if each else "=\n" for each in written) for line, written in rows)


def output_of(written):
    """The lines of an answer that are on standard output."""
    return [line for line in written if line.split(" ")[0] not in ("stderr", "status")]


def errors_of(written):
    """.. and on standard error."""
    return [line.removeprefix("stderr").removeprefix(" ") for line in written if line.split(" ")[0] == "stderr"]


def in_lines(output, errors, status):
    """An answer, from what is on both streams and the status."""
    lines = output.removesuffix("\n").split("\n") if output else []
    lines += [f"stderr {line}" if line else "stderr" for line in errors.removesuffix("\n").split("\n")] if errors else []
    return lines + ([f"status {status}"] if status else [])

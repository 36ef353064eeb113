#!/usr/bin/env python3
"""Has each read, open and write of the built program fail in turn, by the system's own faults, and gives it files that are none.

Needs    (cd crates/marlowe && rt run -- --version); strace
Usage    checks/failing_files.py [--words WORD,..] [--program FILE]
         --words takes some of run, table, play and analyse in place of all; --program tries another program
Expect   for each command how many calls were made to fail, a line for each odd file, then `each answered rightly`; two minutes
Else     what was done, and what came in place of what; then status 1

`run` is given its three files, `table` and `play --one` their one, `analyse` a contract alone and with a state, without alarms and with one.
Where the n-th read or open of a file fails, n from the first up, the program must end with status 2 and the one line `unreadable FILE`; where a
write to standard output fails, with status 2 and `unwritable`, and what was written before is a beginning of the answer. A read or write of one
byte in place of several changes nothing.
"""
import argparse, os, shutil, subprocess, sys, tempfile, threading

ROOT = os.path.dirname(os.path.dirname(os.path.abspath(__file__)))
PROGRAM = f"{ROOT}/crates/marlowe/out/marlowe"
EXAMPLES = f"{ROOT}/crates/rows_commands/data/examples"
PLAY = f"{ROOT}/examples/plays/escrow/scenario.json"
wrong = []


def tasks():
    """Of each command the name, the words, the files among them, which stand last, and the status of the answer."""
    files = [f"{EXAMPLES}/escrow_1_the_buyer_deposits/{it}.json" for it in ("contract", "state", "transaction")]
    warns = [f"{EXAMPLES}/partial_pay/{it}.json" for it in ("contract", "state")]
    return [
        ("run", ["run", *files], files, 0),
        ("table", ["table", files[0]], files[:1], 0),
        ("play", ["play", "--one", PLAY], [PLAY], 0),
        ("analyse", ["analyse", files[0]], files[:1], 0),
        ("analyse from a state", ["analyse", *files[:2]], files[:2], 0),
        ("analyse with an alarm", ["analyse", warns[0]], warns[:1], 3),
        ("analyse with an alarm from a state, for tools", ["analyse", "--json", *warns], warns, 3),
    ]


def ran(words, before=(), **how):
    """The status, and what is on standard output and on standard error."""
    how = {"stdout": subprocess.PIPE, "stderr": subprocess.PIPE, "stdin": subprocess.DEVNULL, "timeout": 60, **how}
    it = subprocess.run([*before, PROGRAM, *words], **how)
    return it.returncode, it.stdout, it.stderr


def see(what, came, wanted):
    if came != wanted:
        wrong.append(what)
        print(f"{what}: came {came}, wanted {wanted}")


def tracing(call, file, fault, n, room):
    """Words before the program by which its n-th such call on the file has the fault."""
    only = ["-P", file] if file else []
    return ["strace", "-f", "-qq", "-o", f"{room}/trace", *only, "-e", f"trace={call}", "-e", f"inject={call}:{fault}:when={n}"]


def was_hit(room):
    return "(INJECTED)" in open(f"{room}/trace", errors="replace").read()


def each_fails(name, words, files, wanted, answer, room):
    """Has each open and each read of each file, and each write of the answer, fail in turn. Answers how many did."""
    count = 0
    for file in files:
        for call in ("openat", "read"):
            n = 1
            while True:
                came = ran(words, tracing(call, file, "error=EIO", n, room))
                if not was_hit(room):
                    see(f"{name}, nothing fails", came, (wanted, answer, b""))
                    break
                see(f"{name}, {call} {n} of {file}", came, (2, b"", f"unreadable {file}\n".encode()))
                count, n = count + 1, n + 1
    n = 1
    while True:
        out = f"{room}/answer"
        with open(out, "wb") as it:
            status, _, told = ran(words, tracing("write", out, "error=EIO", n, room), stdout=it)
        text = open(out, "rb").read()
        if not was_hit(room):
            see(f"{name}, no write fails", (status, text, told), (wanted, answer, b""))
            break
        see(f"{name}, write {n}", (status, told), (2, b"unwritable\n"))
        see(f"{name}, before write {n}", answer.startswith(text), True)
        count, n = count + 1, n + 1
    return count


def by_bytes(words, texts, ends, room):
    """Gives each file as a pipe that has a byte at a time; of the last one only so many bytes come."""
    pipes = []
    for place, text in enumerate(texts):
        pipes.append(f"{room}/pipe{place}")
        if os.path.exists(pipes[-1]):
            os.remove(pipes[-1])
        os.mkfifo(pipes[-1])
        short = text[:ends] if place == len(texts) - 1 and ends is not None else text

        def feed(path=pipes[-1], text=short):
            try:
                with open(path, "wb", buffering=0) as it:
                    for byte in text:
                        it.write(bytes([byte]))
            except BrokenPipeError:
                pass

        threading.Thread(target=feed, daemon=True).start()
    return ran([*words, *pipes])


def main():
    global PROGRAM
    flags = argparse.ArgumentParser(description="has reads, opens and writes of the program fail")
    flags.add_argument("--words", default="run,table,play,analyse")
    flags.add_argument("--program", default=PROGRAM)
    given = flags.parse_args()
    PROGRAM, chosen = given.program, [it for it in tasks() if it[1][0] in given.words.split(",")]
    if not chosen:
        flags.error("--words takes some of run, table, play and analyse")
    if not os.path.exists(PROGRAM):
        sys.exit(f"{PROGRAM} isn't built")
    if not shutil.which("strace"):
        sys.exit("strace isn't there")
    room = tempfile.mkdtemp(prefix="failing-")
    for name, words, read, wanted in chosen:
        status, answer, told = ran(words)
        see(f"{name} as it is", (status, told), (wanted, b""))
        count = each_fails(name, words, read, wanted, answer, room)
        print(f"{name}: {count} calls failed in turn")
        texts = [open(it, "rb").read() for it in read]
        # a byte at a time, and a text that ends early
        see(f"{name} a byte at a time", by_bytes(words[: len(words) - len(read)], texts, None, room), (wanted, answer, b""))
        status, out, told = by_bytes(words[: len(words) - len(read)], texts, len(texts[-1]) // 2, room)
        see(f"{name} of a pipe that ends early", (status, out, told.startswith(b"refused ") and told.endswith(b" NotJson\n")), (1, b"", True))
        with open("/dev/full", "wb") as full:
            see(f"{name} to a full device", ran(words, stdout=full)[::2], (2, b"unwritable\n"))
        ends, begins = os.pipe()
        os.close(ends)
        see(f"{name} to a closed pipe", ran(words, stdout=begins)[::2], (2, b"unwritable\n"))
        os.close(begins)
        see(f"{name} of a folder", ran([*words[: len(words) - 1], room]), (2, b"", f"unreadable {room}\n".encode()))
        # a file that is cut off behind what was read of it: a blank in front makes it longer than one read
        shrinks = f"{room}/shrinks.json"
        with open(shrinks, "wb") as it:
            it.write(b" " * 900_000 + texts[-1])
        late = tracing("read", shrinks, "delay_enter=300000", "2+", room)
        timer = threading.Timer(0.1, os.truncate, (shrinks, 500_000))
        timer.start()
        status, out, told = ran([*words[: len(words) - 1], shrinks], late)
        timer.join()
        see(f"{name} of a file that shrinks", (status, out, told.startswith(b"refused ") and told.endswith(b" NotJson\n")), (1, b"", True))
    for what in ("a byte at a time", "a pipe that ends early", "a full device", "a closed pipe", "a folder", "a file that shrinks"):
        print(f"{what}: tried with each")
    shutil.rmtree(room)
    print(f"{len(wrong)} answered wrongly" if wrong else "each answered rightly")
    return 1 if wrong else 0


sys.exit(main())

"""Runs the built program as users do: the sessions of sessions/, the rows of rows/ and examples/, and what README and docs/ show; prints
what differs from what is wanted, and how many passed and failed. With names it plays those sessions alone. ALOG names another program, as
the one that is built without proof, which is slow: each command has 600 seconds then, and else 60.

NAME.session has commands and what each answers. A line says by its first sign what it is:

# a remark
@ FILE      a file of this name is made, with the lines `| ..` that follow
$ COMMAND   a command of the shell, in which `alog` is the program
< LINE      a line of its standard input
<+ LINE     the same without a newline behind it
> LINE      a line of its standard output
! LINE      a line of its standard error
!~ TEXT     standard error begins so, is not empty, and nothing is said of the rest
= STATUS    its status, where that is not 0

A session runs in a folder of its own, which is empty at its start, and its commands one after the other. Rows are as rows.py says. A
document shows commands in fenced blocks whose first line begins with `$ `, behind each what is seen of it on a terminal; they run one after
the other in a folder that has examples/, and where the document has /tmp/logs they have a folder there. A program that a document shows
whole is that of the example but for what stands above it, word for word.
"""
import collections
import concurrent.futures as futures
import glob
import os
import re
import subprocess
import sys
import tempfile

sys.dont_write_bytecode = True
from rows import bytes_of, of_bytes, rows

PROGRAM = os.path.abspath(os.environ.get("ALOG", "crates/alog/out/alog"))
SECONDS, BUILD_SECONDS = 600 if "ALOG" in os.environ else 60, 900
# the program that README shows whole
EXAMPLE = "crates/example_server/src/main.rt"


class Command:
    """A command of a session, and what it is to answer."""

    def __init__(self, words, place):
        self.words, self.place = words, place
        self.given = self.printed = self.said = b""
        self.begins, self.status = None, 0

    def fault_of(self, ran):
        """Returns what differs from what is wanted, if anything does."""
        found = [("status", ran.returncode, self.status), ("standard output", ran.stdout, self.printed)]
        if self.begins is None:
            found.append(("standard error", ran.stderr, self.said))
        elif not ran.stderr or not ran.stderr.startswith(self.begins):
            found.append(("standard error", ran.stderr, self.begins))
        return next((f"{what} is {is_!r}, and is to be {wanted!r}" for what, is_, wanted in found if is_ != wanted), None)


def ran_within(seconds, words, **options):
    """Runs these words, and returns what became of them; nothing where they took longer."""
    try:
        return subprocess.run(words, timeout=seconds, **options)
    except subprocess.TimeoutExpired:
        return None


def parts_of(file):
    """Returns the files and commands of a session, in their order: a file by its name and bytes."""
    found = []
    for number, line in enumerate(bytes_of(file).split(b"\n"), 1):
        sign, _, rest = line.partition(b" ")
        if sign == b"@":
            found.append([rest.decode(), b""])
        elif sign == b"|":
            found[-1][1] += rest + b"\n"
        elif sign == b"$":
            found.append(Command(rest.decode(), f"{file}:{number}"))
        elif sign in (b"<", b"<+"):
            found[-1].given += rest + (b"\n" if sign == b"<" else b"")
        elif sign == b">":
            found[-1].printed += rest + b"\n"
        elif sign == b"!":
            found[-1].said += rest + b"\n"
        elif sign == b"!~":
            found[-1].begins = rest
        elif sign == b"=":
            found[-1].status = int(rest)
        elif line and sign != b"#":
            raise SystemExit(f"{file}:{number}: no line of a session begins so")
    return found


def play(file, bin):
    """Plays a session, with the program in the folder `bin`; returns how many commands did what they are to do, and what the others did."""
    passed, faults = 0, []
    env = {**os.environ, "PATH": f"{bin}:{os.environ['PATH']}"}
    with tempfile.TemporaryDirectory(prefix="alog-session-") as room:
        for it in parts_of(file):
            if isinstance(it, list):
                with open(f"{room}/{it[0]}", "wb") as made:
                    made.write(it[1])
                continue
            ran = ran_within(SECONDS, ["sh", "-c", it.words], input=it.given, capture_output=True, cwd=room, env=env)
            fault = it.fault_of(ran) if ran else f"takes more than {SECONDS} seconds"
            passed += fault is None
            faults += [] if fault is None else [f"{it.place}: {it.words}: {fault}"]
    return passed, faults


def play_rows(folder):
    """Runs the program on the rows of a folder; returns the same of them."""
    passed, faults = 0, []
    for row in rows(folder):
        with tempfile.TemporaryDirectory(prefix="alog-row-") as room:
            words = [room if it == "FOLDER" else it for it in row.words]
            ran = ran_within(SECONDS, [PROGRAM, *words], input=row.given, capture_output=True)
        is_well = ran is not None and (ran.returncode, ran.stdout, ran.stderr) == (row.status, row.printed, row.errors)
        passed += is_well
        if not is_well:
            said = f"{ran.returncode}, {of_bytes(ran.stdout)!r} and {of_bytes(ran.stderr)!r}" if ran else f"takes more than {SECONDS} seconds"
            faults.append(f"{folder}/{row.name}: {said}")
    return passed, faults


def shown_in(document):
    """Returns the commands that a document shows, each with what is seen of it."""
    found = []
    for block in re.findall(r"(?ms)^```\n(\$ .*?)^```$", of_bytes(bytes_of(document))):
        for each in re.split(r"(?m)^\$ ", block)[1:]:
            command, _, seen = each.partition("\n")
            found.append((command, seen))
    return found


def play_document(document, bin):
    """Runs what a document shows; returns the same of it."""
    whole = [it for it in re.findall(r"(?ms)^```rust\n(.*?)^```$", of_bytes(bytes_of(document))) if it.startswith("#![tactic(auto)]")]
    example = re.sub(r"\A(?://!.*\n)+", "", of_bytes(bytes_of(EXAMPLE)))
    faults = [f"{document}: the program is not that of {EXAMPLE}" for it in whole if it != example]
    passed = len(whole) - len(faults)
    env = {**os.environ, "PATH": f"{bin}:{os.environ['PATH']}"}
    with tempfile.TemporaryDirectory(prefix="alog-document-") as room:
        os.symlink(os.path.abspath("examples"), f"{room}/examples")
        for place, (command, wanted) in enumerate(shown_in(document)):
            # (README's first command is run as a newcomer's is, whose program is built without proof)
            first = f"{os.path.abspath('alog')} --unproved" if (document, place) == ("README.md", 0) else "alog"
            words = command.replace("./alog", first).replace("/tmp/logs", f"{room}/logs")
            ran = ran_within(BUILD_SECONDS, ["sh", "-c", words], stdin=subprocess.DEVNULL, stdout=subprocess.PIPE, stderr=subprocess.STDOUT, cwd=room, env=env)
            said = of_bytes(ran.stdout) if ran else f"takes more than {BUILD_SECONDS} seconds"
            seen = re.sub(r"\Aalog: building .*\n", "", said).replace(f"{room}/logs", "/tmp/logs")
            passed += seen == wanted
            faults += [] if seen == wanted else [f"{document}: {command}: is {seen!r}, and is to be {wanted!r}"]
    return passed, faults


def main(names):
    if not os.path.exists(PROGRAM):
        print(f"sessions: {PROGRAM} is not built\n0 passed, 1 failed")
        return 1
    with tempfile.TemporaryDirectory(prefix="alog-bin-") as bin, futures.ThreadPoolExecutor(os.cpu_count()) as pool:
        os.symlink(PROGRAM, f"{bin}/alog")
        all_of = [pool.submit(play, it, bin) for it in [f"sessions/{name}.session" for name in names] or sorted(glob.glob("sessions/*.session"))]
        if not names:
            all_of += [pool.submit(play_rows, it) for it in ("rows", "examples")]
            all_of += [pool.submit(play_document, it, bin) for it in ("README.md", *sorted(glob.glob("docs/*.md")))]
        found = [it.result() for it in all_of]
    for fault in (fault for _, faults in found for fault in faults):
        print(f"session {fault}")
    failed = sum(len(faults) for _, faults in found)
    print(f"{sum(passed for passed, _ in found)} passed, {failed} failed")
    return 1 if failed else 0


if __name__ == "__main__":
    sys.exit(main(sys.argv[1:]))

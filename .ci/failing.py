"""Makes each read and each write of the proved and built program fail in turn, on the rows of rows/; and each call on a file in a load and
in a pipe to a folder.

On a row a read or a write fails, takes one byte, or is interrupted, and a write takes no byte; and where each takes one byte, each fails
at each byte of the input and of what is printed. Where the script cannot be read, or the output not be written, the program must end with
status 3, the two lines of its refusal and a front of what it prints otherwise; where a configuration cannot be read, with status 3 and
one line that names it; where standard error cannot be written, with its status. Whatever is short or interrupted changes nothing. In a
load or a pipe to a folder what fails must be told, by status 3 and lines of their forms, and the files have a front of the lines, in their
order; a pipe's input is read in part, and a pipe that ends early tells what it read. A pipe that tries again has all lines, and says so.
Two calls fail in a row, too: a removal or a rename, and the rename behind it, by which a rename is undone.
Needs a C compiler, `cc`.
"""
import collections
import concurrent.futures as futures
import errno
import itertools
import os
import re
import subprocess
import sys
import tempfile

sys.dont_write_bytecode = True
from rows import Row, bytes_of, rows

PROGRAM = os.path.abspath("crates/alog/out/alog")
NONE, SHORT = 0, -1
# in how many ways a call of a row may fail, and how a call on a file
WAYS = {"read": [errno.EIO, errno.EINTR, SHORT], "write": [errno.EIO, errno.EPIPE, NONE, errno.EINTR, SHORT]}
FILE_WAYS = {"read": WAYS["read"], "write": [errno.EIO, errno.ENOSPC, NONE, errno.EINTR, SHORT]}
FILE_WAYS.update({it: [errno.EIO, errno.EACCES] for it in ("open", "rename", "unlink", "statx")})
# a call that fails, and the next one of a kind behind it
PAIRS = ["unlink, rename", "rename, rename"]
FILE_WAYS.update({it: [errno.EIO] for it in PAIRS})
# of what has more bytes only each so many-th is tried
MOST_BYTES, STRIDE = 8_192, 16

WHY = rb"[^\n]+\n"
UNREAD = re.compile(rb"alog: refused 34\nalog: the script could not be read: " + WHY)
UNWRITTEN = re.compile(rb"alog: refused 35\nalog: the output could not be written: " + WHY)
NO_FILE = re.compile(rb"alog: [^\n]+ cannot be (?:read|written): " + WHY)
NO_FOLDER = re.compile(rb"alog: no files can be written to [^\n]+: " + WHY)
STORE_FAILED = b"alog: refused 22\nalog: a store failed\n"
UNOPENED = re.compile(STORE_FAILED + rb"(?:alog: sink \d+, [^\n]*: the size of its file cannot be read: " + WHY + rb")?")
LOCK = ".alog.lock"
NO_LOCK = re.compile(rb"alog: [^\n]+/\.alog\.lock cannot be locked: " + WHY)
SINK_FAILED = re.compile(STORE_FAILED + rb"(?:alog: sink \d+, [^\n]*: (?:\d+ turns failed|its lines are not all in its file): " + WHY + rb")+")

# a load of a sink that rotates, its totals, and its lines
CONFIG = b'queue = 8\n[[sink]]\nname = "out"\nkind = "rotating"\nfile = "a.log"\npattern = "%v"\nmax_size = 30\nmax_files = 9\n[[logger]]\nname = "net"\nsinks = ["out"]\n'
TOTALS = b"asked 40\nposted 40\ndiscarded 0\noverrun 0\nhandled 40\n"
LINES = b"".join(b"0 %d\n" % number for number in range(40))
FILES = [f"a.{number}.log" for number in range(9, 0, -1)] + ["a.log"]
# the same where a rotation replaces its oldest file, and the lines of the files that are left
FEW_FILES = CONFIG.replace(b"max_files = 9", b"max_files = 2")
FULL_FILES = [b""]
for line in LINES.splitlines(keepends=True):
    FULL_FILES += [b""] * (len(FULL_FILES[-1] + line) > 30)
    FULL_FILES[-1] += line
LAST_LINES = b"".join(FULL_FILES[-3:])
# what a pipe of these lines says where it reads them all, and what of any front
PIPED = re.compile(rb"lines 40\nbytes %d\nmended 0\ncut 0\nmissing 0\nasked (\d+)\nposted \1\ndiscarded 0\noverrun 0\nhandled \1\n" % (len(LINES) - 40))
PIPED_FRONT = re.compile(rb"lines \d+\nbytes \d+\nmended 0\ncut 0\nmissing 0\nasked (\d+)\nposted \1\ndiscarded 0\noverrun 0\nhandled \1\n")
NO_INPUT = re.compile(rb"alog: standard input cannot be read: " + WHY)
RETRIED = re.compile(rb"alog: file [^\n]+: a call failed and is tried again(?:: " + WHY[:-2] + rb")?\nalog: file [^\n]+: it goes on\n")
ASIDE = re.compile(r"\.(?:probe|a\.[12]\.log)\.replaced")
# the commands that are tried on a folder: their words, their configuration, what they are given, and the lines that they leave
COMMANDS = {
    "load": (["load", "--messages=40"], CONFIG, b"", LINES),
    "pipe": (["pipe", "--totals"], b"retry = 0\n" + CONFIG, LINES, LINES),
    "pipe that tries again": (["pipe", "--totals"], CONFIG, LINES, LINES),
    "load that replaces": (["load", "--messages=40"], FEW_FILES, b"", LAST_LINES),
    "pipe that replaces": (["pipe", "--totals"], b"retry = 0\n" + FEW_FILES, LINES, LAST_LINES),
}
# what is in a folder: whether the files have these lines, or a part of the lines in their order, or none, and what else is there
Left = collections.namedtuple("Left", "is_whole is_part is_none others")


def run(words, given, room, kind, number, how, by_bytes=False):
    """Runs the program so that the call of this kind and number fails so; returns what it did, and on which descriptor the call was made:
    None where there was no such call."""
    told = tempfile.mktemp(dir=room)
    first, _, then = kind.partition(", ")
    env = {**os.environ, "LD_PRELOAD": f"{room}/fail_io.so", "FAIL_CALL": first, "FAIL_THEN": then, "FAIL_AT": str(number), "FAIL_HOW": str(how), "FAILED": told}
    if by_bytes:
        env["ONE_BYTE"] = "1"
    ran = subprocess.run([PROGRAM, *words], input=given, capture_output=True, env=env, timeout=60)
    descriptor = bytes_of(told)
    if descriptor is not None:
        os.remove(told)
    return ran, None if descriptor is None else int(descriptor)


def is_cut(found, whole):
    """Whether these bytes are the whole but for one part."""
    front = os.path.commonprefix([found, whole])
    return len(found) <= len(whole) and whole.endswith(found[len(front) :])


def outcome(ran, row, kind, how, descriptor):
    """Returns in words what came of a row, or None where it is none of what may come."""
    found = ran.returncode, ran.stdout, ran.stderr
    if how in (SHORT, errno.EINTR) or descriptor is None:
        return "nothing" if found == (row.status, row.printed, row.errors) else None
    if kind == "write" and descriptor == 2:
        is_well = found[:2] == (row.status, row.printed) and is_cut(ran.stderr, row.errors)
        return "fewer words" if is_well else None
    said = UNWRITTEN if kind == "write" else NO_FILE if descriptor else UNREAD
    is_front = row.printed.startswith(ran.stdout) and (said is not NO_FILE or not ran.stdout)
    return "told" if ran.returncode == 3 and is_front and said.fullmatch(ran.stderr) else None


def sweep_row(row, room, kind, how, by_bytes):
    """Makes each call of this kind fail so. Returns how many there were, what came of them, and at which all was not well."""
    found, bad, tried = collections.Counter(), [], 0
    stride = STRIDE if by_bytes and len(row.given) + len(row.printed) > MOST_BYTES else 1
    for number in itertools.count(1, stride):
        ran, descriptor = run(row.words, row.given, room, kind, number, how, by_bytes)
        came = outcome(ran, row, kind, how, descriptor)
        bad += [number] * (came is None)
        if descriptor is None:
            return tried, found, bad
        found[came] += 1
        tried += 1


def sweep_rows(room, pool):
    """Sweeps each row in all ways, tells of each what was tried, and returns how many calls that were, and whether all is well."""
    ways = [(kind, how, False) for kind in WAYS for how in WAYS[kind]] + [(kind, errno.EIO, True) for kind in WAYS]
    started = {row.name: [(*way, pool.submit(sweep_row, row, room, *way)) for way in ways] for row in rows("rows") if "FOLDER" not in row.words}
    counts, well = collections.Counter(), True
    for name, each in started.items():
        found, calls, bad = collections.Counter(), collections.Counter(), []
        for kind, how, by_bytes, it in each:
            tried, came, wrong = it.result()
            found.update(came)
            calls[f"{kind}s of a byte" if by_bytes else f"{kind}s"] += tried
            bad += [(kind, how, by_bytes, number) for number in wrong]
        print(f"io: rows/{name}: {in_words(calls)}: {in_words(found)}" + (f"; wrong at {bad}" if bad else ""), flush=True)
        counts.update(calls)
        well &= not bad
    return counts, well


def in_words(counts):
    return ", ".join(f"{count} {what}" for what, count in sorted(counts.items(), key=str) if what)


def left_in(folder, kept):
    """Returns what is left in a folder of which these lines are to be kept: of all a front, or, where a rotation replaces, some in a row."""
    lines = b"".join(bytes_of(f"{folder}/{it}") or b"" for it in FILES)
    is_part = LINES.startswith(lines) if kept == LINES else b"\n" + lines in b"\n" + LINES
    return Left(lines == kept, is_part, not lines, sorted(set(os.listdir(folder)) - {*FILES, LOCK}))


def is_tidy(kind, others):
    """Whether nothing is in a folder but its files and, behind a removal or two calls that failed, what a rename had set aside."""
    is_probe = kind == "unlink" and others == [".probe.replaced"]
    return not others or is_probe or kind in PAIRS and len(others) == 1 and ASIDE.fullmatch(others[0])


def folder_outcome(ran, kind, how, descriptor, left):
    """Returns in words what came of a load to a folder, or None where it is none of what may come."""
    found = ran.returncode, ran.stdout
    if not is_tidy(kind, left.others):
        return None
    if found == (0, TOTALS) and not ran.stderr and left.is_whole:
        return "nothing"
    if kind == "write" and descriptor in (1, 2) and ran.returncode in (0, 3):
        return "told" if left.is_whole and TOTALS.startswith(ran.stdout) and (UNWRITTEN.fullmatch(ran.stderr) or descriptor == 2) else None
    if found == (3, TOTALS) and SINK_FAILED.fullmatch(ran.stderr) and left.is_part:
        return "a fault"
    is_refused = any(it.fullmatch(ran.stderr) for it in (NO_FILE, NO_FOLDER, NO_LOCK, UNOPENED))
    return "refused" if found == (3, b"") and is_refused and left.is_none else None


def pipe_outcome(ran, kind, how, descriptor, left):
    """Returns in words what came of a pipe to a folder, or None where it is none of what may come."""
    if not is_tidy(kind, left.others):
        return None
    if ran.returncode == 0 and PIPED.fullmatch(ran.stdout) and not ran.stderr and left.is_whole:
        return "nothing"
    if kind == "write" and descriptor in (1, 2) and ran.returncode in (0, 3):
        return "told" if left.is_whole and (UNWRITTEN.fullmatch(ran.stderr) or descriptor == 2) else None
    is_told = ran.returncode == 3 and PIPED_FRONT.fullmatch(ran.stdout) and left.is_part
    if is_told and SINK_FAILED.fullmatch(ran.stderr):
        return "a fault"
    if is_told and kind == "read" and descriptor == 0 and NO_INPUT.fullmatch(ran.stderr):
        return "a front"
    is_refused = any(it.fullmatch(ran.stderr) for it in (NO_FILE, NO_FOLDER, NO_LOCK, UNOPENED))
    return "refused" if (ran.returncode, ran.stdout) == (3, b"") and is_refused and left.is_none else None


def patient_outcome(ran, kind, how, descriptor, left):
    """Returns in words what came of a pipe to a folder that tries again, or None where it is none of what may come."""
    if ran.returncode == 0 and PIPED.fullmatch(ran.stdout) and RETRIED.fullmatch(ran.stderr) and left.is_whole and not left.others:
        return "tried again"
    came = pipe_outcome(ran, kind, how, descriptor, left)
    return None if came == "a fault" else came


OUTCOMES = {"pipe": pipe_outcome, "pipe that tries again": patient_outcome, "pipe that replaces": pipe_outcome}


def sweep_folder(room, command, kind, how):
    """Makes each call of this kind of a command on a folder fail so. Returns how many there were, what came, and where all was not well."""
    found, bad = collections.Counter(), []
    first, config, given, kept = COMMANDS[command]
    with tempfile.TemporaryDirectory(dir=room) as place:
        with open(f"{place}/it.toml", "wb") as it:
            it.write(config)
        for number in itertools.count(1):
            folder = tempfile.mkdtemp(dir=place)
            words = [first[0], f"{place}/it.toml", *first[1:], "--folder", folder]
            ran, descriptor = run(words, given, room, kind, number, how)
            came = OUTCOMES.get(command, folder_outcome)(ran, kind, how, descriptor, left_in(folder, kept))
            bad += [number] * (came is None)
            if descriptor is None:
                return number - 1, found, bad
            found[came] += 1


def sweep_folders(room, pool):
    """Sweeps each command on a folder for each kind of call and each way to fail. Returns how many calls that were, and whether all is well."""
    ways = [(command, kind, how) for command in COMMANDS for kind in FILE_WAYS for how in FILE_WAYS[kind]]
    started = [(*way, pool.submit(sweep_folder, room, *way)) for way in ways]
    counts, well = collections.Counter(), True
    for command, kind, how, it in started:
        tried, found, bad = it.result()
        name = {NONE: "no byte", SHORT: "one byte"}.get(how) or errno.errorcode[how]
        print(f"io: a {command} to a folder: {tried} {kind}, {name}: {in_words(found)}" + (f"; wrong at {bad}" if bad else ""), flush=True)
        counts[f"calls of {kind} of the {command} to a folder"] += tried
        well &= not bad
    return counts, well


def main():
    subprocess.run(["./alog", "--prove", "check", "examples/one_file.toml"], stdout=subprocess.DEVNULL, check=True)
    with tempfile.TemporaryDirectory(prefix="alog-io-") as room, futures.ThreadPoolExecutor(os.cpu_count()) as pool:
        subprocess.run(["cc", "-shared", "-fPIC", "-O1", "-o", f"{room}/fail_io.so", ".ci/fail_io.c", "-ldl"], check=True)
        sweeps = [sweep_rows(room, pool), sweep_folders(room, pool)]
    print(f"io: {in_words(sum((counts for counts, _ in sweeps), collections.Counter()))}")
    return 0 if all(well for _, well in sweeps) else 1


if __name__ == "__main__":
    sys.exit(main())

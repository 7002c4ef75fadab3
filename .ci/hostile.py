"""Gives the proved and built program what nobody should: hostile.py [SEED].

Each cut of a small configuration, and each of its bytes replaced by zero and by sixteen others; and 100,000 scripts and documents of a
fixed generator. Whatever comes in, the program ends within ten seconds by an answer or by a refusal that docs/FORMATS.md lists: by a
status of its table, with lines of its forms, each file as long as is told. It prints how many of each there were. At last come
streams that cannot be read or written, or have no end, and loads to hostile folders (folders.py).
"""
import collections
import concurrent.futures as futures
import os
import random
import re
import resource
import subprocess
import sys
import tempfile

sys.dont_write_bytecode = True
from folders import folders

PROGRAM = os.path.abspath("crates/alog/out/alog")
SMALL = b'queue = 8\n[[sink]]\nname = "out"\nkind = "memory"\npattern = "%n %L %v"\n[[logger]]\nname = "net"\nsinks = ["out"]\n'
OTHERS = b"\t\n\r \"#',-.0=[]{\xff"
SCRIPTS, CONFIGURED, DOCUMENTS = 50_000, 25_000, 25_000

TEXT = rb"[^\n]*"
EVENT = rb"(?:claim|write|full|grab|empty|idle|busy) \d+|spent"
WHY = rb"full|stalled|busy|spent"
TOLD = rb"\d+ (?:%s|take \d+ %s|posted \d+ overran \d+|discarded (?:%s) overran \d+)" % (EVENT, TEXT, WHY)
TURN = rb"\d+ (?:(?:line|below|fault|flush) \d+ %s|kept|dumped \d+|filtered (?:trace|debug|info|warning|error|critical|off))" % TEXT
LINE = re.compile(rb"(?:%s|%s|cells(?: \d+:(?:claimed|written|emptying))*|overrun \d+ discarded \d+)\n" % (TOLD, TURN))
FILE = re.compile(rb"== %s (\d+)\n" % TEXT)
REFUSED_CONFIG = re.compile(rb"alog: refused (28|(?:24|29|30|31|32)(?= in ))(?: in (?:top|sink \d+|logger \d+))?\nalog: [^\n]+\n")
REFUSED_LINE = re.compile(rb"alog: refused 33 at line (\d+)\nalog: [^\n]+\n")


# what is read and written that no one should: the words, standard input, standard output, the status and how standard error begins
STREAMS = [
    (["replay"], "/", "/dev/null", 3, b"alog: refused 34\n"),
    (["replay"], "rows/text.alog", "/dev/full", 3, b"alog: refused 35\n"),
    (["replay", "--config", "rows/hello.toml"], "rows/hello.alog", "/dev/full", 3, b"alog: refused 35\n"),
    (["replay"], "/dev/zero", "/dev/null", 2, b"alog: refused 33 at line 1\n"),
    (["format", "%v", "x"], "/dev/null", "/dev/full", 3, b"alog: refused 35\n"),
    (["load", "rows/load.toml"], "/dev/null", "/dev/full", 3, b"alog: refused 35\n"),
    (["check", "rows/load.toml"], "/dev/null", "/dev/full", 3, b"alog: refused 35\n"),
    (["--help"], "/dev/null", "/dev/full", 3, b"alog: refused 35\n"),
    (["check", "/"], "/dev/null", "/dev/null", 3, b"alog: / cannot be read: "),
    (["check", "/dev/zero"], "/dev/null", "/dev/null", 4, b"alog: refused 1\n"),
]
# with so much memory, in bytes
MEMORY = 1 << 30


def ran(words, given=b"", cwd=None):
    return subprocess.run([PROGRAM, *words], input=given, capture_output=True, timeout=10, cwd=cwd)


def are_told(out, whole):
    """Whether these are the lines of a script, with its files behind them where it came to its end."""
    at = 0
    while at < len(out) and not out.startswith(b"== ", at):
        line = LINE.match(out, at)
        if not line:
            return False
        at = line.end()
    while at < len(out):
        head = FILE.match(out, at)
        if not head or not whole or head.end() + int(head[1]) > len(out):
            return False
        at = head.end() + int(head[1])
    return True


def of_check(document, folder):
    """Returns in a word what came of a document, or None where it is none of what may come."""
    name = f"{folder}/it.toml"
    with open(name, "wb") as it:
        it.write(document)
    it = ran(["check", name])
    if (it.returncode, it.stdout, it.stderr) == (0, b"ok\n", b""):
        return "ok"
    refused = REFUSED_CONFIG.fullmatch(it.stderr)
    return f"refused {refused[1].decode()}" if it.returncode == 2 and not it.stdout and refused else None


def of_script(script, config):
    """Returns in a word what came of a script, or None where it is none of what may come."""
    it = ran(["replay", *(["--config", config] if config else [])], script)
    if it.returncode == 0 and not it.stderr and are_told(it.stdout, True):
        return "replayed"
    refused = REFUSED_LINE.fullmatch(it.stderr)
    if it.returncode == 2 and refused and 1 <= int(refused[1]) <= script.count(b"\n") + 1 and are_told(it.stdout, False):
        return "refused 33"
    return None


def number(chance):
    return chance.choice([str(chance.randrange(8)), str(chance.randrange(70)), "0", "2", "63", "64", "512", "513", "007", "-1", "+1", str(2**62), str(2**62 - 1), str(2**64), "9" * 40])


def words(chance):
    return " ".join(chance.choice(["a", "text", "ü", "x" * chance.randrange(90), "  ", ""]) for _ in range(chance.randrange(4)))


def odd_line(chance):
    """Returns a line that is a command by its form alone, if at all."""
    actor, logger = number(chance), chance.choice(["net", "other", ""])
    return chance.choice([
        f"push {actor} {words(chance)}", f"pop {actor}", f"work {actor}", f"step {actor} {number(chance)}", f"run {actor}", f"ring {actor} 0",
        f"post {actor} {chance.choice(['block', 'other'])} a", f"log {actor} {number(chance)} {logger} info a", f"flush {actor} {logger}",
        f"dump {actor} 0 {logger}", f"level {logger} none", "cells counts", "cells", "", "# a line", words(chance),
    ])


def plain_call(chance, actor):
    policy = chance.choice(["block", "overrun_oldest", "discard_new"])
    return chance.choice([f"push {actor} {words(chance)}", f"pop {actor}", f"work {actor}", f"post {actor} {policy} {words(chance)}"])


def configured_call(chance, actor):
    time, level = chance.choice(["0", "-5", "1706974546123000000"]), chance.choice(["debug", "info", "error", "off"])
    return chance.choice([f"log {actor} {time} net {level} {words(chance)}", f"work {actor}", f"flush {actor} net", f"dump {actor} 0 net"])


def line(chance, call, busy):
    """Returns the next line of a script whose actors are in these calls: most often one that may stand there."""
    actor = chance.randrange(6)
    if chance.random() < 0.02:
        return odd_line(chance)
    if chance.random() < 0.1:
        return chance.choice(["cells", "counts"])
    if actor not in busy:
        busy[actor] = 0
        return call(chance, actor)
    if chance.random() < 0.3 and not busy[actor]:
        busy[actor] = 1
        return f"step {actor}"
    del busy[actor]
    return f"run {actor}"


def spoilt(chance, data, often):
    """Returns bytes of which, this often, some were changed, left out or said twice."""
    while data and chance.random() < often:
        at, to = chance.randrange(len(data)), chance.randrange(len(data))
        data = chance.choice([
            data[:at] + bytes([chance.randrange(256)]) + data[at + 1:], data[:at], data[:at] + data[to:], data[:at] + b" " + data[at:], data + data[at:],
        ])
    return data


def scripts(chance, count, call, head):
    for _ in range(count):
        busy = {}
        lines = [*head(chance), *(line(chance, call, busy) for _ in range(chance.randrange(1, 30)))]
        yield spoilt(chance, "\n".join(lines).encode() + b"\n" * chance.randrange(2), 0.15)


def documents(chance, count):
    with open("examples/fan.toml", "rb") as it:
        long = it.read()
    values = [b"0", b"1", b"-1", b"3", b"8", b'""', b'"out"', b'"%v"', b"[]", b'["out"]', b"true", b"1.5", b'"daily"', b'"fan"', b'"rotating"', b"9" * 30, b"[[1]]", b"{ a = 1 }"]
    for _ in range(count):
        lines = chance.choice([SMALL, long]).split(b"\n")
        for _ in range(chance.randrange(4)):
            at = chance.randrange(len(lines))
            key = lines[at].split(b"=")[0]
            lines[at:at + 1] = chance.choice([[], [lines[at]] * 2, [key + b"= " + chance.choice(values)], [chance.choice(lines)], [lines[at], b"colour = 1"]])
        yield spoilt(chance, b"\n".join(lines), 0.2)


def streams():
    """Runs the program on each of the streams, tells of which it ended otherwise, and returns whether all is well."""
    bad, limit = [], lambda: resource.setrlimit(resource.RLIMIT_AS, (MEMORY, MEMORY))
    for words, given, taken, status, errors in STREAMS:
        source, target = os.open(given, os.O_RDONLY), os.open(taken, os.O_WRONLY)
        it = subprocess.run([PROGRAM, *words], stdin=source, stdout=target, stderr=subprocess.PIPE, preexec_fn=limit, timeout=60)
        os.close(source)
        os.close(target)
        bad += [] if it.returncode == status and it.stderr.startswith(errors) else [" ".join([*words, "<", given, ">", taken])]
    print(f"hostile: streams: {len(STREAMS)}" + (f"; wrong: {', '.join(bad)}" if bad else ", each as listed"), flush=True)
    return not bad


def sweep(name, judge, cases):
    """Judges each case, on all processors, tells what came of them, and returns whether all is well."""
    found, bad = collections.Counter(), []
    with futures.ThreadPoolExecutor(os.cpu_count()) as pool:
        for case, came in pool.map(lambda it: (it, judge(it)), cases):
            found[came] += 1
            if came is None:
                bad.append(case)
    told = ", ".join(f"{count} {came}" for came, count in sorted(found.items(), key=str) if came)
    print(f"hostile: {name}: {sum(found.values())}: {told}" + (f"; wrong: {len(bad)}, the first {bad[0]!r}" if bad else ""), flush=True)
    return not bad


def inputs(chance, room):
    def check(document):
        with tempfile.TemporaryDirectory(dir=room) as folder:
            return of_check(document, folder)

    config = f"{room}/small.toml"
    with open(config, "wb") as it:
        it.write(SMALL + b"backtrace = 2\n")
    cuts = [SMALL[:at] for at in range(len(SMALL))]
    turned = [SMALL[:at] + bytes([byte]) + SMALL[at + 1:] for at in range(len(SMALL)) for byte in b"\0" + OTHERS]
    rings = lambda it: ["ring 2 0"] if it.random() < 0.8 else [f"ring {number(it)} {number(it)}"]
    return [
        sweep("the small configuration, cut behind each of its bytes", check, cuts),
        sweep("the same with each byte replaced by zero and by sixteen others", check, turned),
        sweep("scripts", lambda it: of_script(it, None), scripts(chance, SCRIPTS, plain_call, rings)),
        sweep("scripts with a configuration", lambda it: of_script(it, config), scripts(chance, CONFIGURED, configured_call, lambda it: [])),
        sweep("documents", check, documents(chance, DOCUMENTS)),
        streams(),
        folders(PROGRAM, room),
    ]


def main(seed):
    with tempfile.TemporaryDirectory(prefix="alog-hostile-") as room:
        return 0 if all(inputs(random.Random(seed), room)) else 1


if __name__ == "__main__":
    sys.exit(main(int(sys.argv[1]) if len(sys.argv) > 1 else 1))

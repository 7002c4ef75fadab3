"""Makes each allocation of the proved and built program fail in turn, on the rows of rows/ and the scripts and configurations of
examples/; each allocation and each start of a thread of loads; and those of the tests that show calls. With the word `build` it proves
and builds those tests first, where they are not.

Where one fails, the program must end with status 4, its one line on standard error, and a front of what it prints otherwise; or as
it ends otherwise, but that from some line on each turn of one sink is a fault, or that a refusal is told by its number and general words
alone. A load prints nothing with status 4, or with status 3 where there was no memory to open a sink; else with status 3 it prints all
that it prints otherwise, and its one line on standard error: then a sink had no memory for a line. A pipe's store is tried again, and says so. A test must pass, or end by an error
or a message that says want of memory, or a fault of a store, and nothing else: so a wrong answer is seen. Of a test that makes many
allocations each of the first is tried, and so many spread over the others. What has threads is run so many times for each failure, since
threads go on in another order each time, and a test with threads is not tried but for two of pools. It says how many allocations of
which row it tried, and which rows it did not. Needs a C compiler, `cc`, beside `rt`.
"""
import collections
import concurrent.futures as futures
import glob
import os
import re
import subprocess
import sys
import tempfile

sys.dont_write_bytecode = True
from failing import RETRIED
from rows import Row, bytes_of, rows

PROGRAM = "crates/alog/out/alog"
REFUSED, STORE_FAILED = b"alog: refused 1\nalog: out of memory\n", b"alog: refused 22\nalog: a store failed\n"
# what is said of a load or a pipe, which starts threads besides
UNSTARTED = b"alog: refused 1\nalog: out of memory, or a thread could not be started\n"
# what is said of a sink that could not be opened, since there was no memory to ask its store
UNOPENED = re.compile(STORE_FAILED + rb"alog: sink \d+, [^\n]+: the size of its file cannot be read: out of memory\n")
# a turn of a sink, and how its line begins where it is a fault
TURN, FAULT = re.compile(rb"^(\d+) (?:line|below|flush) "), rb"\1 fault "
# what is said of a refusal where there is no memory for the words of its own
GENERAL = [b"alog: %s\n" % it for it in (
    b"no command of this form may stand there", b"the document is not TOML", b"a key that is not known here",
    b"a value that its key can not have", b"a key is missing", b"the name is taken", b"no sink has this name",
)]
# a small load, and what it prints
LOAD = Row("load", ["load", "examples/one_file.toml", "--producers", "2", "--messages", "3"], b"", b"asked 6\nposted 6\ndiscarded 0\noverrun 0\nhandled 6\n", 0, b"")
# the crates whose tests show calls: each is tried where it is built
CRATES = ["test_lines", "test_daily", "test_stores", "test_sinks", "test_queue", "test_loggers"]
# those of their tests that must pass whatever fails
PASSING = {
    "test_queue": ["memory_tests::want_of_memory", "memory_tests::want_of_memory_for_a_swap_ring"],
}
# the tests with threads, of a crate that is built where it is not: whether each must pass, or may say want of memory until all its
# producers are made
BUILT = "test_pool"
POOLS = {"memory_tests::want_of_memory": True, "reserved_tests::posting_takes_no_memory": False}
# how a test says want of memory and nothing else, and how a fault of a store: by its error or by the message of its end
FAILED = rb"\nthe test failed: its result gives status 1\n"
WANTING = re.compile(rb"error: [^\n]*\b(?:OutOfMemory|AllocError|AllocFailed)\b[^\n]*" + FAILED + rb"|out of memory\n")
FAULTED = re.compile(rb"error: Store(?:Error)?" + FAILED + rb"|the store failed\n")
# how many times what has threads is run for one failure, and how many runs it has at most, if that is not fewer than once for each
TIMES, MOST_RUNS = 10, 6_000
# how many of the first allocations of a test are tried, and how many spread over the others
FIRST, SPREAD = 300, 100
# what fails, and what it is called
KINDS = {"FAIL_ALLOC": "allocations", "FAIL_THREAD": "starts of threads"}


def cases():
    """Returns the rows of both folders, a check of each configuration that a script of examples/ has, and small loads, by the names that
    are printed. FOLDER stands for a folder."""
    for folder in ("rows", "examples"):
        yield from ((f"{folder}/{it.name}", it) for it in rows(folder))
    for config in sorted(glob.glob("examples/*.toml")):
        if os.path.exists(config.removesuffix("toml") + "alog"):
            yield config, Row(config, ["check", config], b"", b"ok\n", 0, b"")
    yield "a small load", LOAD
    yield "a small load to a folder", LOAD._replace(words=[*LOAD.words, "--folder", "FOLDER"])


def run(room, words, given, kind, number):
    """Runs a program so that the call of this kind and number fails; returns what it did, and how many calls of the kind it made: that
    many at least, where it was ended before it could tell."""
    ran, counts = run_counted(room, words, given, kind, number)
    return ran, counts[kind] if counts else number


def run_counted(room, words, given, kind, number):
    """The same, with how many calls of each kind it made, or None where it was ended before it could tell."""
    calls = tempfile.mktemp(dir=room)
    env = {**os.environ, "LD_PRELOAD": f"{room}/fail_alloc.so", kind: str(number), "ALLOCS": calls, "TMPDIR": room}
    ran = subprocess.run(words, input=given, capture_output=True, env=env, timeout=60)
    told = bytes_of(calls)
    if told is None:
        return ran, None
    os.remove(calls)
    return ran, dict(zip(KINDS, map(int, told.split())))


def outcome(ran, row):
    """Returns in words what came of a run, or None where it is none of what may come."""
    if ran.returncode == 4 and ran.stderr in (REFUSED, UNSTARTED) and row.printed.startswith(ran.stdout):
        return "no memory"
    if ran.returncode != row.status:
        return None
    if ran.stderr == row.errors:
        return "nothing" if ran.stdout == row.printed else "a fault" if is_faulted(ran.stdout, row.printed) else None
    return "general words" if ran.stdout == row.printed and is_general(ran.stderr, row.errors) else None


def is_faulted(found, whole):
    """Whether these are the lines of a script but for turns that are faults, one at least; of the files behind them nothing is asked."""
    found, whole = (it.partition(b"\n== ")[0].rstrip(b"\n").split(b"\n") for it in (found, whole))
    are_told = all(it in (line, TURN.sub(FAULT, line)) for it, line in zip(found, whole))
    return are_told and len(found) == len(whole) and found != whole


def is_general(found, wanted):
    """Whether a refusal is told as wanted, but by general words."""
    head, _, words = found.partition(b"\nalog: ")
    return wanted.startswith(head + b"\n") and b"alog: " + words in GENERAL


def load_outcome(ran, row):
    """Returns in words what came of a load, or None where it is none of what may come."""
    if ran.returncode == 3 and ran.stdout == row.printed and ran.stderr.startswith(STORE_FAILED):
        return "a fault"
    if (ran.returncode, ran.stdout) == (3, b"") and UNOPENED.fullmatch(ran.stderr):
        return "a sink that is not opened"
    if (ran.returncode, ran.stdout) == (0, row.printed) and RETRIED.fullmatch(ran.stderr):
        return "tried again"
    found = ran.returncode, ran.stdout, ran.stderr
    return {(4, b"", REFUSED): "no memory", (4, b"", UNSTARTED): "no memory", (0, row.printed, b""): "nothing"}.get(found)


def pass_outcome(ran, row):
    """Returns in words that a test passed, or None."""
    return "nothing" if ran.returncode == 0 and row.printed in ran.stdout else None


def test_outcome(ran, row):
    """Returns in words what came of a test, or None where it is none of what may come."""
    said = [word for word, form in (("no memory", WANTING), ("a fault", FAULTED)) if ran.returncode and form.fullmatch(ran.stderr)]
    return said[0] if said else pass_outcome(ran, row)


def sweep(room, name, row, judge, kind="FAIL_ALLOC", times=1):
    """Makes each call of this kind that a program makes fail in turn, and tells what came of it. Returns how many calls that were, and
    whether all is well: None where the program says otherwise though nothing fails, and so nothing was tried."""
    found, bad, number = collections.Counter(), [], 1
    ran, made = run(room, row.words, row.given, kind, 0)
    if judge(ran, row) != "nothing":
        return 0, None
    times = min(times, max(1, MOST_RUNS // max(1, made)))
    while True:
        runs = [run(room, row.words, row.given, kind, number) for _ in range(times)]
        if number > max(made for _, made in runs) or number > 2 * made:
            break
        came = [judge(ran, row) for ran, _ in runs]
        found.update(came)
        bad += [number] * (None in came)
        number += 1
    told = ", ".join(f"{count} {came}" for came, count in sorted(found.items(), key=str) if came)
    each = f", {times} times each" if times > 1 else ""
    print(f"memory: {name}: {number - 1} {KINDS[kind]}{each}: {told}" + (f"; wrong at {bad}" if bad else ""), flush=True)
    return number - 1, not bad


def sweep_cases(room):
    """Sweeps each case, on all processors; a load with threads for both kinds of calls. Returns by name what came of each sweep."""
    started = {}
    with futures.ThreadPoolExecutor(os.cpu_count()) as pool:
        for name, row in cases():
            has_threads = row.words[0] in ("load", "pipe") and row.status == 0
            for kind in KINDS if has_threads else ["FAIL_ALLOC"]:
                folder = tempfile.mkdtemp(dir=room)
                it = row._replace(words=[f"./{PROGRAM}", *(folder if word == "FOLDER" else word for word in row.words)])
                judge, times = (load_outcome, TIMES) if has_threads else (outcome, 1)
                started[name, kind] = pool.submit(sweep, room, name, it, judge, kind, times)
    return {key: it.result() for key, it in started.items()}


def sweep_test(room, name, row, judge):
    """Sweeps a test without threads: each of its first allocations, and so many of the others. Returns as a sweep does, and no count where
    it has threads."""
    ran, counts = run_counted(room, row.words, row.given, "FAIL_ALLOC", 0)
    if judge(ran, row) != "nothing" or not counts:
        return 0, None
    if counts["FAIL_THREAD"]:
        return None, True
    made = counts["FAIL_ALLOC"]
    numbers = [*range(1, min(made, FIRST) + 1), *range(FIRST + 1, made + 1, max(1, (made - FIRST) // SPREAD))]
    came = [(number, judge(run(room, row.words, row.given, "FAIL_ALLOC", number)[0], row)) for number in numbers]
    found = collections.Counter(it for _, it in came if it)
    bad = [number for number, it in came if not it]
    told = ", ".join(f"{count} {it}" for it, count in sorted(found.items()))
    of = f" of {made}" if len(numbers) < made else ""
    print(f"memory: {name}: {len(numbers)}{of} allocations: {told}" + (f"; wrong at {bad}" if bad else ""), flush=True)
    return len(numbers), not bad


def stands_on():
    """Returns by its name the crates that a crate stands on, as crates.txt has them."""
    lines = [it.split(":") for it in open("crates.txt", encoding="utf-8").read().splitlines() if it[:1] not in ("#", "")]
    return {head.split()[0]: tail.split() for head, tail in lines}


def is_built(crate):
    """Whether the tests of a crate are built, of what its sources and those of the crates below it are now."""
    program = f"crates/{crate}/out/{crate}_tests"
    below = stands_on()
    needed, waiting = set(), [crate]
    while waiting:
        it = waiting.pop()
        if it in below and it not in needed:
            needed.add(it)
            waiting += below[it]
    files = (file for it in needed for part in ("src", "specs", "proofs") for file in glob.iglob(f"crates/{it}/{part}/**/*", recursive=True))
    return os.path.exists(program) and all(os.path.getmtime(it) <= os.path.getmtime(program) for it in files)


def build(crate):
    """Proves and builds the tests of a crate."""
    subprocess.run(["rt", "test"], cwd=f"crates/{crate}", stdout=subprocess.DEVNULL, check=True)


def tests_of(crate):
    """Returns the rows of the tests of a built crate, by their names."""
    program = f"crates/{crate}/out/{crate}_tests"
    listed = subprocess.run([program, "--list"], capture_output=True, check=True, text=True).stdout.split("\n")
    names = [it.removesuffix(": test") for it in listed if it.endswith(": test")]
    return {name: Row(name, [program, name], b"", b"test result: ok", 0, b"") for name in names}


def sweep_tests(room, builds):
    """Sweeps the tests. Returns by name what came of each sweep, the tests with threads, and the crates whose tests are not built."""
    started, unbuilt = {}, []
    with futures.ThreadPoolExecutor(os.cpu_count()) as pool:
        for crate in CRATES:
            if builds and not is_built(crate):
                build(crate)
            if not is_built(crate):
                unbuilt.append(crate)
                continue
            for name, row in tests_of(crate).items():
                judge = pass_outcome if name in PASSING.get(crate, []) else test_outcome
                started[f"{crate} {name}", "FAIL_ALLOC"] = pool.submit(sweep_test, room, f"{crate} {name}", row, judge)
    found = {key: it.result() for key, it in started.items()}
    threaded = [name for (name, _), (count, _) in found.items() if count is None]
    return {key: it for key, it in found.items() if it[0] is not None}, threaded, unbuilt


def sweep_pools(room):
    """Sweeps the tests of pools. Returns by name what came of each sweep."""
    if not is_built(BUILT):
        build(BUILT)
    found, rows_of = {}, tests_of(BUILT)
    for name, must_pass in POOLS.items():
        judge = pass_outcome if must_pass else test_outcome
        for kind in KINDS:
            found[f"{BUILT} {name}", kind] = sweep(room, f"{BUILT} {name}", rows_of[name], judge, kind, TIMES)
    return found


def main(words):
    if words not in ([], ["build"]):
        print("usage: ./check memory [build]")
        return 2
    subprocess.run(["./alog", "--prove", "check", "examples/one_file.toml"], stdout=subprocess.DEVNULL, check=True)
    with tempfile.TemporaryDirectory(prefix="alog-memory-") as room:
        subprocess.run(["cc", "-shared", "-fPIC", "-O1", "-o", f"{room}/fail_alloc.so", ".ci/fail_alloc.c", "-ldl"], check=True)
        tests, threaded, unbuilt = sweep_tests(room, bool(words))
        found = {**sweep_cases(room), **sweep_pools(room), **tests}
    untried = sorted({name for (name, _), (_, well) in found.items() if well is None})
    tried = {name for name, _ in found} - set(untried)
    counts = ", ".join(f"{sum(count for (_, it), (count, _) in found.items() if it == kind)} {KINDS[kind]}" for kind in KINDS)
    print(f"memory: {len(tried)} rows and tests, {counts}")
    whys = {"they say otherwise where nothing fails": untried, "they have threads": threaded, "they are not built": unbuilt}
    for why, names in whys.items():
        print(f"memory: not tried, since {why}: {', '.join(names) or 'none'}")
    return 0 if all(well for _, well in found.values()) else 1


if __name__ == "__main__":
    sys.exit(main(sys.argv[1:]))

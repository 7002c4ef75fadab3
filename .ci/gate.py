"""What `check` needs beside `rt ci`: processor seconds by crate and phase, and the wrong bodies that no gate tries.

gate.py run FILE WORD..   runs a command, and writes to FILE, each minute and at its end, what it and each prover below it have used
gate.py also FILE WORD..  the same for a further command of the same gate
gate.py times FILE        prints the processor seconds of the last gate by crate and phase, beside the budget
gate.py applies           says which wrong bodies no longer apply, which crates have more edits than the gate tries or a file
                          that is not laid out, and which tests comments cite that are not there
gate.py refused [NAME..]  tries the edits of crates/NAME/refused, the named wrong bodies that the gate tries: many at once, each in a function
                          of its own (rounds.py), over the libraries that the gate built (prover.py)
gate.py wrong [NAME..]    the same for the further ones, of crates/NAME/wrong
gate.py planted           tries the bodies that no contract refuses, crates/NAME/planted, on a copy: a test of that crate must fail, or one of
                          the sessions that lines `session: NAME` of the edit name
"""
import concurrent.futures as futures
import glob
import json
import os
import re
import resource
import shutil
import subprocess
import sys
import tempfile
import time

sys.dont_write_bytecode = True
import rounds
from prover import Prover
from unproved import built_unproved

# processor seconds: of all of alog, of a crate's proof with its tests, of its edits
BUDGET, SHARE, EDITS_SHARE = 12_500, 600, 400
MOST_EDITS = 12
PHASES = ("proof", "tests", "edits")
TICKS = os.sysconf("SC_CLK_TCK")
# a test, and the tests that a comment cites: "The tests `a`, `b` and `c` of `test_queue` show it."
TEST = re.compile(r"#\[test\]\s*(?:#\[[^\]]*\]\s*)*fn (\w+)")
CITED = re.compile(r"\b[Tt]ests? (`\w+`(?:(?:, | and | of |, and )`\w+`)*)")


def stat_of(pid):
    """Returns a process's parent, the processor seconds that it has used itself, and when it was started."""
    try:
        with open(f"/proc/{pid}/stat") as it:
            fields = it.read().rpartition(")")[2].split()
    except OSError:
        return None
    return int(fields[1]), (int(fields[11]) + int(fields[12])) / TICKS, fields[19]


def label_of(pid):
    """Returns the crate and the phase that a prover's process works on."""
    try:
        with open(f"/proc/{pid}/cmdline", "rb") as it:
            words = it.read().decode(errors="replace").split("\0")
        room = os.readlink(f"/proc/{pid}/cwd")
    except OSError:
        return None
    if os.path.basename(words[0]) != "rattle" or "--crate-name" not in words:
        return None
    crate = words[words.index("--crate-name") + 1]
    if os.path.basename(room).startswith("rt-edit-"):
        return crate, "edits"
    return crate, "tests" if "--test" in words else "proof"


def below(top):
    """Returns the processes below one, by number, with what stat_of tells of each."""
    seen = {int(it): stat_of(it) for it in os.listdir("/proc") if it.isdigit()}
    found, new = {}, [top]
    while new:
        new = [pid for pid, it in seen.items() if it and it[0] in new]
        found.update((pid, seen[pid]) for pid in new)
    return found


def run(file, words, is_more=False):
    """Runs a command and samples what its provers use, and writes it each minute. What ends between two samples is in the sum of all alone.

    A gate proves again only what changed since one that passed: of the rest the file keeps what it told before. A further command of the same
    gate adds to the sum of all."""
    before, others = told_in(file)
    others *= is_more
    ran = subprocess.Popen(words, stdin=subprocess.DEVNULL)
    labels, used, due = {}, {}, 0
    while ran.poll() is None:
        for pid, (_, seconds, start) in below(ran.pid).items():
            label = labels.get((pid, start)) or label_of(pid)
            if label:
                labels[pid, start], used[pid, start] = label, seconds
        if time.monotonic() > due:
            write(file, before, labels, used, others)
            due = time.monotonic() + 60
        time.sleep(0.2)
    spent = resource.getrusage(resource.RUSAGE_CHILDREN)
    write(file, before, labels, used, others + spent.ru_utime + spent.ru_stime - sum(used.values()))
    return ran.returncode


def told_in(file):
    """Returns the seconds that a file tells of each crate by phase, of crates that are there still, and of all that was no prover's."""
    try:
        with open(file) as it:
            told = json.load(it)
        others = told["all"] - sum(sum(by.values()) for by in told["crates"].values())
        return {crate: by for crate, by in told["crates"].items() if os.path.isdir(f"crates/{crate}")}, others
    except (OSError, ValueError):
        return {}, 0


def write(file, before, labels, used, others):
    """Writes what the provers have used, by crate and phase, and what all has: `others` was not theirs."""
    now = {}
    for process, seconds in used.items():
        crate, phase = labels[process]
        by = now.setdefault(crate, {})
        by[phase] = by.get(phase, 0.0) + seconds
    crates = {crate: {**dict.fromkeys(PHASES, 0.0), **before.get(crate, {}), **now.get(crate, {})} for crate in {*before, *now}}
    with open(file, "w") as it:
        json.dump({"crates": crates, "all": sum(sum(by.values()) for by in crates.values()) + others}, it)


def times(file):
    try:
        with open(file) as it:
            found = json.load(it)
    except OSError:
        print("no gate was run here yet: ./check writes what it takes")
        return 1
    sums, spent = found["crates"], found["all"]
    print(f"{'crate':16}{'proof':>8}{'tests':>8}{'edits':>8}{'sum':>8}")
    for crate, by in sorted(sums.items(), key=lambda it: -sum(it[1].values())):
        over = [it for it, is_over in (("proof and tests", by["proof"] + by["tests"] > SHARE), ("edits", by["edits"] > EDITS_SHARE)) if is_over]
        row = "".join(f"{by[it]:8.0f}" for it in PHASES) + f"{sum(by.values()):8.0f}"
        print(f"{crate:16}{row}{'   over its share: ' + ', '.join(over) if over else ''}")
    row = "".join(f"{sum(by[it] for by in sums.values()):8.0f}" for it in PHASES)
    print(f"{'all':16}{row}{spent:8.0f}   of {BUDGET}, with programs and tests; a crate has {SHARE} for proof and tests, {EDITS_SHARE} for edits")
    return 0


def edits_in(folder):
    return sorted(glob.glob(f"{folder}/*.edit"))


def fault_of(edit, crate):
    """Returns why an edit cannot be applied, if it cannot: each `old:` stands once in what the pairs before it left."""
    path, old, texts, pairs = "", None, {}, 0
    with open(edit, encoding="utf-8") as it:
        lines = it.read().split("\n")
    for line in lines:
        if line.startswith("file: "):
            path = line[len("file: ") :].strip()
        elif line.startswith("old: "):
            old = line[len("old: ") :]
        elif line.startswith("new:") and path and old:
            if path not in texts:
                try:
                    with open(f"{crate}/{path}", encoding="utf-8") as it:
                        texts[path] = it.read()
                except OSError:
                    return f"there is no file {path}"
            found = texts[path].count(old)
            if found != 1:
                return f"an 'old:' text is in {path} {found} times, and not once"
            texts[path] = texts[path].replace(old, re.sub(r"\A ", "", line[len("new:") :]))
            old, pairs = None, pairs + 1
    return None if pairs else "it has no 'old:' and 'new:' pair"


def stale(crates):
    """Returns what is said of each wrong or planted body that no longer applies."""
    edits = [(edit, fault_of(edit, crate)) for crate in crates for edit in edits_in(f"{crate}/refused") + edits_in(f"{crate}/wrong") + edits_in(f"{crate}/planted")]
    return [f"{edit}: {why}" for edit, why in edits if why]


def badly_laid_out(crates):
    """Returns what is said of each crate with a file that `rt fmt` would change: the gate proves nothing of such a crate."""
    rattle = os.path.join(os.path.dirname(os.path.realpath(shutil.which("rt"))), "rattle")
    faults = []
    for crate in crates:
        files = [it for part in ("src", "specs", "proofs") for it in glob.glob(f"{crate}/{part}/**/*", recursive=True) if it.endswith((".rt", ".antt"))]
        ran = subprocess.run([rattle, "fmt", "--check", *files], stdout=subprocess.PIPE, stderr=subprocess.STDOUT, text=True, errors="replace")
        if ran.returncode:
            faults.append(f"{crate}: run rt fmt there: {' '.join(ran.stdout.split())[:300]}")
    return faults


def aborting(crates):
    """Returns what is said of each crate, but those of tests, that names the handle by which a function may end the process: the gate refuses it."""
    files = (it for crate in crates if not os.path.basename(crate).startswith("test_") for it in glob.glob(f"{crate}/src/**/*.rt", recursive=True))
    return [f"{it} names Abort, which tests alone may have" for it in files if re.search(r"\bAbort\b", text_of(it))]


def text_of(file):
    with open(file, encoding="utf-8") as it:
        return it.read()


def missing_tests(crates):
    """Returns what is said of each test that a comment cites, as one that shows a call, and that is not there."""
    texts = {it: text_of(it) for crate in crates for it in glob.glob(f"{crate}/src/**/*.rt", recursive=True)}
    there = {name for text in texts.values() for name in TEST.findall(text)} | {os.path.basename(it) for it in crates}
    cited = [(file, words) for file, text in texts.items() for words in CITED.findall(re.sub(r"\n\s*//[/!]? ?", " ", text))]
    return [f"{file} cites the test {name}, which is not there" for file, words in cited for name in re.findall(r"`(\w+)`", words) if name not in there]


def tell(faults):
    print("".join(f"check: {it}\n" for it in faults), end="", flush=True)
    return 1 if faults else 0


def applies():
    crates = sorted(glob.glob("crates/*"))
    counts = [(crate, len(edits_in(f"{crate}/refused"))) for crate in crates]
    many = [f"{crate}/refused has {count} edits: at most {MOST_EDITS} stand there, the others in {crate}/wrong" for crate, count in counts if count > MOST_EDITS]
    return tell(many + stale(crates) + badly_laid_out(crates) + aborting(crates) + missing_tests(crates))


def lanes():
    """Returns how many checks run side by side: as many as the gate's own."""
    jobs = os.environ.get("RT_JOBS", "")
    return int(jobs) if jobs.isdigit() and int(jobs) else len(os.sched_getaffinity(0))


def tried_over_libraries(name, edits, prover):
    """Yields the verdict on each edit of a crate, by checks of the functions that they turn over the libraries that the last gate left."""
    new = []
    for edit in edits:
        told = prover.earlier(name, edit)
        if told:
            yield edit, f"{told} (by an earlier run, of the same files)"
        else:
            new.append(edit)
    room = prover.room(name)
    try:
        for edit, verdict in rounds.verdicts_of(name, room, new, lambda home, functions: prover.check(name, home, functions)):
            if verdict in (rounds.REFUSED, rounds.BY_NAMES):
                prover.keep(name, edit, verdict)
            yield edit, verdict
    finally:
        shutil.rmtree(room, ignore_errors=True)


def tried_by_checks(name, edits):
    """Yields the verdict on each edit of a crate, by checks of the whole crate on a copy of the repository, whose libraries are built there."""
    with tempfile.TemporaryDirectory(prefix="alog-wrong-") as room:
        shutil.copytree("crates", f"{room}/crates", symlinks=True)
        for it in ("crates.txt", "HANDLES"):
            shutil.copy(it, room)

        def check(home, _):
            ran = subprocess.run(["rt", "check"], cwd=home, stdout=subprocess.PIPE, stderr=subprocess.STDOUT, text=True, errors="replace")
            return ran.returncode, ran.stdout

        yield from rounds.verdicts_of(name, f"{room}/crates/{name}", edits, check)


def try_crate(kind, name, prover):
    """Tries a crate's edits, tells of each, and returns how many are refused, how many of these by names alone, and what is let through."""
    edits = edits_in(f"crates/{name}/{kind}")
    tried = tried_over_libraries(name, edits, prover) if prover and prover.serves(name) else tried_by_checks(name, edits)
    good = by_names = 0
    bad = []
    for edit, verdict in tried:
        print(f"{kind} {name}/{os.path.basename(edit)}: {verdict}", flush=True)
        if verdict.startswith(rounds.REFUSED):
            good += 1
            by_names += verdict.startswith(rounds.BY_NAMES)
        else:
            bad.append(f"{name}/{os.path.basename(edit)}")
    return good, by_names, bad


def try_edits(kind, names):
    """Tries the edits of these crates' folders of that kind, or of all, as many crates side by side as the gate does, those first that take longest."""
    crates = [os.path.basename(os.path.dirname(it)) for it in sorted(glob.glob(f"crates/*/{kind}"))]
    unknown = [it for it in names if it not in crates]
    if unknown:
        print(f"check: no edits in crates/NAME/{kind} of {' '.join(unknown)}")
        return 2
    if tell(stale(f"crates/{it}" for it in names or crates)):
        return 1
    prover, start, own = Prover.found(), time.monotonic(), sorted(names or crates, key=lambda it: -len(edits_in(f"crates/{it}/{kind}")))
    with futures.ThreadPoolExecutor(lanes()) as pool:
        found = list(pool.map(lambda it: try_crate(kind, it, prover), own))
    good, by_names, bad = sum(it[0] for it in found), sum(it[1] for it in found), [edit for it in found for edit in it[2]]
    print(f"{good} wrong bodies refused, {by_names} of them by names alone, in {time.monotonic() - start:.0f} seconds" + (f"; FAILED: {' '.join(bad)}" if bad else ""))
    print(f"{good} passed, {len(bad)} failed")
    return 1 if bad else 0


def tested(home):
    """Tries the tests of a crate unproved, and returns which fail, and the last line of what was said."""
    ran = subprocess.run(["rt", "try", "--test"], cwd=home, stdout=subprocess.PIPE, stderr=subprocess.STDOUT, text=True, errors="replace")
    return re.findall(r"(?m)^test (\S+) \.\.\. FAILED", ran.stdout), ran.stdout.strip().splitlines()[-1:]


def played(home, sessions):
    """Plays sessions on the program of a crate, built unproved, and returns which fail, and the last line of what was said."""
    program = os.path.abspath(f"{home}/unproved")
    if not built_unproved(home, program):
        return [], ["it was not built"]
    words = [sys.executable, ".ci/sessions.py", *sessions]
    ran = subprocess.run(words, env={**os.environ, "ALOG": program}, stdout=subprocess.PIPE, stderr=subprocess.STDOUT, text=True, errors="replace")
    os.remove(program)
    return re.findall(r"(?m)^session sessions/(\w+\.session:\d+)", ran.stdout), ran.stdout.strip().splitlines()[-1:]


def planted():
    """Tries each of the bodies that tests are to refuse, unproved, and tells which tests fail; of the program alog, which of the sessions that
    the edit names."""
    let_through = []
    with tempfile.TemporaryDirectory(prefix="alog-planted-") as room:
        shutil.copytree("crates", f"{room}/crates", symlinks=True, ignore=shutil.ignore_patterns("out"))
        for it in ("crates.txt", "HANDLES"):
            shutil.copy(it, room)
        for edit in sorted(glob.glob("crates/*/planted/*.edit")):
            home = f"{room}/{os.path.dirname(os.path.dirname(edit))}"
            kept = {f"{home}/{path}": text_of(f"{home}/{path}") for path, _, _ in rounds.pairs_of(edit)}
            rounds.turn(home, edit)
            sessions = re.findall(r"(?m)^session: (\w+)$", text_of(edit))
            failed, said = played(home, sessions) if sessions else tested(home)
            for file, text in kept.items():
                with open(file, "w", encoding="utf-8") as it:
                    it.write(text)
            came = f"refused by {', '.join(failed)}" if failed else f"NOT REFUSED: {said}"
            print(f"planted {edit}: {came}", flush=True)
            let_through += [] if failed else [edit]
    return 1 if let_through else 0


def main(words):
    if words[:1] in (["run"], ["also"]) and len(words) > 2:
        return run(words[1], words[2:], words[0] == "also")
    if words[:1] == ["times"] and len(words) == 2:
        return times(words[1])
    if words == ["applies"]:
        return applies()
    if words[:1] in (["refused"], ["wrong"]):
        return try_edits(words[0], words[1:])
    if words == ["planted"]:
        return planted()
    print(__doc__, end="", file=sys.stderr)
    return 2


if __name__ == "__main__":
    sys.exit(main(sys.argv[1:]))

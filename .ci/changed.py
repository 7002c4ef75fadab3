"""`./check changed [COMMIT]`: proves and tests, over the work that this clone keeps, what changed since a commit and what stands on it.

For each crate whose files changed since COMMIT (the one that .gate names as passed, else that of main), and for each above it, lowest
first: the layout, its proof, its tests and its program, run as the gate runs them (in an empty folder, as nobody); the edits of
refused/ of those whose own files changed; and, where `alog` was built, its sessions. It is no gate: it trusts what is kept in out/. The
last line is 'N passed, M failed'.
"""
import os
import re
import shutil
import subprocess
import sys
import tempfile
import time

KIT = os.path.dirname(os.path.dirname(os.path.realpath(shutil.which("rt"))))


def told(*words, **how):
    """Runs a command without input, and returns what came of it, with all that it printed."""
    return subprocess.run(words, stdout=subprocess.PIPE, stderr=subprocess.STDOUT, text=True, errors="replace", stdin=subprocess.DEVNULL, **how)


def listed(text):
    """Returns the crates of a crates.txt, each with its whole line and with what it stands on."""
    rows = [it.partition("#")[0].strip() for it in text.splitlines()]
    return {it.split()[0].rstrip(":"): (it, it.partition(":")[2].split()) for it in rows if it}


def passed_commit():
    """Returns the commit of the last gate here that passed whole, else main."""
    try:
        with open(".gate") as it:
            commit, _, last = it.read().split(" ", 2)
        if last.strip().endswith(" passed, 0 failed") and "-" not in commit:
            return commit
    except (OSError, ValueError):
        pass
    return "main"


def changed_since(commit, rows):
    """Returns the crates of which a file or the line of crates.txt is another than at a commit."""
    files = told("git", "diff", "--name-only", commit).stdout.split("\n") + told("git", "ls-files", "-o", "--exclude-standard").stdout.split("\n")
    before = listed(told("git", "show", f"{commit}:crates.txt").stdout)
    own = {it.split("/")[1] for it in files if re.match(r"crates/\w+/(?!wrong/|planted/)", it)}
    return {it for it in rows if it in own or before.get(it, ("",))[0] != rows[it][0]}


def with_those_above(own, rows):
    found, more = set(own), True
    while more:
        more = {it for it, (_, below) in rows.items() if it not in found and found & {*below}}
        found |= more
    return found


def lowest_first(names, rows):
    def depth(name):
        return 1 + max((depth(low) for low in rows[name][1] if low in rows), default=0)

    return sorted(names, key=lambda it: (depth(it), it))


def bytes_of(file):
    """Returns what a file has, and nothing where there is none."""
    try:
        with open(file, "rb") as it:
            return it.read()
    except OSError:
        return b""


def as_the_gate_runs(program, words, given=b"", data=None):
    """Runs a program in a folder that has but its data, and, where the caller is root, as nobody."""
    drop = ["setpriv", "--reuid=65534", "--regid=65534", "--clear-groups", "--no-new-privs"] if os.geteuid() == 0 else []
    with tempfile.TemporaryDirectory(prefix="changed-") as room:
        os.chmod(room, 0o777)
        own, inner = shutil.copy(program, room), f"{room}/data"
        if data and os.path.isdir(data):
            shutil.copytree(data, inner)
        else:
            os.mkdir(inner)
        os.chmod(inner, 0o777)
        env = {"PATH": "/usr/local/bin:/usr/bin:/bin", "HOME": room, "TMPDIR": room, "LANG": "C.UTF-8"}
        return subprocess.run([*drop, *(own if it == program else it for it in words)], cwd=inner, input=given, capture_output=True, env=env, timeout=900)


def has_tests(home):
    return told("grep", "-rqE", r"#\[test\]", f"{home}/src").returncode == 0


def try_program(crate, home):
    """Proves and builds a program and runs it on its words; returns whether it is well, and what was said."""
    ran = told("rt", "run", cwd=home)
    program = os.path.abspath(f"{home}/out/{crate}")
    if "logic=proved" not in ran.stdout or not os.path.exists(program):
        return False, ran.stdout
    words = bytes_of(f"{home}/args").decode().splitlines()
    own = as_the_gate_runs(program, [program, *words], bytes_of(f"{home}/stdin"), f"{home}/data")
    wanted = int(bytes_of(f"{home}/status") or 0)
    return own.stdout == bytes_of(f"{home}/stdout") and own.returncode == wanted, f"{own.stdout[-2000:]} {own.stderr[-2000:]} {own.returncode}"


def try_tests(crate, home):
    """Proves the tests of a crate and runs them; returns whether all pass, and what was said."""
    ran = told("rt", "test", "--", "no_test_has_this_name", cwd=home)
    program = os.path.abspath(f"{home}/out/{crate}_tests")
    if "logic=proved" not in ran.stdout or not os.path.exists(program):
        return False, ran.stdout
    own = as_the_gate_runs(program, [f"{KIT}/bin/rattle-test", "--seconds", "60", program])
    return own.returncode == 0, own.stdout.decode(errors="replace") + own.stderr.decode(errors="replace")


def steps(crate, home, is_own):
    """Yields what is tried of a crate: its name, and whether it is well, with what was said."""
    rattle = os.path.join(KIT, "bin", "rattle")
    files = [f"{room}/{it}" for part in ("src", "specs", "proofs") for room, _, names in os.walk(f"{home}/{part}") for it in names if it.endswith((".rt", ".antt"))]
    ran = told(rattle, "fmt", "--check", *sorted(files))
    yield "layout", ran.returncode == 0, ran.stdout
    if os.path.exists(f"{home}/src/main.rt"):
        yield "program", *try_program(crate, home)
    else:
        ran = told("rt", "lib", cwd=home)
        yield "proof", ran.returncode == 0, ran.stdout
    if has_tests(home):
        yield "tests", *try_tests(crate, home)
    if is_own and os.path.isdir(f"{home}/refused"):
        ran = told(sys.executable, ".ci/gate.py", "refused", crate)
        yield "edits", ran.returncode == 0, ran.stdout


def sessions():
    """Yields what came of the sessions, as the steps of a crate do."""
    ran = told(sys.executable, ".ci/sessions.py")
    yield "sessions", ran.returncode == 0, ran.stdout


def main(words):
    with open("crates.txt") as it:
        rows = listed(it.read())
    commit = words[0] if words else passed_commit()
    own = changed_since(commit, rows)
    names = lowest_first(with_those_above(own, rows), rows)
    print(f"since {commit}: {len(own)} crates changed, {len(names) - len(own)} more stand on them: {' '.join(names)}", flush=True)
    good, bad = 0, []
    tried = [(crate, steps(crate, f"crates/{crate}", crate in own)) for crate in names]
    for crate, each in tried + [("alog", sessions())] * ("alog" in names):
        began = time.monotonic()
        for what, well, said in each:
            print(f"{crate}: {what} {'passed' if well else 'FAILED'} ({time.monotonic() - began:.0f} s)", flush=True)
            began = time.monotonic()
            good += well
            if not well:
                bad.append(f"{crate} ({what})")
                print(said[-4000:], flush=True)
                if what in ("proof", "program"):
                    break
    if bad:
        print(f"FAILED: {', '.join(bad)}")
    print(f"{good} passed, {len(bad)} failed")
    return 1 if bad else 0


if __name__ == "__main__":
    sys.exit(main(sys.argv[1:]))

"""Proves and builds a program and all that it stands on, as many crates side by side as there are processors: build.py PROGRAM.

`rt run` alone builds one crate after another. Here each crate is proved in a room of its own, which has it and, built before, what it
stands on. Each gets a job for each processor, if there is memory for them; the one with the longest way before it goes before all
others, which fill, in this order, what is idle where it reads, links, or has few functions left. What is built comes back into the
crates' folders, so that `rt` there goes on from it. On a terminal a line shows which crates are being proved and how many are left; on
standard output each crate says when it stood. The status is 0, or 1 where a crate failed, of which what was said is printed.
"""
import concurrent.futures as futures
import os
import shutil
import subprocess
import sys
import tempfile
import time

sys.dont_write_bytecode = True
from changed import listed, lowest_first

PARTS = ("src", "specs", "proofs")
# what a check takes, in bytes: its first job, and each further one
FIRST_JOB, NEXT_JOB = 3_000_000_000, 1_000_000_000
# how much nicer a crate is for each one that goes before it
BEHIND = 5


def below(crate, rows):
    """Returns what a crate stands on, without the kit's libraries."""
    found, new = set(), {crate}
    while new:
        new = {low for it in new for low in rows[it][1] if low in rows} - found
        found |= new
    return found


def lines_of(crate):
    """Returns how many lines a crate has, which tells how long it takes."""
    files = (f"{room}/{it}" for part in PARTS for room, _, names in os.walk(f"crates/{crate}/{part}") for it in names)
    return sum(text.count(b"\n") for text in map(bytes_of, files))


def bytes_of(file):
    with open(file, "rb") as it:
        return it.read()


def ways(crates, rows):
    """Returns for each crate how many lines are proved from it on to the program, by the longest way."""
    own, way = {it: lines_of(it) for it in crates}, {}
    for crate in reversed(lowest_first(crates, rows)):
        way[crate] = own[crate] + max((way[it] for it in crates if it in way and crate in rows[it][1]), default=0)
    return way


def link(source, to):
    shutil.copytree(source, to, copy_function=os.link, dirs_exist_ok=True)


def furnish(room, crate, rows):
    """Puts into a room what the proof of a crate reads: its files with what was kept of them, and the libraries that it stands on."""
    with open(f"{room}/crates.txt", "w", encoding="utf-8") as it:
        it.writelines(f"{rows[name][0]}\n" for name in (crate, *below(crate, rows)))
    for name in (crate, *below(crate, rows)):
        for part in PARTS:
            if os.path.isdir(f"crates/{name}/{part}"):
                shutil.copytree(f"crates/{name}/{part}", f"{room}/crates/{name}/{part}")
        if os.path.isdir(f"crates/{name}/out/rlib"):
            link(f"crates/{name}/out/rlib", f"{room}/crates/{name}/out/rlib")
    if os.path.isdir(f"crates/{crate}/out/incremental"):
        link(f"crates/{crate}/out/incremental", f"{room}/crates/{crate}/out/incremental")


def bring_back(room, crate):
    """Puts what was made of a crate in its room into the crate's folder."""
    os.makedirs(f"crates/{crate}/out", exist_ok=True)
    for name in ("incremental", "rlib", crate):
        made, to = f"{room}/crates/{crate}/out/{name}", f"crates/{crate}/out/{name}"
        if os.path.lexists(made):
            shutil.rmtree(to, ignore_errors=True)
            os.replace(made, to)


def prove(crate, rows, rooms, jobs, behind):
    """Proves and builds one crate with so many jobs, so far behind others, and returns the status and what was said."""
    room = tempfile.mkdtemp(prefix=f"{crate}-", dir=rooms)
    furnish(room, crate, rows)
    is_program = os.path.exists(f"crates/{crate}/src/main.rt")
    words = ["run", "--jobs", str(jobs), "--", "--version"] if is_program else ["lib", "--jobs", str(jobs)]
    ran = subprocess.run(["nice", "-n", str(behind), "rt", *words], cwd=f"{room}/crates/{crate}", stdin=subprocess.DEVNULL, stdout=subprocess.PIPE, stderr=subprocess.STDOUT, text=True, errors="replace")
    bring_back(room, crate)
    shutil.rmtree(room, ignore_errors=True)
    return ran.returncode, ran.stdout


def memory():
    with open("/proc/meminfo", encoding="utf-8") as it:
        return next(int(line.split()[1]) * 1024 for line in it if line.startswith("MemAvailable:"))


def show(left, running):
    if sys.stderr.isatty():
        text = f"alog: {left} crates to prove, now {', '.join(sorted(running))}" if left else "alog: all is proved"
        print(f"\r\033[K{text}", end="" if left else "\n", file=sys.stderr, flush=True)


def build(program):
    with open("crates.txt", encoding="utf-8") as it:
        rows = listed(it.read())
    crates = {program, *below(program, rows)}
    way, lanes = ways(crates, rows), len(os.sched_getaffinity(0))
    left, running, done = sorted(crates, key=lambda it: -way[it]), {}, set()
    start = time.monotonic()
    os.makedirs(f"crates/{program}/out", exist_ok=True)
    with tempfile.TemporaryDirectory(prefix="rooms-", dir=f"crates/{program}/out") as rooms, futures.ThreadPoolExecutor(lanes) as pool:
        rooms = os.path.abspath(rooms)
        while left or running:
            for crate in [it for it in left if below(it, rows) <= done]:
                spare = memory() - FIRST_JOB
                if running and (len(running) == lanes or spare < 0):
                    break
                before = sum(way[crate] < way[it] for it in running.values())
                jobs = min(lanes, 1 + max(0, spare // NEXT_JOB))
                left.remove(crate)
                running[pool.submit(prove, crate, rows, rooms, jobs, BEHIND * before)] = crate
            show(len(left) + len(running), running.values())
            for it in futures.wait(running, return_when=futures.FIRST_COMPLETED).done:
                crate = running.pop(it)
                status, said = it.result()
                if status:
                    print(said[-8000:], flush=True)
                    print(f"{crate} failed")
                    return 1
                done.add(crate)
                print(f"{crate} stood after {time.monotonic() - start:.0f} seconds", flush=True)
    show(0, [])
    return 0


if __name__ == "__main__":
    sys.exit(build(sys.argv[1]))

"""`./check dear [MB]`: the functions whose checks left the largest files in this clone, largest first, from MB on (4 where none is said).

What a check leaves for a function, out/incremental/*/Rattle-CRATE-proofs.FUNCTION.Lts.oantt, tells what it takes: two processor
seconds a megabyte up to five, five to ten beyond. None of ours may leave more than five megabytes, and no test more than four.
"""
import glob
import os
import re
import sys

MOST, MOST_OF_A_TEST = 5.0, 4.0
LEFT = re.compile(r"Rattle-(\w+)-proofs\.(.+)\.Lts\.oantt$")


def left_by_checks():
    """Returns the megabytes that the newest check of each function left, by crate and function."""
    newest = {}
    for file in glob.glob("crates/*/out/incremental/*/*.Lts.oantt"):
        found = LEFT.search(file)
        if found:
            at = os.stat(file)
            newest[found.groups()] = max(newest.get(found.groups(), (0, 0)), (at.st_mtime, at.st_size / 2**20))
    return {function: megabytes for function, (_, megabytes) in newest.items()}


def main(words):
    least = float(words[0]) if words else MOST_OF_A_TEST
    left = left_by_checks()
    if not left:
        print("no check was made in this clone")
        return 0
    over = 0
    for (crate, function), megabytes in sorted(left.items(), key=lambda it: -it[1]):
        if megabytes < least:
            break
        most = MOST_OF_A_TEST if crate.startswith("test_") else MOST
        over += megabytes > most
        print(f"{megabytes:7.1f} MB  {crate}  {function}{'   too dear' if megabytes > most else ''}")
    print(f"{over} functions are too dear")
    return 1 if over else 0


if __name__ == "__main__":
    sys.exit(main(sys.argv[1:]))

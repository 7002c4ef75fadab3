"""Builds a program without proof, for a first look or a wrong body that only a run shows: unproved.py FOLDER TO.

`rt try` compiles a crate from its sources, with checks at run time, runs it once and removes it, so it gets another name while it is there.
"""
import glob
import os
import subprocess
import sys
import tempfile
import time


def built_unproved(home, to):
    """Builds the program of the crate in a folder unproved, and returns whether it now lies at `to`; what was said is printed where not."""
    with tempfile.TemporaryDirectory(prefix="alog-try-", dir=os.path.abspath(home)) as room, tempfile.TemporaryFile("w+", errors="replace") as said:
        env = {**os.environ, "TMPDIR": room}
        ran = subprocess.Popen(["rt", "try", "--", "--version"], cwd=home, env=env, stdin=subprocess.DEVNULL, stdout=said, stderr=subprocess.STDOUT)
        kept = f"{room}/kept"
        while ran.poll() is None:
            for it in glob.glob(f"{room}/*/*/program*"):
                if os.access(it, os.X_OK) and not os.path.exists(kept):
                    os.link(it, kept)
            time.sleep(0.01)
        if not os.path.exists(kept):
            said.seek(0)
            print(said.read()[-4000:], flush=True)
            return False
        os.makedirs(os.path.dirname(to), exist_ok=True)
        os.replace(kept, to)
        return True


if __name__ == "__main__":
    sys.exit(0 if built_unproved(*sys.argv[1:]) else 1)

"""The kit's prover over the libraries that the last gate left in this checkout: a wrong body turns one function, so a check of that function and of
what it calls is its verdict, and the crate need not be proved again.

It goes by functions of the kit's own `rt`, which may change with the kit: where they do not serve, or a library is not there, edits are tried by
`rt check` of the whole crate on a copy, which builds what it needs.
"""
import hashlib
import importlib.machinery
import importlib.util
import os
import re
import shutil
import subprocess
import sys
import tempfile

import rounds


def kit():
    """Returns the kit's `rt` as a module."""
    loader = importlib.machinery.SourceFileLoader("kit_rt", os.path.realpath(shutil.which("rt")))
    spec = importlib.util.spec_from_loader("kit_rt", loader)
    module = sys.modules["kit_rt"] = importlib.util.module_from_spec(spec)
    loader.exec_module(module)
    return module


class Prover:
    def __init__(self):
        self.rt, root = kit(), os.getcwd()
        self.rt.Crate.allowed = self.rt.handles_of(root)
        keeps = hasattr(self.rt, "Kept")
        if keeps:
            crates = self.rt.crates_of(root)
        else:
            # (of a kit that keeps nothing, whose `crates_of` would set the libraries aside)
            self.rt.rtlib.Crate = self.rt.Crate
            crates = self.rt.rtlib.crates_below(root)
        self.crates = {it.name: it for it in crates}
        self.kept = self.rt.Kept([*self.crates.values()]) if keeps else None
        self.guard, self.rattle = self.rt.rtlib.guarded(), self.rt.rtlib.RATTLE
        self.known = {}

    @staticmethod
    def found():
        """Returns the prover, or None where this kit's `rt` does not serve. The main thread asks for it, since the kit sets a signal's handler."""
        try:
            prover = Prover()
            return prover if all(prover.words(it, []) for it in prover.crates) else None
        except (Exception, SystemExit) as error:
            print(f"check: the kit's rt is another than was known, so whole crates are checked: {error!r}", flush=True)
            return None

    def serves(self, name):
        """Returns whether the libraries below a crate are built here."""
        lacking = [it.name for it in self.crates[name].below() if not os.path.isfile(f"{it.rlib}/format")]
        if lacking:
            print(f"check: {name} stands on {' '.join(lacking)}, not built here, so all of it is checked on a copy", flush=True)
        return not lacking

    def words(self, name, only):
        return self.crates[name].words(["--jobs", "1", *(word for it in only for word in ("--only", it))], keeps=False)

    def check(self, name, home, functions):
        """Checks these functions of a crate whose files are in a folder, or all where none is named, and returns the status and what was printed."""
        how = {"cwd": home, "stdin": subprocess.DEVNULL, "stdout": subprocess.PIPE, "stderr": subprocess.STDOUT, "text": True, "errors": "replace"}
        names = {end: [end] for end in map(rounds.end_of, functions)}
        for _ in range(3 * len(names) + 1):
            only = [it for found in names.values() for it in found]
            ran = subprocess.run([*self.guard, self.rattle, "check", *self.words(name, only)], **how)
            unknown = re.search(r"has no function `([^`]+)`|several functions are named `([^`]+)`: help: write one of (.*)", ran.stdout)
            # (a name that was looked up is not looked up again)
            end = unknown and next((it for it, found in names.items() if found == [unknown[1] or unknown[2]]), None)
            if ran.returncode != 2 or end is None or unknown[1] and "::" not in unknown[1]:
                break
            own = [it for it in functions if rounds.end_of(it) == end]
            # a method stands in another file than its type: its name alone; or it is that of several traits or types
            named = re.findall(r"`([^`]+)`", unknown[3] or "")
            named = [it for it in named if any(rounds.is_at(it.split("::"), function) for function in own)] or named
            names[end] = named or [end.rpartition("::")[2]]
        return ran.returncode, ran.stdout

    def room(self, name):
        """Returns a new folder with the crate's files. `gate.py run` counts what is proved in one of this name as that of edits."""
        room = tempfile.mkdtemp(prefix="rt-edit-")
        for part in ("src", "specs", "proofs"):
            if os.path.isdir(f"crates/{name}/{part}"):
                shutil.copytree(f"crates/{name}/{part}", f"{room}/{part}")
        return room

    def entry(self, name, edit):
        """Returns the name under which it is kept that an edit was refused: a sum of the edit, the crate's files and the libraries below."""
        crate = self.crates[name]
        for it in crate.below():
            if it.name not in self.known:
                self.kept.is_built(it)
                self.known[it.name] = True
        return hashlib.sha256(f"function {self.kept.of_edit(edit, self.kept.key(crate))}".encode()).hexdigest()

    def earlier(self, name, edit):
        """Returns what an earlier run on this machine said of the same edit over the same files, where it was refused and the kit keeps that."""
        told = self.kept and self.kept.tried(self.entry(name, edit))
        return told[1] if told else None

    def keep(self, name, edit, said):
        if self.kept:
            self.kept.keep_tried(self.entry(name, edit), self.rt.REFUSED, said)

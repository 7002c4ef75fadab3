"""Tries many wrong bodies of a crate at once: each in a function of its own, so that one check gives a verdict on each."""
import os
import re
import shutil

HEADER = re.compile(r"^\s*(?:pub(?:\([a-z]+\))? )?(?:const )?(?:unsafe )?fn (\w+)")
VERDICT = re.compile(r"^fn ([^ ]+): (.*)$")
# a goal of a function that is not proved; what is said of a function's proof files, and what is said where they name what is gone
UNPROVED = re.compile(r"^note: (src/[^:]+):(\d+):\d+: it is not proved", re.MULTILINE)
PROOF_ERROR = re.compile(r"^(?:\./)?proofs/(\S+)/[^/:]+\.antt:\d+:\d+: error: (.*)$", re.MULTILINE)
VERDICT_LINE = re.compile(r"^fn [^ ]+: ", re.MULTILINE)
GONE = re.compile(r"has no field|is not in scope|has no `|was not admitted")

# what a round says of an edit; the third is a refusal that says little of a clause: a stored proof names a step that the edit took away
REFUSED = "refused, as it must be"
PROVED = "NOT REFUSED"
BY_NAMES = "refused, as it must be (only because a proof file names what the edit took away: change a value and keep the names)"
UNTRIED = "NOT TRIED"


def pairs_of(edit):
    """Returns what an edit replaces: the file, the old text and the new one, one after another."""
    path, old, pairs = "", None, []
    with open(edit, encoding="utf-8") as it:
        for line in it.read().split("\n"):
            if line.startswith("file: "):
                path = line[len("file: ") :].strip()
            elif line.startswith("old: "):
                old = line[len("old: ") :]
            elif line.startswith("new:") and path and old:
                pairs.append((path, old, re.sub(r"\A ", "", line[len("new:") :])))
                old = None
    return pairs


def owner_of(header):
    """Returns the type and the trait of an `impl` line, the trait empty where there is none."""
    depth, bare = 0, []
    for c in header.removeprefix("impl"):
        depth += (c == "<") - (c == ">")
        if depth == 0 and c != ">":
            bare.append(c)
    words = re.findall(r"[\w:]+", re.sub(r"'\w+", " ", "".join(bare)).replace("&", " "))
    last = [it.split("::")[-1] for it in words]
    if "for" in last[1:-1]:
        type_name = last[last.index("for") + 1]
        # (where it is for a parameter, for any type, a check calls it by the trait: `AnyHost`)
        return "Any" if re.search(rf"[<,]\s*{type_name}\b", header) else type_name, last[0]
    return (last[0] if last else ""), ""


def function_at(text, at):
    """Returns the owner (type and trait) and the name of the function whose body a place of a text is in, if it is in one."""
    name = None
    for line in reversed(text[:at].split("\n")):
        found = HEADER.match(line)
        if found and name is None:
            name = found[1]
            if line.startswith(("fn", "pub", "const", "unsafe")):
                return ("", ""), name
        elif line.startswith("impl") and name is not None:
            return owner_of(line), name
        elif line.startswith("}") and name is None:
            return None
    return None


def module_of(crate, path):
    """Returns the path of a source file's module."""
    inner = re.sub(r"\.rt$", "", re.sub(r"^src/", "", path)).replace("/", "::")
    return crate if inner == "lib" else f"{crate}::{inner}"


def functions_of(crate, room, edit):
    """Returns the module, owner and name of each function that an edit turns; nothing where one of its places is in none."""
    found = set()
    for path, old, _ in pairs_of(edit):
        with open(f"{room}/{path}", encoding="utf-8") as it:
            text = it.read()
        it = function_at(text, text.find(old)) if old in text else None
        if it is None:
            return None
        found.add((module_of(crate, path), *it))
    return found


def rounds_of(crate, room, edits):
    """Deals the edits out to rounds, in which no function is turned twice. What is in no function is a round of its own."""
    rounds, alone = [], []
    for edit in edits:
        functions = functions_of(crate, room, edit)
        if not functions:
            alone.append([(edit, set())])
            continue
        for taken, members in rounds:
            if not {it[1:] for it in taken} & {it[1:] for it in functions}:
                break
        else:
            taken, members = set(), []
            rounds.append((taken, members))
        taken |= functions
        members.append((edit, functions))
    return [members for _, members in rounds] + alone


def is_refusal(verdict):
    """Whether a verdict is the function's own, and not only that of a function that it calls."""
    kind, _, reasons = verdict.partition(":")
    if kind != "no proof":
        return kind.startswith("not proved")
    return any(it.strip() and not it.strip().startswith("it calls ") for it in reasons.split(";"))


def refused_by(printed, crate):
    """Returns the paths of the functions that a check refused."""
    verdicts = [VERDICT.match(line) for line in printed.split("\n")]
    return [it[1].split("::") for it in verdicts if it and it[1].startswith(f"{crate}::") and is_refusal(it[2])]


def unproved_in(crate, room, printed):
    """Returns the module, owner and name of each function of which a check says that a goal is not proved."""
    found = set()
    for path, line in UNPROVED.findall(printed):
        with open(f"{room}/{path}", encoding="utf-8") as it:
            front = "\n".join(it.read().split("\n")[: int(line)])
        it = function_at(front, len(front))
        if it:
            found.add((module_of(crate, path), *it))
    return found


def is_by_names(path, function, printed, unproved):
    """Whether a function is refused only since its proof files name a step that the edit renamed or took away, which says nothing of its clauses."""
    said = [words for folder, words in PROOF_ERROR.findall(printed) if folder == "/".join(path[1:])]
    return bool(said) and all(GONE.search(it) for it in said) and function not in unproved


def is_at(path, function):
    """Whether a path is that of a function: a method's names its type, and the trait behind it, but for that of a `Drop`, and not the file."""
    module, (type_name, trait), name = function
    if path[-1] != name:
        return False
    if not type_name:
        return "::".join(path[:-1]) == module
    if trait == "Drop":
        return path[-2] == type_name
    return len(path) > 2 and path[-2].startswith(type_name) and trait in path[-2]


def turn(room, edit):
    for path, old, new in pairs_of(edit):
        with open(f"{room}/{path}", encoding="utf-8") as it:
            text = it.read()
        with open(f"{room}/{path}", "w", encoding="utf-8") as it:
            it.write(text.replace(old, new))


def end_of(function):
    """Returns the end of a function's path, by which a check finds it."""
    module, (type_name, trait), name = function
    inner = module.partition("::")[2]
    return name if trait else f"{type_name}::{name}" if type_name else f"{inner}::{name}" if inner else name


def checked(crate, room, members, check):
    """Turns the functions of a round in a crate's folder, and returns the status of a check of them, what it prints, and the functions of
    which a goal is not proved."""
    kept = {part: f"{room}/{part}-as-it-was" for part in ("src", "specs", "proofs") if os.path.isdir(f"{room}/{part}")}
    for part, to in kept.items():
        shutil.copytree(f"{room}/{part}", to)
    try:
        for edit, _ in members:
            turn(room, edit)
        status, printed = check(room, [it for _, functions in members for it in functions])
        unproved = unproved_in(crate, room, printed)
    finally:
        for part, to in kept.items():
            shutil.rmtree(f"{room}/{part}")
            os.rename(to, f"{room}/{part}")
    return status, printed, unproved


def verdict_of(edit, functions, refused, said):
    """Returns what a round says of one edit: `said` is what its check printed, and `refused` the paths that it refused."""
    status, printed, unproved = said
    if not functions:
        return REFUSED if status == 1 and "logic=not-proved" in printed else PROVED if status == 0 else UNTRIED
    own = [(path, it) for it in functions for path in refused if is_at(path, it)]
    if not own:
        return PROVED if VERDICT_LINE.search(printed) and status in (0, 1) else UNTRIED
    return BY_NAMES if all(is_by_names(path, it, printed, unproved) for path, it in own) else REFUSED


def verdicts_in(crate, room, members, check):
    """Yields the verdict on each edit of a round. Where one of them does not compile there is none on any, and each half is a round; what is
    not refused is tried alone."""
    said = checked(crate, room, members, check)
    if len(members) > 1 and not VERDICT_LINE.search(said[1]):
        half = len(members) // 2
        yield from verdicts_in(crate, room, members[:half], check)
        yield from verdicts_in(crate, room, members[half:], check)
        return
    refused = refused_by(said[1], crate)
    for edit, functions in members:
        found = verdict_of(edit, functions, refused, said)
        if found in (PROVED, UNTRIED) and len(members) > 1:
            # (of a function that calls another one of the round nothing is said but that)
            yield from verdicts_in(crate, room, [(edit, functions)], check)
        else:
            yield edit, found if found != UNTRIED else f"{UNTRIED}: {' '.join(said[1].split())[-300:]}"


def verdicts_of(crate, room, edits, check):
    """Yields the verdict on each of a crate's edits, by `check`, which is given the crate's folder and the functions that are turned, and
    returns a status and what was printed."""
    for members in rounds_of(crate, room, edits):
        yield from verdicts_in(crate, room, members, check)

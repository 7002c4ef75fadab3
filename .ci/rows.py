"""The rows of rows/ and of examples/: what the program is run on, and what it must then say.

NAME.alog is a script, replayed with the configuration NAME.toml where that is there. NAME.args has the words of another command, one a
line, in which FILE stands for NAME.toml and FOLDER for a new folder, and NAME.in what it reads. A NAME.toml with neither is checked. NAME.txt is what is printed: nothing where it is not
there. NAME.err has the status in its first line and standard error behind it: 0 and nothing where it is not there.
"""
import collections
import glob
import os

Row = collections.namedtuple("Row", "name words given printed status errors")


def rows(folder):
    """Returns the rows of a folder, by name."""
    files = sorted({os.path.splitext(it)[0] for it in glob.glob(f"{folder}/*") if os.path.isfile(it)})
    return [row(base) for base in files]


def row(base):
    """Returns the row whose files have this path, without what stands behind the point."""
    config = f"{base}.toml" if os.path.exists(f"{base}.toml") else None
    script, args, err = bytes_of(f"{base}.alog"), bytes_of(f"{base}.args"), bytes_of(f"{base}.err") or b"0\n"
    if script is not None:
        words = ["replay", *(["--config", config] if config else [])]
    elif args is not None:
        words = [config if it == "FILE" else it for it in args.decode().split("\n")[:-1]]
    else:
        words = ["check", config]
    status, _, errors = err.partition(b"\n")
    printed = bytes_of(f"{base}.txt")
    if printed is None:
        printed = b"ok\n" if words[0] == "check" and status == b"0" else b""
    return Row(os.path.basename(base), words, script or bytes_of(f"{base}.in") or b"", printed, int(status), errors)


def bytes_of(file):
    """Returns what a file has, or None where it is not there."""
    try:
        with open(file, "rb") as it:
            return it.read()
    except FileNotFoundError:
        return None


def of_bytes(data):
    """Returns bytes as a text, also where they are none."""
    return data.decode(errors="surrogateescape")

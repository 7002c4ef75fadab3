"""Hostile folders for `alog load --folder`, which docs/FORMATS.md says what becomes of: folders(PROGRAM, ROOM).

In each a load is made, as nobody where a permission is in question. Its status and its lines must be those that are listed, the line must
name the file or the sink, and what was in the folder and is no file of a sink must be there unchanged.
"""
import collections
import os
import re
import shutil
import subprocess
import time

TABLES = b'[[logger]]\nname = "net"\nsinks = ["out"]\n[[sink]]\nname = "out"\npattern = "%v"\n'
MEMORY, DAILY = TABLES + b'kind = "memory"\n', TABLES + b'kind = "daily"\nfile = "day.log"\n'
ROTATING = TABLES + b'kind = "rotating"\nfile = "a.log"\nmax_size = 30\nmax_files = 1\n'
FEW_FILES = TABLES + b'kind = "rotating"\nfile = "a.log"\nmax_size = 3000\nmax_files = 3\n'
MANY_FILES = TABLES + b'kind = "rotating"\nfile = "a.log"\nmax_size = 3000\nmax_files = 200\n'
LONGEST = TABLES + b'kind = "rotating"\nmax_size = 30\nmax_files = 9\nfile = "'
DAY = "day_1970-01-01.log"
# so many messages that a load of them goes on for a while
MANY = 1_000_000
NOBODY = ["setpriv", "--reuid=65534", "--regid=65534", "--clear-groups"] if os.getuid() == 0 else []

FAULT = re.compile(rb"alog: refused 22\nalog: a store failed\n((?:alog: sink 0, out: (?:\d+ turns failed|its lines are not all in its file): [^\n]+\n){1,2})")
# how each refusal of a start begins
NO_FILE, NO_FOLDER = "alog: %s/%s cannot be written: ", "alog: no files can be written to %s: "
# the file by which a folder is held, and what is said where it cannot be
LOCK = ".alog.lock"
IN_USE, NO_LOCK = f"alog: %s is in use: another alog holds %s/{LOCK}\n", f"alog: %s/{LOCK} cannot be locked: "

Loaded = collections.namedtuple("Loaded", "status printed errors")


def totals(messages):
    return b"asked %d\nposted %d\ndiscarded 0\noverrun 0\nhandled %d\n" % (messages, messages, messages)


def lines(messages):
    return [b"0 %d" % number for number in range(messages)]


class Place:
    """A room for one case: a configuration, a folder, and the program, all of which nobody may read."""

    def __init__(self, program, room, name, config):
        self.room = f"{room}/{name.replace(' ', '_')}"
        self.folder, self.config, self.program = f"{self.room}/folder", f"{self.room}/it.toml", program
        os.makedirs(self.folder)
        self.write("../it.toml", config)

    def path(self, name):
        return f"{self.folder}/{name}"

    def write(self, name, data):
        with open(self.path(name), "wb") as it:
            it.write(data)

    def read(self, name):
        with open(self.path(name), "rb") as it:
            return it.read()

    def words(self, messages=40, producers=1, folder=None):
        numbers = [f"--messages={messages}", f"--producers={producers}"]
        return [self.program, "load", self.config, *numbers, "--folder", folder or self.folder]

    def load(self, messages=40, before=(), folder=None):
        ran = subprocess.run([*before, *self.words(messages, folder=folder)], capture_output=True, timeout=60)
        return Loaded(ran.returncode, ran.stdout, ran.stderr)

    def others(self, own):
        """Returns what is in the folder, and what each has, but the files of sinks and the folder's lock."""
        return {it: self.seen(it) for it in os.listdir(self.folder) if not re.fullmatch(own, it) and it != LOCK}

    def seen(self, name):
        path = self.path(name)
        if os.path.islink(path):
            return os.readlink(path)
        return sorted(os.listdir(path)) if os.path.isdir(path) else self.read(name)


def is_whole(loaded, messages=40):
    return loaded == Loaded(0, totals(messages), b"")


def is_refused(loaded, front):
    """Whether a load was refused at its start by one line, which begins so."""
    return loaded.status == 3 and not loaded.printed and loaded.errors.startswith(front.encode()) and loaded.errors.count(b"\n") == 1


def is_fault(loaded, why, messages=40):
    """Whether it was told, behind the totals, that the sink's store failed, for this reason."""
    found = FAULT.fullmatch(loaded.errors)
    return bool(found) and loaded[:2] == (3, totals(messages)) and all(it.endswith(why) for it in found[1].splitlines())


def a_folder_of_the_files_name(place):
    os.mkdir(place.path("out"))
    place.write("out/kept", b"kept")
    return is_refused(place.load(), NO_FILE % (place.folder, "out")) and place.read("out/kept") == b"kept"


def a_folder_of_a_numbered_files_name(place):
    os.mkdir(place.path("a.1.log"))
    place.write("a.1.log/kept", b"kept")
    is_told = is_fault(place.load(), b"Is a directory (os error 21)")
    return is_told and place.read("a.1.log/kept") == b"kept" and place.read("a.log").split() == b" ".join(lines(7)).split()


def a_folder_of_a_days_name(place):
    os.mkdir(place.path(DAY))
    return is_fault(place.load(), b"Is a directory (os error 21)") and os.path.isdir(place.path(DAY))


def a_link_to_nowhere(place):
    os.symlink("/nonexistent/file", place.path("out"))
    return is_fault(place.load(), b"No such file or directory (os error 2)") and os.path.islink(place.path("out"))


def a_link_to_a_file_that_is_absent(place):
    os.symlink("other", place.path("out"))
    return is_whole(place.load()) and place.read("other").splitlines() == lines(40) and os.path.islink(place.path("out"))


def a_link_to_itself(place):
    os.symlink("out", place.path("out"))
    return is_refused(place.load(), NO_FILE % (place.folder, "out")) and os.path.islink(place.path("out"))


def a_file_without_permission(place):
    place.write("out", b"kept\n")
    os.chmod(place.path("out"), 0o444)
    os.chmod(place.folder, 0o777)
    return is_refused(place.load(before=NOBODY), NO_FILE % (place.folder, "out")) and place.read("out") == b"kept\n"


def a_folder_without_permission(place):
    os.chmod(place.folder, 0o555)
    return is_refused(place.load(before=NOBODY), NO_FOLDER % place.folder) and not os.listdir(place.folder)


def a_pipe_that_nobody_reads(place):
    """The load waits until someone reads it."""
    os.mkfifo(place.path("out"))
    ran = subprocess.Popen(place.words(), stdout=subprocess.PIPE, stderr=subprocess.PIPE)
    time.sleep(1)
    is_waiting = ran.poll() is None
    ran.kill()
    return is_waiting and ran.communicate() == (b"", b"")


def a_full_device(place):
    os.symlink("/dev/full", place.path("out"))
    return is_fault(place.load(), b"No space left on device (os error 28)") and os.path.islink(place.path("out"))


def a_folder_that_is_removed(place):
    """The folder goes while lines are written to a file of it."""
    ran = subprocess.Popen(place.words(MANY), stdout=subprocess.PIPE, stderr=subprocess.PIPE)
    while not os.path.exists(place.path("out")) and ran.poll() is None:
        time.sleep(0.001)
    shutil.rmtree(place.folder)
    was_running = ran.poll() is None
    printed, errors = ran.communicate(timeout=600)
    return was_running and is_whole(Loaded(ran.returncode, printed, errors), MANY) and not os.path.exists(place.folder)


def a_folder_that_is_removed_between_files(place):
    """The folder goes while files of it are renamed and made: one that is open has the rest of the lines, or one cannot be made."""
    ran = subprocess.Popen(place.words(MANY), stdout=subprocess.PIPE, stderr=subprocess.PIPE)
    while not os.path.exists(place.path("a.1.log")) and ran.poll() is None:
        time.sleep(0.001)
    os.rename(place.folder, f"{place.folder}.gone")
    was_running = ran.poll() is None
    printed, errors = ran.communicate(timeout=600)
    it = Loaded(ran.returncode, printed, errors)
    return was_running and (is_whole(it, MANY) or is_fault(it, b"No such file or directory (os error 2)", MANY)) and not os.path.exists(place.folder)


def four_thousand_files(place):
    for number in range(4096):
        place.write(f"file{number}", b"%d" % number)
    before = place.others("out")
    return is_whole(place.load()) and place.others("out") == before and place.read("out").splitlines() == lines(40)


def the_longest_names(place):
    """A file of 64 bytes that has numbers; a folder of 255, and one that no system has."""
    file, folder = "f" * 64, f"{place.folder}/{'d' * 255}"
    place.write("../it.toml", LONGEST + file.encode() + b'"\n')
    os.mkdir(folder)
    is_named = is_whole(place.load(folder=folder)) and os.path.exists(f"{folder}/{file}.5")
    return is_named and is_refused(place.load(folder=folder + "d"), NO_FOLDER % f"{folder}d")


def what_stood_there(place):
    """A sink writes behind what its file has, and what else is there stays, names that a rename and a start use among them."""
    place.write("out", b"kept\n")
    place.write(".probe.replaced", b"kept")
    place.write("a.log", b"kept")
    before = place.others("out")
    return is_whole(place.load()) and place.read("out").splitlines() == [b"kept", *lines(40)] and place.others("out") == before


def a_link_that_is_renamed(place):
    """A rotation renames a link of its file's name, and what it leads to stays with what was written to it."""
    place.write("other", b"kept\n")
    os.symlink("other", place.path("a.log"))
    is_told = is_whole(place.load(9), 9)
    return is_told and os.path.islink(place.path("a.1.log")) and place.read("a.1.log").startswith(b"kept\n") and not os.path.islink(place.path("a.log"))


def is_alone(place, first):
    """Whether a load that begins when another has made this file is refused, and the other is told as whole."""
    ran = subprocess.Popen(place.words(MANY), stdout=subprocess.PIPE, stderr=subprocess.PIPE)
    while not os.path.exists(place.path(first)) and ran.poll() is None:
        time.sleep(0.001)
    second, was_running = place.load(), ran.poll() is None
    printed, errors = ran.communicate(timeout=600)
    is_told = is_refused(second, IN_USE % (place.folder, place.folder)) and is_whole(Loaded(ran.returncode, printed, errors), MANY)
    return was_running and is_told


def a_second_load(place):
    """It is refused, and each line of the first is in the file once; when that has ended the folder is free."""
    return is_alone(place, "out") and place.read("out").splitlines() == lines(MANY) and is_whole(place.load())


def a_second_load_to_files_that_make_way(place):
    """The files have the last lines of the first load, and nothing else."""
    if not is_alone(place, "a.1.log"):
        return False
    names = ["a.log", *(f"a.{number}.log" for number in range(1, 201))]
    found = [line for it in reversed(names) for line in place.read(it).splitlines()]
    return found == lines(MANY)[-len(found) :]


def a_load_that_was_killed(place):
    """What it held is free again."""
    ran = subprocess.Popen(place.words(MANY), stdout=subprocess.PIPE, stderr=subprocess.PIPE)
    while not os.path.exists(place.path("out")) and ran.poll() is None:
        time.sleep(0.001)
    ran.kill()
    ran.communicate()
    return ran.returncode != 0 and is_whole(place.load())


def a_lock_that_is_a_folder(place):
    os.mkdir(place.path(LOCK))
    return is_refused(place.load(), NO_LOCK % place.folder) and not os.path.exists(place.path("out"))


CASES = [
    (a_folder_of_the_files_name, MEMORY), (a_folder_of_a_numbered_files_name, ROTATING), (a_folder_of_a_days_name, DAILY),
    (a_link_to_nowhere, MEMORY), (a_link_to_a_file_that_is_absent, MEMORY), (a_link_to_itself, MEMORY), (a_link_that_is_renamed, ROTATING),
    (a_file_without_permission, MEMORY), (a_folder_without_permission, MEMORY), (a_full_device, MEMORY), (a_pipe_that_nobody_reads, MEMORY),
    (a_folder_that_is_removed, MEMORY), (a_folder_that_is_removed_between_files, FEW_FILES), (four_thousand_files, MEMORY),
    (the_longest_names, MEMORY), (what_stood_there, MEMORY), (a_second_load, MEMORY), (a_second_load_to_files_that_make_way, MANY_FILES),
    (a_load_that_was_killed, MEMORY), (a_lock_that_is_a_folder, MEMORY),
]


def folders(program, room):
    """Makes a load in each hostile folder, tells of which it was not what it must be, and returns whether all is well."""
    os.chmod(room, 0o755)
    own = shutil.copy(program, f"{room}/alog")
    bad = []
    for case, config in CASES:
        name = case.__name__.replace("_", " ")
        if not case(Place(own, room, name, config)):
            bad.append(name)
    print(f"hostile: folders: {len(CASES)}" + (f"; wrong: {', '.join(bad)}" if bad else ", each as listed"), flush=True)
    return not bad

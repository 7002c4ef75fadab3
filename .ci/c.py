"""Links programs in C and C++ with the static library, and runs them: c.py [unproved]. Prints what is not as it is to be, and how many
passed and failed.

Each compiler that is there, of gcc and clang, compiles the programs of crates/alog_c/tests and examples/c with its warnings as errors, the
headers as C99 and as C++11 too, and with the sanitizers of addresses and of undefined behaviour on the C side; and once more for threads,
where the library was built for that. A program runs in a folder of its own, and ends with 'N passed, M failed'. The library is the proved
one, which is built first where it is not there; with the word it is built without proof, in some minutes, with checks at run time, and the
programs that have threads are also run under a thread sanitizer. The programs that docs/USING.md shows are compiled and run, too, and the
example in Rust where rustc is there. ALOG_C names a folder with libalog_c.a, and perhaps libalog_c_tsan.a, to take instead. Needs gcc or
clang; ALOG_KIT names another folder of the kit's archives.
"""
import collections
import os
import re
import shutil
import signal
import subprocess
import sys
import tempfile

sys.dont_write_bytecode = True

HEADERS, TESTS, EXAMPLES, DOCUMENT = "crates/alog_c/c", "crates/alog_c/tests", "examples/c", "docs/USING.md"
SECONDS, SANITIZED_SECONDS, COMPILE_SECONDS = 300, 900, 900
WARNINGS = ["-Wall", "-Wextra", "-Wpedantic", "-Wconversion", "-Wsign-conversion", "-Wshadow", "-Werror"]
ADDRESSES = ["-O1", "-g", "-fno-omit-frame-pointer", "-fsanitize=address,undefined", "-fno-sanitize-recover=all"]
THREADS = ["-O1", "-g", "-fsanitize=thread"]
COMPILERS = {"gcc": "g++", "clang": "clang++"}
WRAPPED = "-Wl,--wrap=malloc,--wrap=realloc,--wrap=free"
TAKEN = "-Wl,--wrap=malloc,--wrap=realloc,--wrap=alog_c_shutdown"
CALLS = "-Wl,--wrap=write,--wrap=openat,--wrap=renameat,--wrap=unlinkat,--wrap=fdatasync,--wrap=fsync,--wrap=close,--wrap=fstatat,--wrap=fdopendir,--wrap=readdir,--wrap=alog_c_take"
MOVED = "-Wl,--wrap=renameat,--wrap=write"
# where spdlog and fmt are, whose programs are left out where they are not there, and what their libraries want, which are compiled faster than
# their headers
SPDLOG, FMT = "/usr/include/spdlog/spdlog.h", "/usr/include/fmt/format.h"
SPDLOG_FLAGS, SPDLOG_LIBRARIES = ["-std=c++11", "-DSPDLOG_SHARED_LIB", "-DSPDLOG_COMPILED_LIB", "-DSPDLOG_FMT_EXTERNAL"], ["-lspdlog", "-lfmt"]
FMT_FLAGS, FMT_LIBRARIES = ["-std=c++11"], ["-lfmt"]
# the tests in C++, each with what it needs
FRONT_ENDS = [("sink", SPDLOG, SPDLOG_FLAGS, SPDLOG_LIBRARIES), ("fmt", FMT, FMT_FLAGS, FMT_LIBRARIES), ("clients", FMT, FMT_FLAGS, FMT_LIBRARIES)]
# the programs, the words of their runs behind the folder, and what each is linked with beside the library
Program = collections.namedtuple("Program", "name runs flags has_threads")
MILLIONS = [["1", "block", "8192"], ["2", "block", "8192"], ["2", "block", "64"], ["2", "discard_new", "64"], ["2", "overrun_oldest", "64"]]
PROGRAMS = [
    Program("records", [[]], [], False),
    Program("lines", [[]], [], False),
    Program("areas", [[]], [], False),
    Program("dumps", [[]], [], True),
    Program("refusals", [[]], [], False),
    Program("memory", [[]], [WRAPPED], False),
    Program("host_memory", [[]], [TAKEN], False),
    Program("threads", [[]], ["-Wl,--wrap=pthread_create"], False),
    Program("files", [[]], [], True),
    Program("faults", [[]], [], True),
    Program("calls", [[]], [CALLS], False),
    Program("stays", [[]], [MOVED], False),
    Program("gives", [[]], [], True),
    Program("forks", [[]], [], False),
    Program("bells", [[]], ["-Wl,--wrap=clock_gettime"], True),
    Program("hosts", [[]], [], True),
    Program("million", MILLIONS, [], True),
]
ENDS = re.compile(r"(\d+) passed, (\d+) failed")
# what clang's instructions call for blocks of memory, which the sanitizers of older compilers lack
SHIM = """#include <string.h>
#ifdef __cplusplus
extern "C" {
#endif
void *__tsan_memcpy(void *to, const void *from, size_t size);
void *__tsan_memmove(void *to, const void *from, size_t size);
void *__tsan_memset(void *to, int byte, size_t size);
void *__tsan_memcpy(void *to, const void *from, size_t size) { return memcpy(to, from, size); }
void *__tsan_memmove(void *to, const void *from, size_t size) { return memmove(to, from, size); }
void *__tsan_memset(void *to, int byte, size_t size) { return memset(to, byte, size); }
#ifdef __cplusplus
}
#endif
"""


class Count:
    """How many passed and failed, and what is said of those that failed."""

    def __init__(self):
        self.passed = self.failed = 0

    def note(self, is_well, words):
        self.passed += is_well
        self.failed += not is_well
        if not is_well:
            print(f"c: {words}", flush=True)

    def ended(self, name, ran):
        """Counts what a program of the tests counted."""
        last = ran.stdout.strip().rsplit("\n", 1)[-1]
        found = ENDS.fullmatch(last)
        is_whole = found is not None and (ran.returncode == 0) == (found[2] == "0") and not ran.stderr
        if found:
            self.passed += int(found[1])
            self.failed += int(found[2])
        if not is_whole or found[2] != "0":
            print(f"c: {name}: status {ran.returncode}\n{ran.stdout[-4000:]}{ran.stderr[-4000:]}", flush=True)
        self.failed += not is_whole


def kit():
    """Returns the folder of the kit's archives."""
    return os.environ.get("ALOG_KIT") or f"{os.path.dirname(os.path.dirname(os.path.realpath(shutil.which('rt') or '/opt/rattle/bin/rt')))}/c"


def library(is_unproved, room):
    """Returns the folder of the library, which is built where it is to be, or None where that failed."""
    if os.environ.get("ALOG_C"):
        return os.path.abspath(os.environ["ALOG_C"])
    if is_unproved:
        print("c: building the library without proof, which takes some minutes", flush=True)
        built = subprocess.run([sys.executable, ".ci/static.py", room])
        return None if built.returncode else room
    print("c: proving and building the library, where its sources changed", flush=True)
    built = subprocess.run(["rt", "lib"], cwd="crates/alog_c", stdin=subprocess.DEVNULL, stdout=subprocess.PIPE, stderr=subprocess.STDOUT, text=True, errors="replace")
    if built.returncode:
        print(built.stdout[-4000:], flush=True)
    return None if built.returncode else os.path.abspath("crates/alog_c/out")


def run(words, seconds, **more):
    """Runs a command; one that takes too long is ended with all that it started, and has the status -1."""
    ran = subprocess.Popen(words, stdout=subprocess.PIPE, stderr=subprocess.PIPE, stdin=subprocess.DEVNULL, text=True, errors="replace", start_new_session=True, **more)
    try:
        stdout, stderr = ran.communicate(timeout=seconds)
        return subprocess.CompletedProcess(words, ran.returncode, stdout, stderr)
    except subprocess.TimeoutExpired:
        os.killpg(ran.pid, signal.SIGKILL)
        stdout, _ = ran.communicate()
        return subprocess.CompletedProcess(words, -1, stdout, f"it did not end in {seconds} seconds\n")


def compiled(compiler, source, to, flags, archives, count):
    """Compiles and links a program; answers whether that went without a word."""
    words = [compiler, *WARNINGS, *flags, f"-I{HEADERS}", source, *archives, "-pthread", "-o", to]
    ran = run(words, COMPILE_SECONDS)
    is_well = ran.returncode == 0 and not ran.stderr
    count.note(is_well, f"{' '.join(words)}\n{ran.stderr[-4000:]}")
    return is_well


def check_headers(compiler, room, count):
    """Compiles each header alone, in each language that it is for."""
    over = [header for header, needed in (("alog_fmt.h", FMT), ("alog_spdlog.h", SPDLOG)) if os.path.exists(needed)]
    for header in ("alog.h", "alog_host.h", "alog_clients.h", *over):
        source = f"{room}/header.c"
        with open(source, "w", encoding="utf-8") as it:
            it.write(f'#include "{header}"\nint main(void) {{ return alog_says(ALOG_DONE)[0] == 0; }}\n')
        for language, more, standards in (
            (compiler, ["-D_POSIX_C_SOURCE=200809L"], ["c99", "c11", "gnu17"] if header in ("alog.h", "alog_host.h") else []),
            (COMPILERS[compiler], ["-x", "c++", "-Wold-style-cast", "-DSPDLOG_FMT_EXTERNAL"], ["c++11", "c++17", "c++20"]),
        ):
            for standard in standards:
                words = [language, f"-std={standard}", *WARNINGS, *more, "-fsyntax-only", f"-I{HEADERS}", source]
                ran = run(words, SECONDS)
                count.note(ran.returncode == 0 and not ran.stderr, f"{header}: {' '.join(words)}\n{ran.stderr[-4000:]}")


def check_kinds(compiler, room, count):
    """A handle of a wrong kind is refused by the compiler."""
    calls = ["alog_log(&pool, 0, ALOG_INFO, 0, 0, 0, 0)", "alog_work(&producer, 1, 0)", "alog_worker_faults(&producer, 0)", "alog_give_worker(&producer)", "alog_shutdown(&worker, 0)", "alog_close(&pool)", "alog_take(&producer, 0, 0, 0)"]
    for call in calls:
        with open(f"{room}/kinds.c", "w", encoding="utf-8") as it:
            it.write(f'#include "alog.h"\nint main(void) {{ alog_pool pool = {{0, 0}}; alog_producer producer = {{0, 0}}; alog_worker worker = {{0, 0}};\n(void)pool; (void)producer; (void)worker; return (int){call}; }}\n')
        ran = run([compiler, *WARNINGS, "-fsyntax-only", f"-I{HEADERS}", f"{room}/kinds.c"], SECONDS)
        count.note(ran.returncode != 0 and "incompatible" in ran.stderr, f"{compiler} takes {call}: {ran.stderr}")


def run_program(it, path, room, count, seconds):
    """Runs a program of the tests with each of its words, each time in a new folder."""
    for words in it.runs:
        with tempfile.TemporaryDirectory(dir=room) as folder:
            count.ended(" ".join([path, *words]), run([path, folder, *words], seconds))


def check_front_ends(compiler, archives, flags, name, room, count, seconds):
    """Runs the tests of the sink for spdlog and of the loggers over fmt, where these are there."""
    for test, needed, own, libraries in FRONT_ENDS:
        path = f"{room}/{compiler}-{name}-{test}"
        if os.path.exists(needed) and compiled(COMPILERS[compiler], f"{TESTS}/{test}.cpp", path, [*own, *flags], [*archives, *libraries], count):
            run_program(Program(test, [[]], [], True), path, room, count, seconds)


def check_formats(compiler, room, count):
    """A text that its values do not fit is refused by the compiler, in C++20."""
    for call, is_well in (('info("{} {}", 1, 2)', True), ('info("{} {}", 1)', False), ('log(ALOG_HERE, ALOG_INFO, "{:d}", "a")', False)) if os.path.exists(FMT) else ():
        with open(f"{room}/formats.cpp", "w", encoding="utf-8") as it:
            it.write(f'#include "alog_fmt.h"\nvoid some(const alog::logger &net);\nvoid some(const alog::logger &net) {{ net.{call}; }}\n')
        ran = run([COMPILERS[compiler], "-std=c++20", *WARNINGS, "-fsyntax-only", f"-I{HEADERS}", f"{room}/formats.cpp"], SECONDS)
        count.note((ran.returncode == 0) == is_well, f"{compiler}: {call}: {ran.stderr[-4000:]}")


def check_examples(compiler, archives, flags, room, count):
    """Compiles and runs the examples: each request has its line, and the report is as the lines are."""
    examples = [("server.c", compiler, ["-std=gnu11"], []), ("server.cpp", COMPILERS[compiler], ["-std=c++11"], [])]
    if os.path.exists(SPDLOG):
        examples.append(("spdlog.cpp", COMPILERS[compiler], SPDLOG_FLAGS, SPDLOG_LIBRARIES))
    if os.path.exists(FMT):
        examples.append(("fmt.cpp", COMPILERS[compiler], FMT_FLAGS, FMT_LIBRARIES))
    for source, language, own, libraries in examples:
        path = f"{room}/example"
        if not compiled(language, f"{EXAMPLES}/{source}", path, [*own, *flags], [*archives, *libraries], count):
            continue
        with tempfile.TemporaryDirectory(dir=room) as folder:
            ran = run([path, f"{EXAMPLES}/server.toml", folder], SANITIZED_SECONDS)
            wanted = "asked 4000\nposted 4000\ndiscarded 0\noverrun 0\nhandled 4000\nfaults 0\nfailures 0\n"
            count.note((ran.returncode, ran.stdout, ran.stderr) == (0, wanted, ""), f"{source}: {ran}")
            lines = sorted(it.split("] ", 3)[-1] for it in read(f"{folder}/server.log").splitlines())
            count.note(lines == sorted(f"thread {t} served request {r}" for t in range(4) for r in range(1000)), f"{source}: its lines")
            ran = run([path, f"{EXAMPLES}/server.c", folder], SECONDS)
            count.note(ran.returncode == 1 and ran.stdout == "" and "no configuration" in ran.stderr, f"{source} without a configuration: {ran}")


def blocks_of(language):
    """Returns the blocks in this language of the document for users."""
    return re.findall(rf"^```{language}\n(.*?)^```$", read(DOCUMENT), re.M | re.S)


def check_document(compiler, archives, room, count):
    """Compiles and runs the programs that the document shows, from the start and once more over the files that are there."""
    over_fmt, over_spdlog = blocks_of("cpp")
    shown = [("c", blocks_of("c")[0], compiler, ["-std=c99"], [], "handled 2000 of 2000\n", 2000)]
    if os.path.exists(FMT):
        shown.append(("cpp", over_fmt, COMPILERS[compiler], FMT_FLAGS, FMT_LIBRARIES, "", 1))
    if os.path.exists(SPDLOG):
        shown.append(("cpp", over_spdlog, COMPILERS[compiler], SPDLOG_FLAGS, SPDLOG_LIBRARIES, "", 1))
    for language, text, it, flags, libraries, wanted, lines in shown:
        with tempfile.TemporaryDirectory(dir=room) as folder:
            os.mkdir(f"{folder}/logs")
            with open(f"{folder}/shown.{language}", "w", encoding="utf-8") as source:
                source.write(text)
            if not compiled(it, f"{folder}/shown.{language}", f"{folder}/shown", flags, [*archives, *libraries], count):
                continue
            for times in (1, 2):
                ran = run([f"{folder}/shown"], SECONDS, cwd=folder)
                count.note((ran.returncode, ran.stdout, ran.stderr) == (0, wanted, ""), f"what {DOCUMENT} shows in {language}: {ran}")
                written = "".join(read(f"{folder}/logs/{name}") for name in os.listdir(f"{folder}/logs"))
                count.note(written.count("\n") == times * lines, f"what {DOCUMENT} shows in {language}: its lines")
            os.rename(f"{folder}/logs", f"{folder}/other")
            ran = run([f"{folder}/shown"], SECONDS, cwd=folder)
            count.note(ran.returncode == 1 and "no files can be written to logs" in ran.stderr, f"what {DOCUMENT} shows in {language}, without a folder: {ran}")


def check_rust(archives, room, count):
    """Compiles and runs the example in Rust, where there is a compiler: each request has its line, and a second run goes on behind them."""
    if not shutil.which("rustc"):
        return
    path = f"{room}/rust"
    words = ["rustc", "--edition", "2021", "-O", "-D", "warnings", f"{EXAMPLES}/server.rs", *(f"-Clink-arg={it}" for it in archives), "-o", path]
    ran = run(words, COMPILE_SECONDS)
    count.note(ran.returncode == 0 and not ran.stderr, f"{' '.join(words)}: {ran}")
    with tempfile.TemporaryDirectory(dir=room) as folder:
        for times in (1, 2) if ran.returncode == 0 else ():
            ran = run([path, f"{EXAMPLES}/server.toml", folder], SECONDS)
            wanted = "asked 2000\nposted 2000\ndiscarded 0\noverrun 0\nhandled 2000\nfaults 0\n"
            count.note((ran.returncode, ran.stdout, ran.stderr) == (0, wanted, ""), f"server.rs: {ran}")
            lines = sorted(it.split("] ", 3)[-1] for it in read(f"{folder}/server.log").splitlines())
            all_of = sorted(f"thread {t} served request {r}" for t in range(2) for r in range(1000) for _ in range(times))
            count.note(lines == all_of, "server.rs: its lines")


def check_makefile(compiler, home, room, count):
    """Builds the examples by their Makefile, elsewhere."""
    with tempfile.TemporaryDirectory(dir=room) as place:
        shutil.copytree(EXAMPLES, f"{place}/c")
        words = ["make", "-s", f"ALOG={home}", f"KIT={kit()}", f"HEADERS={os.path.abspath(HEADERS)}", f"CC={compiler}", f"CXX={COMPILERS[compiler]}"]
        ran = run(words, COMPILE_SECONDS, cwd=f"{place}/c")
        is_built = os.path.exists(f"{place}/c/server_c") and os.path.exists(f"{place}/c/server_cpp")
        count.note(ran.returncode == 0 and is_built and not ran.stderr, f"{' '.join(words)}: {ran}")


def read(path):
    if not os.path.exists(path):
        return ""
    with open(path, encoding="utf-8") as it:
        return it.read()


def check_threads(compiler, archives, room, count):
    """Runs the programs with threads under a thread sanitizer, which sees both sides, and one that it must refuse."""
    for shim in ("shim.c", "shim.cpp"):
        with open(f"{room}/{shim}", "w", encoding="utf-8") as it:
            it.write(SHIM)
    flags = ["-std=gnu11", *THREADS, f"{room}/shim.c"]
    for it in (it for it in PROGRAMS if it.has_threads):
        path = f"{room}/{compiler}-threads-{it.name}"
        if compiled(compiler, f"{TESTS}/{it.name}.c", path, [*flags, *it.flags], archives, count):
            run_program(it, path, room, count, SANITIZED_SECONDS)
    check_front_ends(compiler, archives, [*THREADS, f"{room}/shim.cpp"], "threads", room, count, SANITIZED_SECONDS)
    path = f"{room}/{compiler}-misuse"
    if compiled(compiler, f"{TESTS}/misuse.c", path, flags, archives, count):
        with tempfile.TemporaryDirectory(dir=room) as folder:
            ran = run([path, folder], SANITIZED_SECONDS)
            count.note("data race" in ran.stderr, f"{path}: two calls at once on one handle were not seen: {ran}")


def check(compiler, home, room, count):
    """Checks all with one compiler."""
    rest = [f"{kit()}/libos_c.a", f"{kit()}/liblibc_c.a"]
    archives = [f"{home}/libalog_c.a", *rest]
    check_headers(compiler, room, count)
    check_kinds(compiler, room, count)
    check_formats(compiler, room, count)
    check_makefile(compiler, home, room, count)
    check_document(compiler, archives, room, count)
    for name, flags, seconds in (("plain", ["-O2"], SECONDS), ("addresses", ADDRESSES, SANITIZED_SECONDS)):
        for it in PROGRAMS:
            path = f"{room}/{compiler}-{name}-{it.name}"
            if compiled(compiler, f"{TESTS}/{it.name}.c", path, ["-std=gnu11", *flags, *it.flags], archives, count):
                run_program(it, path, room, count, seconds)
        check_front_ends(compiler, archives, flags, name, room, count, seconds)
        check_examples(compiler, archives, flags, room, count)
        print(f"c: {compiler}, {name}: {count.passed} passed, {count.failed} failed so far", flush=True)
    if os.path.exists(f"{home}/libalog_c_tsan.a"):
        check_threads(compiler, [f"{home}/libalog_c_tsan.a", *rest], room, count)
        print(f"c: {compiler}, threads: {count.passed} passed, {count.failed} failed so far", flush=True)


def main(words):
    if words not in ([], ["unproved"]):
        raise SystemExit(__doc__)
    count = Count()
    with tempfile.TemporaryDirectory(prefix="alog-c-") as room:
        home = library(words == ["unproved"], room)
        compilers = [it for it in COMPILERS if shutil.which(it) and shutil.which(COMPILERS[it])]
        count.note(home is not None, "the library could not be built")
        count.note(bool(compilers), "neither gcc with g++ nor clang with clang++ is there")
        for compiler in compilers if home else []:
            check(compiler, home, room, count)
        if home:
            check_rust([f"{home}/libalog_c.a", f"{kit()}/libos_c.a", f"{kit()}/liblibc_c.a"], room, count)
    print(f"{count.passed} passed, {count.failed} failed")
    return 1 if count.failed else 0


if __name__ == "__main__":
    sys.exit(main(sys.argv[1:]))

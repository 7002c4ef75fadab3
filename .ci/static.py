"""Builds the static library for programs in C without proof: static.py TO makes TO/libalog_c.a, with checks at run time, and
TO/libalog_c_tsan.a, which a thread sanitizer sees into, since each of its accesses is told to the sanitizer.

`rt try` compiles a program from its sources, runs it once and removes it; of a program it keeps no export. So a copy of the library gets a
`main` that calls each export, and what is handed to LLVM is taken while it is there. A module of LLVM is needed, since what `rt lib` makes
are instructions, in which a sanitizer cannot see which accesses are atomic.
"""
import glob
import os
import re
import shutil
import subprocess
import sys
import tempfile
import time

sys.dont_write_bytecode = True
from build import below
from changed import listed

LIBRARY = "alog_c"
# what stands for an argument of a type, and what that needs before
ARGUMENTS = {"Global": "rt.alloc()", "&[u8]": 'b""', "&mut [u8]": "&mut bytes", "&mut u64": "&mut wide", "&mut u32": "&mut narrow", "&mut usize": "&mut size", "&mut AlogReport": "&mut report"}
BEFORE = """fn main(rt: HostRuntime) -> std::io::Result<()> {
    let mut bytes = [0_u8; 8];
    let mut size = 0_usize;
    let mut wide = 0_u64;
    let mut narrow = 0_u32;
    let mut report = AlogReport { asked: 0, posted: 0, discarded: 0, overrun: 0, handled: 0, faults: 0 };
"""
HANDLE = "    let mut handle_{} = unsafe {{ std::mem::ManuallyDrop::new_unchecked(AlogHandle::empty()) }};\n"


def exports_of(text):
    """Returns the exports of a source, each with the types of its parameters."""
    found = re.findall(r'pub extern "C" fn (\w+)\(([^)]*)\)', text)
    return {name: [it.partition(":")[2].strip() for it in words.split(",") if it.strip()] for name, words in found}


def main_of(exports):
    """Returns a `main` that calls each export, on handles that hold nothing."""
    handles, calls = [], []
    for name, types in exports.items():
        words = []
        for it in types:
            if it == "&mut AlogHandle":
                handles.append(HANDLE.format(len(handles)))
                words.append(f"&mut handle_{len(handles) - 1}")
            else:
                words.append(ARGUMENTS.get(it, "0"))
        calls.append(f"    let _ = {name}({', '.join(words)});\n")
    return BEFORE + "".join(handles) + "".join(calls) + "    Ok(())\n}\n"


def furnish(room):
    """Puts the library as a program into a room, with what it stands on; returns its exports."""
    with open("crates.txt", encoding="utf-8") as it:
        rows = listed(it.read())
    crates = below(LIBRARY, rows)
    with open(f"{room}/crates.txt", "w", encoding="utf-8") as it:
        it.writelines(f"{rows[name][0]}\n" for name in crates)
        it.write(f"{LIBRARY}: {' '.join(rows[LIBRARY][1])}\n")
    for name in (LIBRARY, *crates):
        for part in ("src", "specs"):
            if os.path.isdir(f"crates/{name}/{part}"):
                shutil.copytree(f"crates/{name}/{part}", f"{room}/crates/{name}/{part}")
    source = f"{room}/crates/{LIBRARY}/src"
    with open(f"{source}/lib.rt", encoding="utf-8") as it:
        text = it.read()
    exports = exports_of(text)
    os.remove(f"{source}/lib.rt")
    with open(f"{source}/main.rt", "w", encoding="utf-8") as it:
        it.write(f"{text}\n{main_of(exports)}")
    return exports


def module_of(room):
    """Runs the program once, and returns the largest module that was there meanwhile; what was said is printed where there was none."""
    kept = {}
    os.mkdir(f"{room}/tmp")
    with open(f"{room}/said", "w+", encoding="utf-8", errors="replace") as said:
        env = {**os.environ, "TMPDIR": f"{room}/tmp"}
        ran = subprocess.Popen(["rt", "try", LIBRARY], cwd=f"{room}/crates/{LIBRARY}", env=env, stdin=subprocess.DEVNULL, stdout=said, stderr=subprocess.STDOUT)
        while ran.poll() is None:
            for it in glob.glob(f"{room}/tmp/**/module*.bc", recursive=True):
                try:
                    if os.stat(it).st_ino not in kept:
                        os.link(it, f"{room}/{len(kept)}.bc")
                        kept[os.stat(f"{room}/{len(kept)}.bc").st_ino] = f"{room}/{len(kept)}.bc"
                except OSError:
                    pass
            time.sleep(0.003)
        said.seek(0)
        words = said.read()
    if not kept:
        print(words[-4000:], flush=True)
    return max(kept.values(), key=os.path.getsize, default=None)


def with_exports(text, exports):
    """Returns a module whose exports have their own names, and no `main`."""
    for name in exports:
        text = text.replace(f'@"{LIBRARY}::{name}"', f"@{name}")
        text = re.sub(rf"^define internal ([^\n]*@{name}\()", r"define \1", text, flags=re.M)
    return text.replace("define i32 @main()", 'define internal i32 @"no-main"()')


def for_threads(text):
    """Returns the module without its checks and the filling of locals, and marked for a thread sanitizer."""
    text = re.sub(r'^  call void @"rattle-llvm-checks::[^\n]*\n', "", text, flags=re.M)
    text = re.sub(r"^  call void @llvm\.memset\.p0\.i64\(ptr %r\d+, i8 -86, i64 \d+, i1 false\)\n", "", text, flags=re.M)
    return text.replace(" sanitize_address", " sanitize_thread")


def archive(text, to, flags, clang, room):
    """Makes an archive of a module."""
    with open(f"{room}/module.ll", "w", encoding="utf-8") as it:
        it.write(text)
    subprocess.run([clang, "-c", "-fPIC", *flags, "-x", "ir", f"{room}/module.ll", "-o", f"{room}/module.o"], check=True)
    if os.path.exists(to):
        os.remove(to)
    subprocess.run(["ar", "rcs", to, f"{room}/module.o"], check=True)


def build(to):
    clang = f"{os.path.dirname(os.path.dirname(os.path.realpath(shutil.which('rt'))))}/toolchain/bin/clang"
    os.makedirs(to, exist_ok=True)
    with tempfile.TemporaryDirectory(prefix="alog-static-") as room:
        exports = furnish(room)
        module = module_of(room)
        if module is None:
            return 1
        subprocess.run([clang, "-S", "-emit-llvm", "-x", "ir", module, "-o", f"{room}/whole.ll"], check=True)
        with open(f"{room}/whole.ll", encoding="utf-8") as it:
            text = with_exports(it.read(), exports)
        archive(text.replace(" sanitize_address", ""), f"{to}/libalog_c.a", ["-O2"], clang, room)
        archive(for_threads(text), f"{to}/libalog_c_tsan.a", ["-O1", "-fsanitize=thread"], clang, room)
    return 0


if __name__ == "__main__":
    sys.exit(build(os.path.abspath(sys.argv[1])))

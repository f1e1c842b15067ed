#!/usr/bin/env python3
"""Builds the program or the shared library for C from its sources without a proof.

    bench/unproved.py FILE [TREE]
    bench/unproved.py --library [TREE]

It writes the program of TREE, or of this tree, to FILE in one to three minutes, to see what a
change does to its speed. Or it writes the shared library to c/out and python/cityseq, to try the
package over a change. It is for trials alone: nothing has shown that what it builds is safe.

Compare counts of a program with those of another such build. On usual, tiny and huge lines they are
those of the proved program within 1 %, and on lines of many names within 7 %. On texts they are 2.5
times as high, since `rt try` does not use the byte shuffles of the processor.

`rt try` makes one module of LLVM for the whole program, and puts checks and fills of memory into
it. They are taken out here. Functions get the inline attributes of the sources, and the module is
compiled as the build does it. The module of the library is that of a test that calls each
function, in a copy of the crates. It needs a C compiler to link."""
import os
import re
import shutil
import subprocess
import sys
import tempfile
import threading
import time
from pathlib import Path
from typing import Dict, Iterable, Iterator, Set, Tuple

ROOT = Path(__file__).resolve().parent.parent
KIT = Path(subprocess.check_output(["rt", "doc"], text=True).strip()).parent
MODULE = "module.bc"  # in the temporary folder of `rt try`
PROGRAM = ("cityseq", "--steps", "1000", "--", "check")  # a crate, and words for `rt try`
LIBRARY = ("cityseq_exports", "--steps", "1000", "--test")
# Calls each function of the library, since `rt try` makes code of what tests reach alone.
CALLS = """
#[cfg(test)]
mod calls {
    use super::*;
    use cityseq_c::{Number, Range};

    #[test]
    fn each_is_called(rt: HostRuntime) {
        let request = Request {
            line_limit: 1, depth_limit: 1, keep_going: true, tree: false, exclude: false,
            extensions: false, asks_ids: true, asks_types: true, asks_lods: true, asks_box: true,
            ids: b"", types: b"", lods: b"", bbox: b"",
        };
        let none = Range { some: 0, least: 0, greatest: 0 };
        let zero = Number { negative: 0, power: 0, high: 0, low: 0 };
        let mut tally = Tally {
            features: 0, types: [0; 34], lods: [0; 6], ranges: [none; 3], transformed: 0,
            scale: [zero; 3], translate: [zero; 3],
        };
        let first = cityseq_check(rt.alloc(), b"", b"", &request, &mut []);
        let next = cityseq_filter(rt.alloc(), b"", b"", &request, &mut [], &mut []);
        let _ = cityseq_info(rt.alloc(), b"", b"", &request, &mut tally, &mut []);
        let _ = cityseq_features(rt.alloc(), b"", b"", &request, &mut [], &mut []);
        let _ = cityseq_answer_then(&first, &next, 0);
        let _ = cityseq_tally_then(&tally, &tally);
        let _ = cityseq_part_end(b"", 0);
        let _ = cityseq_line_begin(b"", b"", 0);
        let _ = cityseq_stack(&request);
        let _ = cityseq_memory(&request, 0, 0);
        let _ = cityseq_reason_text(0, &mut []);
        let _ = cityseq_type_name(0, &mut []);
        let _ = cityseq_version(&mut []);
        let _ = cityseq_interface();
    }
}
"""
PROTOTYPE = re.compile(r"^((?:struct )?\w+) (cityseq_\w+)\(([^()]*)\)[^;{]*;", re.MULTILINE)
# How the build has machine code made, but for the levels that `rt try` sets.
CODE = ["-O3", "-march=x86-64-v2", "-ffunction-sections", "-fdata-sections"]
for word in (
    "-no-trap-after-noreturn",
    "-trap-unreachable",
    "-no-x86-call-frame-opt",
    "-disable-machine-licm",
    "-disable-postra-machine-licm",
    "-sink-common-insts=false",
):
    CODE += ["-mllvm", word]
INLINE = {"(always)": "alwaysinline", "(never)": "noinline", None: "inlinehint"}
# the attributes of a build with checks
CHECKED = (" sanitize_address", ' "frame-pointer"="all"')

# of functions by module and name
Attributes = Dict[Tuple[str, str], str]


def keep_modules(folder: Path, kept: Path, ended: threading.Event) -> None:
    """Links each module that appears in the folder, so that it stays when the folder is emptied."""
    seen: Set[int] = set()
    while not ended.is_set():
        for path in folder.rglob(MODULE):
            try:
                number = path.stat().st_ino
                if number not in seen:
                    os.link(path, kept / f"{len(seen)}.bc")
                    seen.add(number)
            except FileNotFoundError:
                continue
        time.sleep(0.01)


def module_of(tree: Path, folder: Path, crate: str, *words: str) -> Path:
    """Returns the module of a crate, as `rt try` makes it with these words."""
    used, kept, ended = folder / "used", folder / "kept", threading.Event()
    used.mkdir()
    kept.mkdir()
    keeper = threading.Thread(target=keep_modules, args=(used, kept, ended))
    keeper.start()
    try:
        subprocess.run(
            ["rt", "try", *words],
            cwd=tree / "crates" / crate,
            env={**os.environ, "TMPDIR": str(used)},
            stdin=subprocess.DEVNULL,
            stdout=subprocess.DEVNULL,
            stderr=subprocess.DEVNULL,
        )
    finally:
        ended.set()
        keeper.join()
    found = sorted(kept.iterdir(), key=lambda path: path.stat().st_size)
    if not found:
        sys.exit(f"rt try made no module: run it in crates/{crate} to see why")
    return found[-1]


def with_calls(tree: Path, folder: Path) -> Path:
    """Returns a copy of the sources in which a test of the library calls each of its functions."""
    copy = folder / "tree"
    for path in (tree / "crates").iterdir():
        for part in ("src", "specs"):
            if (path / part).is_dir():
                shutil.copytree(path / part, copy / "crates" / path.name / part)
    shutil.copy(tree / "crates.txt", copy)
    with open(copy / "crates" / LIBRARY[0] / "src" / "lib.rt", "a", encoding="utf-8") as source:
        source.write(CALLS)
    return copy


def attributes_of(crate: str, sources: Path) -> Iterator[Tuple[Tuple[str, str], str]]:
    """Yields the inline attributes of a crate's functions."""
    for path in sources.rglob("*.rt"):
        parts = path.relative_to(sources).with_suffix("").parts
        module = "::".join([crate, *(part for part in parts if part not in ("lib", "main", "mod"))])
        attribute = None
        for line in path.read_text("utf-8").splitlines():
            inline = re.match(r"\s*#\[inline(\(\w+\))?\]", line)
            named = re.match(r"\s*(?:pub(?:\(\w+\))? )?(?:const )?(?:unsafe )?fn (\w+)", line)
            if inline:
                attribute = INLINE.get(inline.group(1))
            elif named:
                if attribute:
                    yield (module, named.group(1)), attribute
                attribute = None


def all_attributes(tree: Path) -> Attributes:
    """Returns the inline attributes of this repository and of the kit's libraries."""
    found: Attributes = {}
    for folder in (tree / "crates", KIT / "rattle"):
        for crate in folder.iterdir():
            if (crate / "src").is_dir():
                found.update(attributes_of(crate.name, crate / "src"))
    return found


def with_inline(line: str, attributes: Attributes) -> str:
    """Returns the head of a function with its inline attribute."""
    named = re.search(r'@"([^"]*)"', line)
    names = named.group(1).split("::<")[0].split("::") if named else []
    for length in range(len(names) - 1, 0, -1):
        attribute = attributes.get(("::".join(names[:length]), names[-1]))
        if attribute:
            return re.sub(r"\) #(\d+)", rf") {attribute} #\1", line, count=1)
    return line


def without_checks(lines: Iterable[str], attributes: Attributes) -> Iterator[str]:
    """Yields the module's lines without what `rt try` adds. What a check would end is then
    unreachable."""
    for line in lines:
        if re.match(r'\s*call void @(llvm\.trap\(\)|"rattle-llvm-checks::)', line):
            continue
        if "@llvm.memset" in line and "i8 -86" in line:
            continue
        if line.startswith("define"):
            line = with_inline(line, attributes)
        if line.startswith("attributes"):
            for text in CHECKED:
                line = line.replace(text, "")
            line = line.replace('"target-cpu"="x86-64"', '"target-cpu"="x86-64-v2"')
            line = line.replace("= { }", "= { nounwind }")
        yield line


def compiled(module: Path, tree: Path, position: str) -> Path:
    """Compiles a module without its checks, and returns the object file. `position` is the option
    on where the code may stand."""
    read, plain, code = (module.with_suffix(suffix) for suffix in (".ll", ".plain.ll", ".o"))
    clang = [str(KIT / "toolchain" / "bin" / "clang"), "--target=x86_64-unknown-linux-gnu"]
    clang += ["--no-default-config", "-x", "ir"]
    as_text = ["-S", "-emit-llvm", "-Xclang", "-disable-llvm-passes"]
    subprocess.run([*clang, *as_text, str(module), "-o", str(read)], check=True)
    with open(read, encoding="utf-8") as source, open(plain, "w", encoding="utf-8") as sink:
        for line in without_checks(source, all_attributes(tree)):
            line = re.sub(r'@"cityseq_exports::(cityseq_\w+)"', r"@rattle_\1", line)
            sink.write(re.sub(r"^define internal (.*@rattle_)", r"define \1", line))
    subprocess.run([*clang, "-c", position, *CODE, str(plain), "-o", str(code)], check=True)
    return code


def compiler() -> str:
    """Returns the C compiler."""
    return os.environ.get("CC", "cc")


def link_program(code: Path, target: str) -> None:
    """Links the program."""
    libraries = [str(KIT / "c" / name) for name in ("libos_c.a", "liblibc_c.a")]
    words = ["-pie", "-Wl,--gc-sections", "-o", target, str(code), *libraries, "-lm"]
    subprocess.run([compiler(), *words], check=True)


def wrappers(header: str) -> Iterator[str]:
    """Yields functions of C that call those of the module. There a struct is returned through a
    first argument."""
    yield '#include "cityseq.h"'
    for kind, name, text in PROTOTYPE.findall(header):
        given = [] if text == "void" else [" ".join(each.split()) for each in text.split(",")]
        names = [re.split(r"\W+", each)[-1] for each in given]
        if kind.startswith("struct"):
            inner, call = [f"{kind} *made", *given], ", ".join(["&made", *names])
            yield f"void rattle_{name}({', '.join(inner)});"
            body = f"{kind} made; rattle_{name}({call}); return made;"
        else:
            yield f"{kind} rattle_{name}({text});"
            body = f"return rattle_{name}({', '.join(names)});"
        yield f"{kind} {name}({text}) {{ {body} }}"


def link_library(code: Path, tree: Path) -> None:
    """Links the shared library, as c/build.sh does it, and copies it for the package."""
    header, out = (tree / "c" / "cityseq.h").read_text("utf-8"), tree / "c" / "out"
    calls = code.with_name("calls.c")
    calls.write_text("\n".join(wrappers(header)) + "\n", "utf-8")
    out.mkdir(exist_ok=True)
    for old in out.glob("libcityseq.so*"):
        old.unlink()
    interface = re.findall(r"#define CITYSEQ_INTERFACE (\d+)", header)[0]
    shared = out / f"libcityseq.so.{interface}"
    words = ["-shared", "-O2", "-fPIC", "-I", str(tree / "c"), "-o", str(shared), str(calls)]
    words += [str(code), *(str(KIT / "c" / name) for name in ("liblibc_c.a", "libos_c.a"))]
    words += [f"-Wl,-soname,{shared.name}", "-Wl,-z,relro,-z,now,-z,defs", "-lm"]
    words += [f"-Wl,--version-script={tree / 'c' / 'cityseq.map'}"]
    subprocess.run([compiler(), *words], check=True)
    (out / "libcityseq.so").symlink_to(shared.name)
    copy = tree / "python" / "cityseq" / "libcityseq.so"
    copy.unlink(missing_ok=True)  # to write over it would break a process that has it open
    shutil.copy(shared, copy)


def main(target: str, tree: str = str(ROOT)) -> None:
    """Builds the program, or the library."""
    top, is_library = Path(tree).resolve(), target == "--library"
    with tempfile.TemporaryDirectory() as folder:
        if is_library:
            module = module_of(with_calls(top, Path(folder)), Path(folder), *LIBRARY)
        else:
            module = module_of(top, Path(folder), *PROGRAM)
        code = compiled(module, top, "-fPIC" if is_library else "-fPIE")
        if is_library:
            link_library(code, top)
        else:
            link_program(code, target)


if __name__ == "__main__":
    if len(sys.argv) not in (2, 3):
        sys.exit("Usage: bench/unproved.py FILE|--library [TREE]")
    main(*sys.argv[1:])

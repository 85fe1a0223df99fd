#!/usr/bin/env python3
"""Makes the release: the program and the library for C programs, and what says of them what was proved.

    tools/release.py [FOLDER]             makes it in FOLDER, or in release/, of what is committed
    tools/release.py --check [FOLDER]     proves and builds all anew, and says of each file there whether it is the same byte for byte
    tools/release.py --libraries FOLDER   makes the libraries for C programs alone, of the sources as they stand

Crates are proved as `tools/build.py` proves them; what it keeps is taken from there, but with --check nothing is, which works in
a folder of its own. All is linked by the toolchain's own linker, the program with `tools/start.c`, without symbols of its own,
dates or names of folders, so that who has the toolchain makes the same bytes of the same sources. `PROVED.txt` says of which. The
status is 0 where all is made, or is the same.
"""
import hashlib
import os
import pathlib
import re
import shutil
import subprocess
import sys
import tempfile

import build
import manual

TOP = build.TOP
LIBRARY = "capi"
# The number that programs which use the library are bound to; it goes up where a call changes.
SONAME = "libhwtool.so.2"
TOOLS = build.KIT / "toolchain"


def run(words, **more):
    """Runs a command, which has to do well; answers its standard output."""
    return subprocess.run([str(it) for it in words], check=True, stdout=subprocess.PIPE, **more).stdout


def sum_of(path):
    """The sum (SHA-256) of a file."""
    return hashlib.sha256(path.read_bytes()).hexdigest()


# ---- what is linked


def compile_start(into):
    """Compiles what the released program begins with, by the toolchain, without a header of the system."""
    words = ["--no-default-config", "--target=x86_64-unknown-linux-gnu", "-std=c11", "-O2", "-ffreestanding", "-nostdinc", "-fPIE"]
    words += ["-mno-red-zone", "-fno-ident", "-Wall", "-Wextra", "-Werror"]
    run([TOOLS / "bin/clang", *words, "-c", TOP / "tools/start.c", "-o", into])


def link_program(into, more=()):
    """Links the program as the toolchain's `rattle-link` does, with these words more."""
    library = TOOLS / "lib"
    program = build.crates_of(TOP / "crates.txt")[build.PROGRAM]
    words = [TOOLS / "bin/ld.lld", "-m", "elf_x86_64", "-pie", "--dynamic-linker", "/lib64/ld-linux-x86-64.so.2", "--as-needed"]
    words += ["-z", "relro", "-z", "now", "-z", "noexecstack", "--eh-frame-hdr", "--gc-sections", "--no-dependent-libraries"]
    words += ["--build-id=sha1", "--fatal-warnings", "--threads=1", *more, "-o", into]
    words += [library / it for it in ["Scrt1.o", "crti.o", "crtbeginS.o"]]
    words += [program.made, build.KIT / "c/libos_c.a", build.KIT / "c/liblibc_c.a"]
    words += [library / it for it in ["libm.so.6", "libc.so.6", "libc_nonshared.a", "ld-linux-x86-64.so.2", "libgcc.a", "libgcc_s.so.1"]]
    words += [library / it for it in ["crtendS.o", "crtn.o"]]
    run(words)


def make_libraries(into):
    """Makes the library for C programs: an archive that has the toolchain's heap in it, and a shared one. Both give out the
    names of the header alone."""
    archive = into / "libhwtool.a"
    with tempfile.TemporaryDirectory() as parts:
        made = build.crates_of(TOP / "crates.txt")[LIBRARY].made
        linked = [TOOLS / "bin/ld.lld", "-m", "elf_x86_64", "-r", "--threads=1", "-o", "linked.o", "--whole-archive", made]
        run([*linked, "--no-whole-archive", build.KIT / "c/liblibc_c.a"], cwd=parts)
        # the toolchain's compiler is each of LLVM's tools, by the name that it is called by
        copied = ["llvm-objcopy", "--wildcard", "--keep-global-symbol=hwtool_*", "linked.o", "hwtool.o"]
        run(copied, executable=TOOLS / "bin/clang", cwd=parts)
        archive.unlink(missing_ok=True)
        # without dates and owners
        run([TOOLS / "bin/llvm-ar", "rcsD", archive, "hwtool.o"], cwd=parts)
    with tempfile.TemporaryDirectory() as folder:
        names = pathlib.Path(folder) / "names"
        names.write_text("{ global: hwtool_*; local: *; };\n")
        words = [TOOLS / "bin/ld.lld", "-m", "elf_x86_64", "-shared", "-soname", SONAME, "--version-script", names, "-z", "defs"]
        words += ["-z", "relro", "-z", "now", "-z", "noexecstack", "--eh-frame-hdr", "--gc-sections", "--strip-all", "--build-id=sha1"]
        words += ["--threads=1", "-o", into / "libhwtool.so", "--whole-archive", archive, "--no-whole-archive"]
        run([*words, TOOLS / "lib/libc.so.6", TOOLS / "lib/libgcc.a"])


def least_glibc(files):
    """The least version of glibc that has what these files need."""
    found = {tuple(map(int, it.split(b"."))) for path in files for it in re.findall(rb"GLIBC_([0-9.]+)\0", path.read_bytes())}
    return ".".join(map(str, max(found)))


# ---- what is written beside it

NO_TERMS = """Of these parts of the toolchain, which are in the program and the libraries too, the toolchain states no terms:
"""

PC = """prefix=${{pcfiledir}}/../..
libdir=${{prefix}}/lib
includedir=${{prefix}}/include

Name: hwtool
Description: Judgements of BTOR2 and AIGER witnesses and certificates, and lowering of models to circuits
Version: {version}
Libs: -L${{libdir}} -lhwtool
Cflags: -I${{includedir}}
"""

WORDS = """What the words of the prover's last lines mean:
  functions=N              so many functions of the crate are proved, each to meet its contract; a crate in which one is not is not built
  sum=..                   the logic that it was proved in, by the front of its sum
  native=nat,char,string   on numbers and strings the logic's own checker computes natively, and the verdict may rest on that code
  logic-built=trusted      the logic was taken as its makers checked it, and was not checked again
  libraries-built=trusted  so were the libraries that the crate stands on: the toolchain's, and ours that were proved before
  statements=trusted       of our own, what can be cited was read, and the proofs below it were not read again
  axioms=N                 so many functions of C are called, whose contracts are taken as they are stated; they are named below
  target=.., cpu=..        what was compiled for"""


def notices(used):
    """The terms of the parts of the toolchain that are in the program and the libraries."""
    texts, without = {}, []
    for name in used:
        folder = build.KIT / "rattle" / name
        files = [folder / "LICENSE-MIT"] if (folder / "LICENSE-MIT").exists() else sorted(folder.glob("LICENSE")) or sorted(folder.glob("LICENSE-*"))
        files += [it for it in sorted(folder.glob("LICENSE-UNICODE")) if it not in files]
        for file in files:
            texts.setdefault(file.read_text(), []).append(name)
        if not files:
            without.append(name)
    parts = [f"In the program and the libraries are parts of {', '.join(names)}, under these terms:\n\n{text.strip()}\n" for text, names in texts.items()]
    return "\n----\n\n".join([*parts, NO_TERMS + "\n" + ", ".join(without) + "\n"])


def used_libraries(crates):
    """The libraries of the toolchain that some crates stand on, by their names."""
    found = {name for it in crates for name in re.findall(r"^statements (\w+):", it.said.read_text(errors="replace"), flags=re.M)}
    return sorted((found | {name for it in crates for name in it.of_kit}) - {it.name for it in crates})


def axioms(crate):
    """What the prover says of functions of C that a program or a static library rests on."""
    return re.findall(r"^axioms .*", crate.said.read_text(errors="replace"), flags=re.M)


def proved_text(made, version, files, folder):
    """What was proved, of which sources, by what."""
    names = " ".join(it.name for it in made)
    objects = run(["git", "rev-parse", "HEAD:crates", "HEAD:crates.txt"], cwd=TOP).decode().split()
    logic = re.search(r"^logic .*?: (.*)", made[-1].said.read_text(errors="replace"), flags=re.M)[1]
    ends = [it for it in made if it.is_program or it.is_static]
    lines = [f"hwtool {version}: what was proved, of which sources, by what. Written by tools/release.py.", ""]
    lines += [f"toolchain: {(build.KIT / 'KIT-ID').read_text().strip()}", f"logic of the prover: {logic}"]
    lines += [f"crates that it was built from: {names}", f"sum of their sources: {run([TOP / 'tools/sources-sum.sh', *names.split()]).decode().strip()}"]
    lines += [f"git objects of crates and crates.txt: {' '.join(objects)}"]
    lines += [f"least glibc: {least_glibc([folder / 'hwtool', folder / 'libhwtool.so'])}", ""]
    lines += [f"{len(made)} crates, {sum(it.functions for it in made)} functions, all proved. The prover's last line of each:", ""]
    lines += [f"  {it.name:13} {it.verdict}" for it in made]
    lines += ["", WORDS, "", "Functions of C whose contracts are taken:", ""]
    for it in ends:
        lines += [f"  {'program' if it.is_program else 'library'}: {line}" for line in axioms(it)]
    lines += ["", "Sums (SHA-256) of the files:", "", *(f"  {sum_of(folder / it)}  {it}" for it in files), ""]
    return "\n".join(lines)


# ---- the release


def make(folder):
    """Makes the release in a folder; answers its files."""
    made = build.make([build.PROGRAM, LIBRARY])
    if not made:
        sys.exit("release: not all is proved, so nothing is released")
    if not all(" sum=" in it.verdict for it in made):
        sys.exit("release: of a library that stands it is not said how it was proved: remove its folder out/proved")
    if run(["git", "status", "--porcelain", "--", "crates", "crates.txt", "include", "tools"], cwd=TOP):
        sys.exit("release: what is released is committed first")
    folder.mkdir(parents=True, exist_ok=True)
    with tempfile.TemporaryDirectory() as there:
        # the words of linking are those of the toolchain's own command, as long as they make the same
        link_program(there + "/hwtool")
        if sum_of(pathlib.Path(there) / "hwtool") != sum_of(made_program(made)):
            sys.exit("release: the toolchain links otherwise than this script")
        compile_start(there + "/start.o")
        link_program(folder / "hwtool", [there + "/start.o", "--strip-all"])
    make_libraries(folder)
    version = manual.said(folder / "hwtool", "--version").split()[1]
    shutil.copyfile(TOP / "include/hwtool.h", folder / "hwtool.h")
    shutil.copyfile(TOP / "LICENSE", folder / "LICENSE")
    (folder / "hwtool.pc").write_text(PC.format(version=version))
    (folder / "NOTICES").write_text(notices(used_libraries(made)))
    manual.write(folder / "hwtool", folder)
    files = sorted(it.name for it in folder.iterdir() if it.is_file() and it.name not in ("PROVED.txt", "SHA256SUMS", "README.md"))
    (folder / "PROVED.txt").write_text(proved_text(made, version, files, folder))
    files = sorted([*files, "PROVED.txt"])
    (folder / "SHA256SUMS").write_text("".join(f"{sum_of(folder / it)}  {it}\n" for it in files))
    return [*files, "SHA256SUMS"]


def made_program(made):
    """The program that was built here."""
    return next(it for it in made if it.is_program).folder / "out" / build.PROGRAM


def check(folder):
    """Proves and builds all anew, in a copy of what is committed, and compares; answers whether all is the same."""
    with tempfile.TemporaryDirectory() as there:
        copy = pathlib.Path(there) / "hwtool"
        run(["git", "clone", "--quiet", "--no-hardlinks", TOP, copy])
        run([copy / "tools/release.py"], env={**os.environ, "PYTHONDONTWRITEBYTECODE": "1"})
        same = True
        for file in sorted(it.name for it in (copy / "release").iterdir() if it.is_file()):
            is_same = (folder / file).is_file() and (folder / file).read_bytes() == (copy / "release" / file).read_bytes()
            print(f"{'the same' if is_same else 'ANOTHER':8}  {file}")
            same = same and is_same
        return same


def main(words):
    flags = [it for it in words if it.startswith("--")]
    folders = [pathlib.Path(it).resolve() for it in words if not it.startswith("--")]
    if len(folders) > 1 or len(flags) > 1 or flags and flags[0] not in ("--check", "--libraries"):
        sys.exit(__doc__)
    folder = folders[0] if folders else TOP / "release"
    if flags == ["--check"]:
        return 0 if check(folder) else 1
    if flags == ["--libraries"]:
        folder.mkdir(parents=True, exist_ok=True)
        if not build.make([LIBRARY]):
            return 1
        make_libraries(folder)
        # by which programs find the shared one
        (folder / SONAME).unlink(missing_ok=True)
        (folder / SONAME).symlink_to("libhwtool.so")
    else:
        for it in make(folder):
            print(f"{(folder / it).stat().st_size:9,}  {it}")
    return 0


if __name__ == "__main__":
    sys.exit(main(sys.argv[1:]))

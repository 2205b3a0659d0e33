"""Links the library that `./build --library` makes, from the static library of it_library.

In crates/it_library/out/library: libitv.a and libitv.so, of which programs see the names that begin
with itv_ and no others, and itv.pc and itv-static.pc, by which pkg-config finds the one and the other.
"""

import json
import os
import shutil
import subprocess
import tempfile
from pathlib import Path

import tree

CRATE = tree.TOP / "crates" / "it_library"
PROVED = CRATE / "out" / "libit_library.a"
MADE = CRATE / "out" / "library"
# The number that changes when programs that use the library have to be compiled again.
BINARY = 1
SONAME = f"libitv.so.{BINARY}"
EXPORTS = "{ global: itv_*; local: *; };\n"
PACKAGE = """\
prefix=/usr/local
includedir=${{prefix}}/include
libdir=${{prefix}}/lib

Name: itv
Description: {summary}
Version: {version}
Cflags: -I${{includedir}}
Libs: {libs}
"""
# The files for pkg-config, with what each of them links.
PACKAGES = {"itv.pc": "-L${libdir} -litv", "itv-static.pc": "${libdir}/libitv.a"}


def c_code():
    """What the toolchain's libraries call of C: their use of malloc, realloc and free."""
    toolchain = Path(os.path.realpath(shutil.which("rt"))).parents[1]
    return toolchain / "c" / "liblibc_c.a"


def run(*words):
    """Runs a command that must succeed."""
    subprocess.run([str(word) for word in words], check=True)


def link_static(room):
    """Makes libitv.a: one object, in which only the exported names are left to see."""
    whole = room / "itv.o"
    run("ld", "-r", "-o", whole, "--whole-archive", PROVED, "--no-whole-archive", c_code())
    run("objcopy", "--wildcard", "--keep-global-symbol=itv_*", whole)
    (MADE / "libitv.a").unlink(missing_ok=True)
    run("ar", "rcsD", MADE / "libitv.a", whole)


def link_shared(room, version):
    """Makes libitv.so, with the names by which programs and the system find it."""
    exports = room / "exports"
    exports.write_text(EXPORTS)
    shared = MADE / f"libitv.so.{version}"
    run("cc", "-shared", f"-Wl,-soname,{SONAME}", f"-Wl,--version-script={exports}",
        "-Wl,-z,relro,-z,now", "-Wl,--no-undefined", "-Wl,--whole-archive", PROVED,
        "-Wl,--no-whole-archive", c_code(), "-o", shared)
    for name in (SONAME, "libitv.so"):
        (MADE / name).unlink(missing_ok=True)
        (MADE / name).symlink_to(shared.name)


def link():
    """Makes the library, and returns its folder."""
    listed = json.loads((tree.TOP / "docs" / "commands.json").read_text())
    shutil.rmtree(MADE, ignore_errors=True)
    MADE.mkdir()
    with tempfile.TemporaryDirectory() as name:
        link_static(Path(name))
        link_shared(Path(name), listed["version"])
    for name, libs in PACKAGES.items():
        (MADE / name).write_text(PACKAGE.format(libs=libs, **listed))
    return MADE

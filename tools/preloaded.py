"""Builds the small libraries that tests load before a program, by the compiler of the Rattle kit: a new machine may have no other."""

import pathlib
import subprocess

HERE = pathlib.Path(__file__).resolve().parent


def kit():
    """The folder of the kit, in which the page lies that `rt doc` names."""
    page = subprocess.run(["rt", "doc"], stdout=subprocess.PIPE, text=True, check=True).stdout.strip()
    return pathlib.Path(page).parent


def build_preloaded(source, library):
    """Builds the library of a C file that includes libc.h in place of the system's headers."""
    tools = kit() / "toolchain"
    subprocess.run([tools / "bin/clang", "-O1", "-Wall", "-Werror", "-shared", "-fPIC", "-ffreestanding", "-nostdlib", "-nostdinc",
                    f"-I{HERE}", "-fuse-ld=lld", f"-B{tools / 'bin'}", "-o", library, source, tools / "lib/libc.so.6"], check=True)

#!/usr/bin/env python3
"""Proves and builds the library that programs link: libvosdrieng.a, libvosdrieng.so, vosdrieng.h and vosdrieng.pc.

usage: tools/library.py [FOLDER]
       tools/library.py --over-gate [FOLDER]

FOLDER is out/library where none is named. What is proved is the crate hc_c and those below it. The archive has that, and the
functions of the kit in C on which it stands, which call malloc, realloc and free. It takes gcc and ar. `--over-gate` takes the
libraries that `rt ci` left in this clone as they are, and proves hc_c alone.
"""
import os
import pathlib
import re
import shutil
import subprocess
import sys
import tempfile

sys.dont_write_bytecode = True
from build import at_once, build_all
from crates import CRATES, TOP, below, crate_lines

LIBRARY = "hc_c"
HEADER = TOP / "include" / "vosdrieng.h"
# What a program may call. All other names stay within the shared library.
NAMES = "{ global: vosdrieng_*; local: *; };\n"
PKG_CONFIG = """\
prefix={prefix}

Name: vosdrieng
Description: An HTTP cache in a program
Version: {version}
Cflags: -I{include}
Libs: -L{lib} -lvosdrieng
"""


def kit():
    """The folder of the toolchain."""
    return pathlib.Path(os.path.realpath(shutil.which("rt"))).parent.parent


def version():
    return re.search(r'VOSDRIENG_VERSION "([^"]*)"', HEADER.read_text()).group(1)


def soname():
    """The name by which programs load the shared library. Below 1.0.0 each version has its own."""
    return f"libvosdrieng.so.{version()}"


def pkg_config(prefix, include="${prefix}", lib="${prefix}"):
    return PKG_CONFIG.format(prefix=prefix, include=include, lib=lib, version=version())


def objects(archive, into):
    into.mkdir()
    subprocess.run(["ar", "x", archive.resolve()], cwd=into, check=True)
    return sorted(into.iterdir())


def over_gate():
    """The archive of hc_c, over the libraries that the gate left. What the toolchain said, where it makes none."""
    home, lines, crates = kit(), crate_lines(), below([LIBRARY])[:-1]
    named = {it: f"{home}/rlibs/{it}.rlib" for it in ("std", *lines[LIBRARY])}
    named |= {it: f"{CRATES}/{it}/out/rlib/{it}.rlib" for it in lines[LIBRARY] if it in crates}
    words = [word for name, library in named.items() for word in ("--extern", f"{name}={library}")]
    words += [word for it in crates for word in ("-L", f"dependency={CRATES}/{it}/out/rlib")]
    words += ["-L", f"dependency={home}/rlibs", "--antt-project", f"{home}/rattle/logic/antt-project.json"]
    words += ["--logic-built", f"{home}/logic_built", "--links", f"{LIBRARY}=", "--toolchain", f"{home}/toolchain"]
    words += ["--crate-type", "staticlib", "-o", f"out/lib{LIBRARY}.a"]
    (CRATES / LIBRARY / "out").mkdir(exist_ok=True)
    build = [f"{home}/bin/rattle", "build", "--crate-name", LIBRARY, "src/lib.rt", *words]
    ran = subprocess.run(build, cwd=CRATES / LIBRARY, stdout=subprocess.PIPE, stderr=subprocess.STDOUT, text=True)
    return ran.stdout if ran.returncode else None


def over_nothing():
    """The archive of hc_c, and all libraries below it. What the toolchain said, where one isn't proved."""
    lines, crates = crate_lines(), below([LIBRARY])
    return build_all({crate: [it for it in lines[crate] if it in crates] for crate in crates}, at_once())


def link(archives, folder):
    """One archive of all the objects, and a shared library of them, with a link to it by its soname."""
    with tempfile.TemporaryDirectory() as room:
        room = pathlib.Path(room)
        parts = [it for n, archive in enumerate(archives) for it in objects(archive, room / str(n))]
        static, names = folder / "libvosdrieng.a", room / "names"
        names.write_text(NAMES)
        static.unlink(missing_ok=True)
        subprocess.run(["ar", "rcs", static, *parts], check=True)
        words = ["gcc", "-shared", f"-Wl,--version-script={names},-soname,{soname()},--gc-sections", "-o", folder / "libvosdrieng.so"]
        subprocess.run([*words, *parts], check=True)
    (folder / soname()).unlink(missing_ok=True)
    (folder / soname()).symlink_to("libvosdrieng.so")


def main(words):
    build, words = (over_gate, words[1:]) if words[:1] == ["--over-gate"] else (over_nothing, words)
    folder = pathlib.Path(words[0] if words else TOP / "out" / "library")
    for tool in ("rt", "gcc", "ar"):
        if not shutil.which(tool):
            print(f"vosdrieng: the library isn't built yet, and {tool}, which that needs, is not here", file=sys.stderr)
            return 70
    fault = build()
    if fault:
        print("vosdrieng: " + "\n".join(fault.splitlines()[:1] + fault.splitlines()[-40:]), file=sys.stderr)
        return 70
    folder.mkdir(parents=True, exist_ok=True)
    link([CRATES / LIBRARY / "out" / f"lib{LIBRARY}.a", *(kit() / "c" / name for name in ("liblibc_c.a", "libos_c.a"))], folder)
    shutil.copyfile(HEADER, folder / HEADER.name)
    (folder / "vosdrieng.pc").write_text(pkg_config(folder.resolve()))
    print(f"vosdrieng: {folder} has libvosdrieng.a, libvosdrieng.so, vosdrieng.h and vosdrieng.pc", file=sys.stderr)
    return 0


if __name__ == "__main__":
    sys.exit(main(sys.argv[1:]))

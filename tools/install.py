#!/usr/bin/env python3
"""Installs what is built, or removes what was installed.

usage: tools/install.py install|uninstall [PREFIX]

PREFIX is /usr/local where none is named. The launcher goes to PREFIX/bin, the programs and the library to PREFIX/lib, the gateway and what draws
runs to PREFIX/share/vosdrieng, and the documents for users to PREFIX/share/doc/vosdrieng. Each path that is written is told. The
list of them stands in PREFIX/share/vosdrieng/installed, and by it they are removed. A file that no such list has is never replaced.
"""
import os
import pathlib
import shutil
import sys

sys.dont_write_bytecode = True
import library
from crates import CRATES, TOP

PROGRAM = CRATES / "hc_app" / "out" / "hc_app"
KEEPER = CRATES / "hc_keep_app" / "out" / "hc_keep_app"
BUILT = TOP / "out" / "library"
PICTURE = TOP / "tools" / "picture"
DOCUMENTS = ["README.md", "LICENSE", *(f"docs/{name}" for name in ("USING.md", "FORMATS.md", "GLOSSARY.md", "PICTURE.md", "RULES.md", "resumed-download.png"))]
SHARED, TOLD = "share/vosdrieng", "share/doc/vosdrieng"
LIST, COMMAND, PKG_CONFIG = f"{SHARED}/installed", "bin/vosdrieng", "lib/pkgconfig/vosdrieng.pc"


class Refused(Exception):
    """Why nothing is done."""


def files():
    """What is copied: its place below the prefix, and the file."""
    found = {"lib/vosdrieng/vosdrieng": PROGRAM, f"{SHARED}/vosdrieng": TOP / "vosdrieng"}
    if KEEPER.exists():
        found["lib/vosdrieng/proxy"] = KEEPER
    found[f"{SHARED}/tools/gateway"] = TOP / "tools" / "gateway"
    for path in [*PICTURE.glob("*.py"), *(PICTURE / "view").iterdir()]:
        found[f"{SHARED}/tools/picture/{path.relative_to(PICTURE)}"] = path
    found |= {f"{TOLD}/{name}": TOP / name for name in DOCUMENTS}
    found |= {f"{TOLD}/examples/{path.name}": path for path in (TOP / "examples").iterdir()}
    if (BUILT / "libvosdrieng.so").exists():
        found |= {f"lib/{name}": BUILT / name for name in ("libvosdrieng.a", "libvosdrieng.so")}
        found["include/vosdrieng.h"] = BUILT / "vosdrieng.h"
    return found


def places(copied):
    """All paths that are written, below the prefix, but the list of them."""
    return sorted([*copied, COMMAND, *[PKG_CONFIG, f"lib/{library.soname()}"] * ("include/vosdrieng.h" in copied)])


def folders(paths):
    """The folders that these paths stand in, the highest first."""
    return sorted({it for path in paths for it in pathlib.PurePath(path).parents}, key=lambda it: len(it.parts))


def listed(top):
    """The paths of the list: a folder ends with a slash. Nothing outside of the prefix is taken from it."""
    lines = (top / LIST).read_text().splitlines()
    if any(line.startswith("/") or ".." in line.split("/") for line in lines):
        raise Refused(f"{top / LIST} names a path outside of {top}, so nothing is removed")
    return lines


def write(top, copied, prefix):
    for place, path in copied.items():
        shutil.copyfile(path, top / place)
        (top / place).chmod(0o755 if os.access(path, os.X_OK) else 0o644)
    (top / COMMAND).symlink_to(f"../{SHARED}/vosdrieng")
    if PKG_CONFIG in places(copied):
        (top / "lib" / library.soname()).symlink_to("libvosdrieng.so")
        (top / PKG_CONFIG).write_text(library.pkg_config(prefix, "${prefix}/include", "${prefix}/lib"))


def install(top, prefix=None):
    """Writes all below a folder, and answers the paths. What is told the files of their prefix is another one where it's named."""
    copied = files()
    paths, old = places(copied), listed(top) if (top / LIST).exists() else []
    taken = [place for place in paths if place not in old and os.path.lexists(top / place)]
    if taken:
        raise Refused(f"{top / taken[0]} is there already, and no list of what was installed has it")
    remove(top, old)
    new = [f"{it}/" for it in folders([*paths, LIST]) if not (top / it).exists()]
    try:
        make_folders(top, new)
        (top / LIST).write_text("".join(f"{it}\n" for it in [*new, *paths]))
        (top / LIST).chmod(0o644)
        write(top, copied, prefix or top)
    except OSError:
        remove(top, [*new, *paths])
        raise
    return paths


def make_folders(top, made):
    for folder in made:
        (top / folder).mkdir(parents=True)
        (top / folder).chmod(0o755)


def remove(top, lines):
    """Removes these files and the list, and these folders where nothing else is in them."""
    for path in [*(line for line in lines if not line.endswith("/")), LIST]:
        if os.path.lexists(top / path):
            (top / path).unlink()
    for folder in reversed([top / line for line in lines if line.endswith("/")]):
        if folder.is_dir() and not any(folder.iterdir()):
            folder.rmdir()


def uninstall(top):
    """Removes what the list has, and answers the paths."""
    if not (top / LIST).exists():
        raise Refused(f"{top / LIST} isn't there, so nothing is known to be installed in {top}")
    lines = listed(top)
    remove(top, lines)
    return [line for line in lines if not line.endswith("/")]


def main(words):
    if not 1 <= len(words) <= 2 or words[0] not in ("install", "uninstall") or words[1:2] == [""] or "-" in [it[:1] for it in words[1:]]:
        print("usage: vosdrieng install [PREFIX]\n       vosdrieng uninstall [PREFIX]", file=sys.stderr)
        return 2
    top = pathlib.Path(words[1] if words[1:] else "/usr/local").absolute()
    does, done = {"install": (install, "written"), "uninstall": (uninstall, "removed")}[words[0]]
    try:
        paths = does(top)
    except Refused as error:
        print(f"vosdrieng: {error}", file=sys.stderr)
        return 70
    except OSError as error:
        print(f"vosdrieng: {error.filename}: {error.strerror}", file=sys.stderr)
        return 70
    print("".join(f"{done} {top / path}\n" for path in paths), end="")
    return 0


if __name__ == "__main__":
    sys.exit(main(sys.argv[1:]))

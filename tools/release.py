#!/usr/bin/env python3
"""Packs what is built for who has no toolchain: an archive, a Debian package, and their SHA-256 sums. Each is tried first.

usage: tools/release.py [FOLDER]

FOLDER is out/release where none is named. Both hold what is installed, stripped, with units for systemd and a file RELEASE that tells
what was packed. RELEASE has the gate's last line where out/gate has it: './check | tail -n 1 > out/gate'. Each is unpacked into an
empty root with the C library and the loader alone: there the first example must give its report, and `serve` before `origin` must serve
curl, which stands outside of that root. A tool that isn't here is named, and what takes it is left out. The same program and commit
give the same files byte for byte.
"""
import contextlib
import hashlib
import os
import pathlib
import platform
import re
import shutil
import socket
import subprocess
import sys
import tarfile
import tempfile
import time

sys.dont_write_bytecode = True
import install
import library
from crates import TOP

PROGRAM = "lib/vosdrieng/vosdrieng"
KEEPER = "lib/vosdrieng/proxy"
SECONDS = 20
TURNS = "1000000"
LOADER = "/lib64/ld-linux-x86-64.so.2"
C_LIBRARIES = ["/lib/x86_64-linux-gnu/libc.so.6", "/lib64/libc.so.6", "/usr/lib/libc.so.6"]
UNIT = """\
[Unit]
Description=An HTTP cache before one origin
Documentation=file:{prefix}/share/doc/vosdrieng/README.md

[Service]
# The addresses stand in ~/.config/vosdrieng/serve, a line each, as ORIGIN=127.0.0.1:8081.
Environment=LISTEN=127.0.0.1:8080
EnvironmentFile=%E/vosdrieng/serve
ExecStart={prefix}/lib/vosdrieng/vosdrieng serve ${{LISTEN}} ${{ORIGIN}} 4611686018427387903
# The record of what the cache stepped.
StandardOutput=null
Restart=on-failure
NoNewPrivileges=yes

[Install]
WantedBy=default.target
"""
KEEPER_UNIT = """\
[Unit]
Description=An HTTP cache that keeps its store
Documentation=file:{prefix}/share/doc/vosdrieng/USING.md

[Service]
# The words stand in ~/.config/vosdrieng/proxy, a line each, as ORIGIN=127.0.0.1:8081, or ORIGIN=any for every host.
Environment=LISTEN=127.0.0.1:8080
EnvironmentFile=%E/vosdrieng/proxy
StateDirectory=vosdrieng
ExecStart={prefix}/bin/vosdrieng proxy ${{LISTEN}} ${{ORIGIN}} %S/vosdrieng
Restart=on-failure
# Wrong words, and a file of the store that is refused, stay as they are.
RestartPreventExitStatus=2 7
NoNewPrivileges=yes

[Install]
WantedBy=default.target
"""
CONTROL = """\
Package: vosdrieng
Version: {version}
Architecture: amd64
Maintainer: The Vosdrieng authors <maintainers@users.noreply.vosdrieng.example>
Depends: {depends}
Recommends: python3
Section: web
Priority: optional
Installed-Size: {size}
Description: private HTTP cache of one user
 Many consumers share one download, broken downloads are resumed, and byte
 ranges are stitched together. It replays schedules of events, serves clients
 over sockets, and draws what a run did.
"""


class Failed(Exception):
    """Why there is no release."""


def say(text):
    print(f"vosdrieng: {text}", file=sys.stderr)


def has(tool, loses):
    """Whether a tool is here; where it isn't, what is lost is told."""
    found = shutil.which(tool) is not None
    if not found:
        say(f"{tool} is not here, so {loses}")
    return found


def said_by(*words):
    """The first line that a tool answers, or none where it isn't here or fails."""
    with contextlib.suppress(OSError, subprocess.CalledProcessError, IndexError):
        return subprocess.run(words, cwd=TOP, capture_output=True, text=True, check=True).stdout.splitlines()[0]
    return None


def gate():
    """The gate's last line about this program. A gate that failed releases nothing."""
    path = TOP / "out" / "gate"
    if not path.exists() or path.stat().st_mtime < install.PROGRAM.stat().st_mtime:
        say("out/gate isn't there, or is older than the program, so RELEASE doesn't tell what the gate said")
        return None
    line = path.read_text().strip()
    if not re.fullmatch(r"\d+ passed, 0 failed", line):
        raise Failed(f"out/gate says {line!r}")
    return line


def commit():
    changed = said_by("git", "status", "--porcelain", "--untracked-files=no")
    found = said_by("git", "rev-parse", "HEAD")
    return f"{found}, and changes to it" if found and changed else found


def facts():
    known = {"version": library.version(), "gate": gate(), "toolchain": said_by("rt", "version"), "commit": commit()}
    return "".join(f"{name}: {fact}\n" for name, fact in known.items() if fact)


def add(path, text):
    path.parent.mkdir(parents=True, exist_ok=True)
    path.write_text(text)
    path.chmod(0o644)


def stripped(top):
    if has("strip", "nothing is stripped"):
        for place in (PROGRAM, KEEPER, "lib/libvosdrieng.so"):
            path = top / place
            if path.exists() and path.read_bytes().startswith(b"\x7fELF"):
                subprocess.run(["strip", "--strip-unneeded", path], check=True)


def sums(top, paths):
    """As `sha256sum -c` reads them."""
    return "".join(f"{hashlib.sha256((top / it).read_bytes()).hexdigest()}  {it}\n" for it in sorted(paths))


def stage(top, prefix, of_library, told):
    """What a release holds, below a folder."""
    install.install(top, of_library)
    (top / install.LIST).unlink()
    stripped(top)
    units = top / "lib" / "systemd" / "user"
    add(units / "vosdrieng.service", UNIT.format(prefix=prefix))
    if (top / KEEPER).exists():
        add(units / "vosdrieng-proxy.service", KEEPER_UNIT.format(prefix=prefix))
    add(top / install.TOLD / "RELEASE", told)
    paths = [str(path.relative_to(top)) for path in top.rglob("*") if path.is_file() and not path.is_symlink()]
    add(top / install.TOLD / "SHA256SUMS", sums(top, paths))
    for folder in (it for it in top.rglob("*") if it.is_dir()):
        folder.chmod(0o755)


def archive(room, name, moment):
    """The archive of a folder, without what differs from machine to machine."""
    path = room / f"{name}.tar.xz"

    def plain(entry):
        entry.uid = entry.gid = 0
        entry.uname = entry.gname = ""
        entry.mtime = moment
        return entry

    with tarfile.open(path, "w:xz", format=tarfile.GNU_FORMAT) as written:
        for entry in sorted([room / name, *(room / name).rglob("*")]):
            written.add(entry, str(entry.relative_to(room)), recursive=False, filter=plain)
    return path


def depends(top):
    """The C library of the newest symbols that the program and the library take."""
    texts = [path.read_bytes() for path in (top / PROGRAM, top / KEEPER, top / "lib" / "libvosdrieng.so") if path.exists()]
    found = [tuple(map(int, it)) for text in texts for it in re.findall(rb"GLIBC_(\d+)\.(\d+)", text)]
    return "libc6 (>= {}.{})".format(*max(found)) if found else "libc6"


def package(room, told, moment):
    """The Debian package, or none where the tool isn't here."""
    if not has("dpkg-deb", "there is no Debian package"):
        return None
    top = room / "debian"
    stage(top / "usr", "/usr", "/usr", told)
    shutil.copyfile(TOP / "LICENSE", top / "usr" / install.TOLD / "copyright")
    size = sum(path.lstat().st_size for path in top.rglob("*") if path.is_file()) // 1024
    add(top / "DEBIAN" / "control", CONTROL.format(version=library.version(), depends=depends(top / "usr"), size=size))
    path = room / f"vosdrieng_{library.version()}_amd64.deb"
    environment = {**os.environ, "SOURCE_DATE_EPOCH": str(moment)}
    subprocess.run(["dpkg-deb", "--root-owner-group", "-Zxz", "--build", top, path], check=True, env=environment, stdout=subprocess.DEVNULL)
    return path


# The try


def rooted():
    """The words before a command that is to run in a root of its own, or none."""
    if os.geteuid() == 0 and shutil.which("chroot"):
        return lambda root: ["chroot", root]
    if shutil.which("unshare") and subprocess.run(["unshare", "--map-root-user", "true"], stderr=subprocess.DEVNULL).returncode == 0:
        return lambda root: ["unshare", "--map-root-user", f"--root={root}"]
    return None


def lacks_of_root(program):
    """Why there is no empty root to try in, or nothing."""
    if not program.read_bytes().startswith(b"\x7fELF"):
        return "the program is a script"
    if not os.path.exists(LOADER) or not any(map(os.path.exists, C_LIBRARIES)):
        return "no C library is where it is looked for"
    return None if rooted() else "neither chroot nor unshare may make a root"


def furnish(root):
    """The C library and the loader."""
    for path in [LOADER, next(filter(os.path.exists, C_LIBRARIES))]:
        place = root / path[1:]
        place.parent.mkdir(parents=True, exist_ok=True)
        shutil.copy(path, place)


def free_address():
    with socket.socket() as it:
        it.bind(("127.0.0.1", 0))
        return f"127.0.0.1:{it.getsockname()[1]}"


def wait_for(address):
    host, port = address.split(":")
    end = time.monotonic() + SECONDS
    while time.monotonic() < end:
        with contextlib.suppress(OSError), socket.create_connection((host, int(port)), 1):
            return
        time.sleep(0.05)
    raise Failed(f"nobody listens at {address}")


def replays(command):
    with (TOP / "examples" / "first.schedule").open("rb") as schedule:
        ran = subprocess.run([*command, "replay"], stdin=schedule, capture_output=True, timeout=SECONDS)
    if ran.returncode or ran.stdout != (TOP / "examples" / "first.report").read_bytes():
        raise Failed(f"in an empty root the first example ends with {ran.returncode} and another report: {ran.stderr!r}")


def curl(address, *words):
    words = ["curl", "-sS", "--noproxy", "*", "-m", str(SECONDS), *words, f"http://{address}/d/6"]
    ran = subprocess.run(words, capture_output=True)
    if ran.returncode:
        raise Failed(f"curl ends with {ran.returncode}: {ran.stderr!r}")
    return ran.stdout


def serves(command):
    """A body of the origin, as it is asked itself and by the proxy, and a part of it."""
    origin, proxy = free_address(), free_address()
    streams = {"stdin": subprocess.DEVNULL, "stdout": subprocess.DEVNULL}
    with contextlib.ExitStack() as stack:
        for address, words in ((origin, ["origin", origin]), (proxy, ["serve", proxy, origin])):
            running = stack.enter_context(subprocess.Popen([*command, *words, TURNS], **streams))
            stack.callback(running.kill)
            wait_for(address)
        due = curl(origin)
        if not due or curl(proxy) != due or curl(proxy, "-r", "2-3") != due[2:4]:
            raise Failed("in an empty root the proxy serves another body than its origin")


def try_release(path, unpack, program):
    """Runs what is unpacked in an empty root."""
    with tempfile.TemporaryDirectory() as root:
        root = pathlib.Path(root)
        unpack(path, root)
        lack = lacks_of_root(root / program)
        if lack:
            say(f"{lack}, so {path.name} isn't tried")
            return
        furnish(root)
        command = [*rooted()(str(root)), f"/{program}"]
        replays(command)
        if has("curl", "serve isn't tried"):
            serves(command)
        say(f"{path.name} runs in an empty root")


def unpack_archive(path, root):
    with tarfile.open(path) as read:
        # Pythons differ in whether they have it, and in whether they take it where none is named.
        read.extraction_filter = getattr(tarfile, "data_filter", lambda entry, root: entry)
        read.extractall(root)


def unpack_package(path, root):
    subprocess.run(["dpkg-deb", "-x", path, root], check=True)


def release(folder):
    moment, told = int(said_by("git", "log", "-1", "--format=%ct") or 0), facts()
    name = f"vosdrieng-{library.version()}-x86_64-linux"
    with tempfile.TemporaryDirectory() as room:
        room = pathlib.Path(room)
        stage(room / name, "/usr/local", "${pcfiledir}/../..", told)
        made = [archive(room, name, moment)]
        try_release(made[0], unpack_archive, f"{name}/{PROGRAM}")
        debian = package(room, told, moment)
        if debian:
            try_release(debian, unpack_package, f"usr/{PROGRAM}")
            made.append(debian)
        folder.mkdir(parents=True, exist_ok=True)
        for path in made:
            shutil.copyfile(path, folder / path.name)
    (folder / "SHA256SUMS").write_text(sums(folder, [path.name for path in made]))
    return [*(path.name for path in made), "SHA256SUMS"]


def main(words):
    if len(words) > 1 or words[:1] == [""] or words and words[0].startswith("-"):
        print("usage: vosdrieng release [FOLDER]", file=sys.stderr)
        return 2
    if (platform.system(), platform.machine()) != ("Linux", "x86_64"):
        say("a release is for Linux on x86-64, and made there")
        return 70
    folder = pathlib.Path(words[0] if words else TOP / "out" / "release").absolute()
    try:
        made = release(folder)
    except (Failed, install.Refused, subprocess.SubprocessError, tarfile.TarError) as error:
        say(error)
        return 70
    except OSError as error:
        say(f"{error.filename}: {error.strerror}")
        return 70
    print("".join(f"written {folder / name}\n" for name in made), end="")
    return 0


if __name__ == "__main__":
    sys.exit(main(sys.argv[1:]))

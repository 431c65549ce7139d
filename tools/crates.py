"""The crates of the repository, as `crates.txt` lists them, lowest first."""
import pathlib

TOP = pathlib.Path(__file__).resolve().parent.parent
CRATES = TOP / "crates"


def crate_lines():
    """Each crate, and the crates and libraries that it stands on."""
    lines = [line.split("#")[0].strip() for line in (TOP / "crates.txt").read_text().splitlines()]
    pairs = [line.split(":", 1) for line in lines if line]
    return {left.split()[0]: right.split() for left, right in pairs}


def below(crates):
    """These crates and all crates of the repository that they stand on, lowest first."""
    lines, wanted = crate_lines(), list(crates)
    for crate in wanted:
        wanted += [it for it in lines[crate] if it in lines and it not in wanted]
    return [crate for crate in lines if crate in wanted]

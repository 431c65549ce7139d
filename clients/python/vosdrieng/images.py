"""Images of what a store has, and their parts. docs/FORMATS.md has the format."""
from __future__ import annotations

from dataclasses import dataclass, field
from typing import Sequence

from .errors import BadImage

Lines = list[tuple[str, str]]
UNKNOWN = "-" * 20


@dataclass(slots=True)
class Stored:
    """One stored representation.

    `kind` is `G` growing, `W` whole, `T` truncated or `R` ranges. `total` is its length, None where that isn't known. `vary` are the
    fields of the request that its Vary names, `fields` those of its head. `runs` are its bytes: where they begin, and what they are.
    """

    key: str
    kind: str
    total: int | None
    status: int
    requested: int
    answered: int
    fields: Lines
    vary: Lines = field(default_factory=list)
    tag: str = "-"
    runs: list[tuple[int, bytes]] = field(default_factory=list)

    def front(self) -> bytes:
        """The bytes from 0 on, up to the first hole."""
        parts, end = [], 0
        for at, data in self.runs:
            if at != end:
                break
            parts.append(data)
            end += len(data)
        return parts[0] if len(parts) == 1 else b"".join(parts)

    @property
    def size(self) -> int:
        return sum(len(data) for _, data in self.runs)


class _Reader:
    """Reads an image from its first byte on."""

    def __init__(self, image: bytes) -> None:
        self.image, self.at = image, 0

    def line(self) -> str:
        end = self.image.index(b"\n", self.at)
        line, self.at = self.image[self.at:end].decode("latin-1"), end + 1
        return line

    def words(self, count: int, first: str = "") -> list[str]:
        words = self.line().split(" ")
        if len(words) != count or first and words[0] != first:
            raise ValueError(f"{words} is no line of an image here")
        return words

    def fields(self, count: str) -> Lines:
        pairs = [self.line().partition(": ") for _ in range(int(count))]
        return [(name, value) for name, _, value in pairs]

    def run(self) -> tuple[int, bytes]:
        _, _, at, count = self.words(4, "run")
        end = self.at + int(count)
        data, self.at = self.image[self.at:end], end + 1
        if len(data) != int(count) or self.image[end:self.at] != b"\n":
            raise ValueError("a run is cut short")
        return int(at), data

    def item(self) -> Stored:
        _, key, _, runs = self.words(4, "item")
        version = self.line()
        kind, total = self.words(2)
        status, requested, answered, vary, fields = self.words(5)
        tag = self.line().removeprefix("tag ") if version == "record 2" else "-"
        stored = Stored(key, kind, None if total == UNKNOWN else int(total), int(status), int(requested), int(answered), [])
        stored.tag, stored.vary, stored.fields = tag, self.fields(vary), self.fields(fields)
        stored.runs = [self.run() for _ in range(int(runs))]
        return stored


def read_image(image: bytes) -> list[Stored]:
    """What the image has. Raises BadImage where it is none."""
    reader = _Reader(image)
    try:
        reader.words(2, "image")
        _, _, _, count = reader.words(4)
        items = [reader.item() for _ in range(int(count))]
    except ValueError as fault:
        raise BadImage(str(fault)) from fault
    if reader.at != len(image):
        raise BadImage("more stands behind the image")
    return items


def write_image(now: int, items: Sequence[Stored]) -> bytes:
    """The image of a store that has these items. Each run is given an exchange of its own."""
    number, parts = 1, []
    for item in items:
        parts += _item_parts(item, number)
        number += max(1, len(item.runs))
    return b"".join([f"image 1\n{now} 0 {number} {len(items)}\n".encode(), *parts])


def _item_parts(item: Stored, number: int) -> list[bytes]:
    parts = [_item_head(item, number)]
    for place, (at, data) in enumerate(item.runs):
        parts += [f"run {number + place} {at} {len(data)}\n".encode(), data, b"\n"]
    return parts


def _item_head(item: Stored, number: int) -> bytes:
    total = UNKNOWN if item.total is None else f"{item.total:020}"
    lines = [
        f"item {item.key} {number} {len(item.runs)}",
        "record 2",
        f"{item.kind} {total}",
        f"{item.status} {item.requested} {item.answered} {len(item.vary)} {len(item.fields)}",
        f"tag {item.tag}",
        *(f"{name}: {value}" for name, value in [*item.vary, *item.fields]),
    ]
    return ("\n".join(lines) + "\n").encode("latin-1")

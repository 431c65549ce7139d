"""What the program is tried on."""
from dataclasses import dataclass


@dataclass(frozen=True)
class Case:
    """Words of the program and its input, with how many events that has."""

    words: tuple[str, ...]
    items: tuple[bytes, ...]
    events: int

    @property
    def text(self) -> bytes:
        return b"".join(self.items)

"""Lines of a stream with their numbers, and the words of a line (docs/FORMATS.md)."""
import re

LONGEST = 140_000
MOST = 2**62 - 1
LONGEST_VALUE = 8192
MOST_FIELD_BYTES = 32_768  # of an event; what is told of an exchange or a consumer may have some more
SHOWN_BYTES = 24  # of longer bodies so many bytes are kept, to be looked at
SHOWN_TEXT = 300  # and of longer lines, values and targets so many

NUMBER = re.compile(rb"(?:0|[1-9][0-9]{0,18})\Z")
FIELD = re.compile(rb"([!#$%&'*+.^_`|~0-9a-z-]+): ([^\x00-\x08\x0a-\x1f\x7f]*)\Z")
TARGET = re.compile(rb"https?://[\x21\x22\x24-\x7e]+\Z")
METHOD = re.compile(rb"[!#$%&'*+.^_`|~0-9A-Za-z-]{1,15}\Z")
DIGITS = b"0123456789abcdef"


class Unreadable(Exception):
    """A line that can't stand where it is: of which text, its number, and why."""

    def __init__(self, name, number, why):
        super().__init__(f"{name}: line {number}: {why}")
        self.name, self.number, self.why = name, number, why


class Lines:
    """The lines of a stream, one after another, none of them kept."""

    def __init__(self, stream, name):
        self.stream, self.name, self.number = stream, name, 0
        self.is_cut = False  # the last line has no line feed

    def next(self):
        """The next line without its line feed, or None where no whole one is left."""
        line = self.stream.readline(LONGEST + 2)
        if not line:
            return None
        self.number += 1
        if line.endswith(b"\n"):
            return line[:-1]
        if len(line) > LONGEST:
            raise self.refused(f"more than {LONGEST:,} bytes came without a line feed")
        self.is_cut = True
        return None

    def refused(self, why, number=None):
        return Unreadable(self.name, number or self.number, why)


def shown(raw):
    """Bytes as text to be looked at: cut where it is long, and what can't be seen is written as an escape."""
    text = raw[:SHOWN_TEXT].decode("utf-8", "backslashreplace")
    if not text.isprintable():
        text = "".join(it if it.isprintable() else it.encode("unicode_escape").decode() for it in text)
    return text if len(raw) <= SHOWN_TEXT else f"{text}… ({len(raw):,} bytes)"


def number(word, least=0, most=MOST):
    """The number that a word spells, between these."""
    if not NUMBER.match(word) or not least <= int(word) <= most:
        raise ValueError(f"'{shown(word[:40])}' is no plain number from {least} to {'2^62 - 1' if most == MOST else most}")
    return int(word)


def one_of(word, known):
    if word not in known:
        raise ValueError(f"'{shown(word[:40])}' is none of {', '.join(map(shown, known))}")
    return shown(word)


def count_of_bytes(word, most):
    """How many bytes a word of hexadecimal digits has."""
    size = len(word) // 2
    if len(word) % 2 or not word or word.translate(None, DIGITS) or size > most:
        raise ValueError(f"its bytes are not 1 to {most:,} in lower-case hexadecimal")
    return size


def target(word):
    """A target as far as it is looked at: its scheme, its characters and its length."""
    if len(word) > 8192 or not TARGET.match(word):
        raise ValueError(f"'{shown(word[:60])}' is no target")
    return word


def method(word):
    if not METHOD.match(word) or word == b"CONNECT":
        raise ValueError(f"'{shown(word[:40])}' is no method")
    return shown(word)


def words_of(line, count):
    """The words of a line that has so many."""
    words = line.split(b" ")
    if len(words) != count:
        raise ValueError(f"'{shown(words[0][:40])}' has {len(words) - 1} words behind it, and {count - 1} are due")
    return words


def with_short_bytes(line):
    """The line as text, its last word, which is bytes, cut where they are many."""
    before, _, digits = line.rpartition(b" ")
    if len(digits) <= 2 * SHOWN_BYTES:
        return shown(line)
    return f"{shown(before)} {shown(digits[: 2 * SHOWN_BYTES])}… ({len(digits) // 2} bytes)"


def read_fields(lines, count, most=MOST_FIELD_BYTES):
    """So many field lines, as pairs of bytes; None where the text ends before."""
    fields, size = [], 0
    for _ in range(count):
        line = lines.next()
        if line is None:
            return None
        found = FIELD.match(line)
        if not found or len(found[2]) > LONGEST_VALUE or found[2].strip(b" \t") != found[2]:
            raise lines.refused("a field line is due: a name in lower case, a colon, a space, a value")
        if fields and found[1] < fields[-1][0]:
            raise lines.refused("the names of field lines fall")
        size += len(found[1]) + len(found[2])
        if size > most:
            raise lines.refused(f"names and values have more than {most:,} bytes")
        fields.append((found[1], found[2]))
    return tuple(fields)


def text_of_fields(fields):
    return "".join(f"\n  {shown(name)}: {shown(value)}" for name, value in fields)

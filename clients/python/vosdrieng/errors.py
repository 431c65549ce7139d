"""What can go wrong, as exceptions."""


class CacheError(Exception):
    """The root of all errors of this package."""


class Refused(CacheError, ValueError):
    """An event that can't be said to a cache: a bad target, field, number or moment. Nothing has changed."""


class BadText(CacheError, ValueError):
    """A line of a schedule is refused. What stands before it was answered: `report` is the report of the last piece up to there."""

    def __init__(self, line: int, why: str, report: bytes) -> None:
        super().__init__(f"line {line}: {why}")
        self.line, self.why, self.report = line, why, report


class Gone(CacheError):
    """The cache answers nothing any more: its process ended, its memory ran out, or it was closed."""


class BadImage(CacheError, ValueError):
    """The bytes are no image, or none with which a cache may begin."""


class DownloadFailed(CacheError):
    """A download failed. `cause` is the word of the report: `net:X`, `short:X:GOT/PROMISED`, `miss` and so on."""

    def __init__(self, cause: str) -> None:
        super().__init__(cause)
        self.cause = cause


class Changed(DownloadFailed):
    """What is at the origin changed behind the bytes that were given already, so that the rest can't be had."""

    def __init__(self) -> None:
        super().__init__("changed")

"""The statuses of answers that may be stored."""


def brings_whole(status: int) -> bool:
    """RFC 9110 section 15.3.1."""
    return status == 200


def brings_part(status: int) -> bool:
    """RFC 9110 section 15.3.7."""
    return status == 206

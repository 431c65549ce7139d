"""What a request asks of the cache (RFC 9111 sections 5.2.1 and 5.4, RFC 9110 sections 13.1 and 14.2)."""
from dataclasses import dataclass

import cache_control
from fields import has, values
from messages import Load, Request
from ranges import ByteRange, range_of

CONDITIONS = (b"if-match", b"if-unmodified-since", b"if-range", b"if-none-match", b"if-modified-since")
SAFE_METHODS = (b"GET", b"HEAD", b"OPTIONS", b"TRACE")  # RFC 9110 section 9.2.1


@dataclass(frozen=True)
class Wish:
    """What a request asks of the cache."""

    is_disabled: bool
    is_only: bool
    is_bypassing: bool
    range: ByteRange | None


def wish_of(request: Request) -> Wish:
    asked, told = cache_control.of_request(request.fields), values(request.fields, b"range")
    wanted = range_of(told[0]) if len(told) == 1 else None
    is_disabled = (
        request.method != b"GET"
        or request.load is Load.DISABLE
        or asked.no_store
        or bool(told) and wanted is None
        or any(has(request.fields, name) for name in CONDITIONS)
    )
    return Wish(
        is_disabled,
        request.load is Load.ONLY or asked.only_if_cached,
        request.load is Load.BYPASS or asked.no_cache,
        None if is_disabled else wanted,
    )


def is_unsafe(method: bytes) -> bool:
    return method not in SAFE_METHODS

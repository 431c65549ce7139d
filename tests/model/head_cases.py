"""What a head is to its exchange and to what is stored (RFC 9111 sections 3, 3.3, 3.4 and 4.3; RFC 9110 section 15.3.7.3)."""
from enum import Enum, auto

import cache_control
from etags import are_strongly_equal, one_strong_etag
from fields import Fields
from lengths import Length
from ranges import resolved
from statuses import brings_part, brings_whole
from tables import Consumer, Exchange, Purpose, Representation
from validation import selects


class HeadCase(Enum):
    PAST_BAD = auto()
    PAST_TAKEN = auto()
    TURN_BAD = auto()
    VALIDATED = auto()
    NOT_VALIDATED = auto()
    TURN_SERVER_ERROR = auto()
    FOUNDS_WHOLE = auto()
    FOUNDS_RANGE = auto()
    PASSES_BY = auto()
    FIRST_BAD = auto()
    FIRST_JOINS = auto()
    FIRST_SERVER_ERROR = auto()
    FIRST_CHANGED = auto()
    FIRST_REPLACED = auto()
    FIRST_PASSES_BY = auto()
    LATER_BAD = auto()
    LATER_JOINS = auto()
    LATER_CHANGED = auto()


def is_server_error(status: int) -> bool:
    return 500 <= status <= 599


def is_storable(exchange: Exchange, status: int, fields: Fields) -> bool:
    """RFC 9111 section 3."""
    return (
        exchange.request.method == b"GET"
        and (brings_whole(status) or brings_part(status))
        and not cache_control.of_request(exchange.request.fields).no_store
        and not cache_control.of_response(fields).no_store
    )


def _is_fit_to_found(consumer: Consumer, fields: Fields, length: Length) -> bool:
    """Whether a part begins where the wanted range does and goes not further."""
    if consumer.wish.range is None or length.total is None or one_strong_etag(fields) is None:
        return False
    wanted = resolved(consumer.wish.range, length.total)
    return wanted is not None and length.base == wanted[0] and length.base + length.promise <= wanted[1]


def joins(exchange: Exchange, stored: Representation, status: int, fields: Fields, length: Length) -> bool:
    """Whether a part belongs to the same body, and fills the hole from its front on."""
    return (
        brings_part(status)
        and are_strongly_equal(one_strong_etag(fields), stored.head.tag)
        and length.total is not None
        and length.total == stored.total
        and length.base == exchange.hole[0]
        and length.base + length.promise <= exchange.hole[1]
        and not cache_control.of_response(fields).no_store
    )


def _turn_case(consumer: Consumer, exchange: Exchange, current: Representation | None, status: int, fields: Fields, length: Length) -> HeadCase:
    if status == 304 and exchange.is_conditional:
        is_about = current is not None and current.number == exchange.aim and not current.is_lost
        return HeadCase.VALIDATED if is_about and selects(current.head, fields) else HeadCase.NOT_VALIDATED
    if is_server_error(status):
        return HeadCase.TURN_SERVER_ERROR
    if is_storable(exchange, status, fields):
        if brings_whole(status):
            return HeadCase.FOUNDS_WHOLE
        if _is_fit_to_found(consumer, fields, length):
            return HeadCase.FOUNDS_RANGE
    return HeadCase.PASSES_BY


def _first_case(exchange: Exchange, stored: Representation, status: int, fields: Fields, length: Length) -> HeadCase:
    if joins(exchange, stored, status, fields, length):
        return HeadCase.FIRST_JOINS
    if is_server_error(status):
        return HeadCase.FIRST_SERVER_ERROR
    if brings_part(status) or status in (304, 416):
        return HeadCase.FIRST_CHANGED
    return HeadCase.FIRST_REPLACED if is_storable(exchange, status, fields) else HeadCase.FIRST_PASSES_BY


def head_case(
    consumer: Consumer, exchange: Exchange, current: Representation | None, stored: Representation | None,
    status: int, fields: Fields, length: Length | None,
) -> HeadCase:
    """Of a head whose length is this, None where it is bad; `stored` is what the hole is of."""
    if exchange.purpose is Purpose.PAST:
        return HeadCase.PAST_BAD if length is None else HeadCase.PAST_TAKEN
    if exchange.purpose is Purpose.TURN:
        return HeadCase.TURN_BAD if length is None else _turn_case(consumer, exchange, current, status, fields, length)
    if consumer.is_shown:
        if length is None:
            return HeadCase.LATER_BAD
        return HeadCase.LATER_JOINS if joins(exchange, stored, status, fields, length) else HeadCase.LATER_CHANGED
    return HeadCase.FIRST_BAD if length is None else _first_case(exchange, stored, status, fields, length)

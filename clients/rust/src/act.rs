//! What is to be done.
use crate::fields::Fields;
use crate::raw::Numbers;
use core::iter::FusedIterator;
use core::ops::Range;
use core::slice::Iter;

/// Why an exchange is opened.
#[derive(Clone, Debug, PartialEq, Eq)]
pub enum Need {
    /// The request is none that the cache serves.
    Disabled,
    /// The consumer waited for 20 seconds.
    TimedOut,
    /// The request goes past what is stored. Its answer may be stored.
    Bypass,
    /// Nothing is stored.
    Miss,
    /// What is stored answers other request fields.
    Vary,
    /// What is stored is to be validated.
    Validate,
    /// These bytes are not stored.
    Hole(Range<u64>),
    /// The range asked for is past the end of what is stored.
    Unsatisfied,
}

/// Why a head may be shown. Ages and lifetimes are in seconds.
#[derive(Clone, Copy, Debug, PartialEq, Eq)]
#[allow(missing_docs)]
pub enum Why {
    /// The exchange brought it for the consumer.
    Fetched { exchange: u64 },
    /// It is fresh.
    Fresh { age: u64, lifetime: u64 },
    /// It is stale, which the request accepts.
    Stale { age: u64, lifetime: u64 },
    /// The exchange validated or joined it.
    Validated { exchange: u64 },
}

/// Why a consumer fails.
#[derive(Clone, Copy, Debug, PartialEq, Eq)]
#[allow(missing_docs)]
pub enum Cause {
    /// The exchange broke.
    Net { exchange: u64 },
    /// The exchange ended with `got` bytes of those that it promised.
    Short { exchange: u64, got: u64, promised: u64 },
    /// The exchange brought another representation.
    Changed { exchange: u64 },
    /// A write of the representation failed.
    StoreWrite { representation: u64 },
    /// A read of the representation failed.
    StoreRead { representation: u64 },
    /// The request is for what is stored alone, and nothing is.
    Miss,
    /// The head of the exchange declares no usable length.
    BadHead { exchange: u64 },
}

/// What a consumer waits for.
#[derive(Clone, Copy, Debug, PartialEq, Eq)]
#[allow(missing_docs)]
pub enum Wait {
    /// The turn of another consumer.
    Turn { consumer: u64 },
    /// A consumer that uses what is stored.
    Busy { consumer: u64 },
    /// The head of the exchange.
    Head { exchange: u64 },
    /// The next bytes of the exchange.
    Body { exchange: u64 },
}

/// Why a representation is lost.
#[derive(Clone, Copy, Debug, PartialEq, Eq)]
pub enum Loss {
    /// The store failed.
    Fault,
    /// It has more bytes than one may have.
    TooLarge,
    /// All together weigh more than they may.
    Full,
}

/// Why an event is denied: the first that applies.
#[derive(Clone, Copy, Debug, PartialEq, Eq)]
#[allow(missing_docs)]
pub enum Denial {
    /// The number of a start isn't above that of the last accepted one.
    NotRising {
        last: u64,
    },
    /// 1,024 consumers are live.
    TooMany,
    NoConsumer,
    /// The consumer isn't live any more, or was passed over.
    Finished,
    WantZero,
    NoExchange,
    HeadTwice,
    NoHeadYet,
    NotAsked,
    EmptyPiece,
    /// The piece would pass the bytes that its exchange promised.
    Overlong {
        promised: u64,
    },
}

/// What is to be done. Positions are counted from 0.
#[derive(Clone, Debug, PartialEq, Eq)]
#[allow(missing_docs)]
pub enum Act<'a> {
    /// Open an exchange for the consumer: send this request to the origin.
    Open { exchange: u64, consumer: u64, need: Need, method: &'a [u8], target: &'a [u8], fields: Fields<'a> },
    /// Bring the next piece of the exchange, or its end or fault.
    Ask { exchange: u64 },
    /// Drop the exchange: its events will be denied.
    Close { exchange: u64 },
    /// The consumer is shown this head, and then given the bytes from `from` on, up to `to` where that
    /// is known.
    Shown {
        consumer: u64,
        representation: u64,
        why: Why,
        status: u16,
        fields: Fields<'a>,
        from: u64,
        to: Option<u64>,
    },
    /// The consumer is given bytes, which the exchange brought.
    Data { consumer: u64, exchange: u64, position: u64, bytes: &'a [u8] },
    /// The consumer has all of its bytes.
    Ended { consumer: u64 },
    /// The consumer fails.
    Failed { consumer: u64, cause: Cause },
    /// The consumer is to poll again when what it waits for came.
    Pending { consumer: u64, wait: Wait },
    /// The representation is lost.
    Lost { representation: u64, loss: Loss },
    /// The representation made room for another.
    Evicted { representation: u64 },
    /// The event is denied.
    Denied { why: Denial },
    /// An act that this crate doesn't know, by its kind and detail.
    Unknown { kind: u32, detail: u32 },
}

fn need_of(n: &Numbers) -> Option<Need> {
    Some(match n.detail {
        1 => Need::Disabled,
        2 => Need::TimedOut,
        3 => Need::Bypass,
        4 => Need::Miss,
        5 => Need::Vary,
        6 => Need::Validate,
        7 => Need::Hole(n.first..n.second),
        8 => Need::Unsatisfied,
        _ => return None,
    })
}

fn why_of(n: &Numbers) -> Option<Why> {
    let (age, lifetime) = (n.first, n.second);
    Some(match n.detail {
        1 => Why::Fetched { exchange: n.exchange },
        2 => Why::Fresh { age, lifetime },
        3 => Why::Stale { age, lifetime },
        4 => Why::Validated { exchange: n.exchange },
        _ => return None,
    })
}

fn cause_of(n: &Numbers) -> Option<Cause> {
    let (exchange, representation) = (n.exchange, n.representation);
    Some(match n.detail {
        1 => Cause::Net { exchange },
        2 => Cause::Short { exchange, got: n.first, promised: n.second },
        3 => Cause::Changed { exchange },
        4 => Cause::StoreWrite { representation },
        5 => Cause::StoreRead { representation },
        6 => Cause::Miss,
        7 => Cause::BadHead { exchange },
        _ => return None,
    })
}

fn wait_of(n: &Numbers) -> Option<Wait> {
    Some(match n.detail {
        1 => Wait::Turn { consumer: n.first },
        2 => Wait::Busy { consumer: n.first },
        3 => Wait::Head { exchange: n.exchange },
        4 => Wait::Body { exchange: n.exchange },
        _ => return None,
    })
}

fn loss_of(n: &Numbers) -> Option<Loss> {
    Some(match n.detail {
        1 => Loss::Fault,
        2 => Loss::TooLarge,
        3 => Loss::Full,
        _ => return None,
    })
}

fn denial_of(n: &Numbers) -> Option<Denial> {
    Some(match n.detail {
        1 => Denial::NotRising { last: n.first },
        2 => Denial::TooMany,
        3 => Denial::NoConsumer,
        4 => Denial::Finished,
        5 => Denial::WantZero,
        6 => Denial::NoExchange,
        7 => Denial::HeadTwice,
        8 => Denial::NoHeadYet,
        9 => Denial::NotAsked,
        10 => Denial::EmptyPiece,
        11 => Denial::Overlong { promised: n.first },
        _ => return None,
    })
}

fn opened<'a>(n: &Numbers, bytes: &'a [u8]) -> Option<Act<'a>> {
    let (method, rest) = bytes.split_at_checked(n.method_length as usize)?;
    let (target, lines) = rest.split_at_checked(n.target_length as usize)?;
    Some(Act::Open {
        exchange: n.exchange,
        consumer: n.consumer,
        need: need_of(n)?,
        method,
        target,
        fields: Fields::of(lines),
    })
}

fn known<'a>(n: &Numbers, bytes: &'a [u8]) -> Option<Act<'a>> {
    let (consumer, exchange, representation) = (n.consumer, n.exchange, n.representation);
    Some(match n.kind {
        1 => return opened(n, bytes),
        2 => Act::Ask { exchange },
        3 => Act::Close { exchange },
        4 => Act::Shown {
            consumer,
            representation,
            why: why_of(n)?,
            status: n.status as u16,
            fields: Fields::of(bytes),
            from: n.position,
            to: (n.has_end == 1).then_some(n.end),
        },
        5 => Act::Data { consumer, exchange, position: n.position, bytes },
        6 => Act::Ended { consumer },
        7 => Act::Failed { consumer, cause: cause_of(n)? },
        8 => Act::Pending { consumer, wait: wait_of(n)? },
        9 => Act::Lost { representation, loss: loss_of(n)? },
        10 => Act::Evicted { representation },
        11 => Act::Denied { why: denial_of(n)? },
        _ => return None,
    })
}

/// An act in numbers, and where its bytes end behind those of the acts before it.
pub(crate) struct Told {
    pub numbers: Numbers,
    pub end: usize,
}

/// The acts of an event, in order. It borrows from the cache: the next event may come when it is done
/// with.
#[derive(Clone)]
pub struct Acts<'a> {
    told: Iter<'a, Told>,
    bytes: &'a [u8],
    at: usize,
}

impl<'a> Acts<'a> {
    pub(crate) fn of(told: &'a [Told], bytes: &'a [u8]) -> Acts<'a> {
        Acts { told: told.iter(), bytes, at: 0 }
    }
}

impl<'a> Iterator for Acts<'a> {
    type Item = Act<'a>;

    fn next(&mut self) -> Option<Act<'a>> {
        let Told { numbers, end } = self.told.next()?;
        let bytes = &self.bytes[self.at..*end];
        self.at = *end;
        let unknown = Act::Unknown { kind: numbers.kind, detail: numbers.detail };
        Some(known(numbers, bytes).unwrap_or(unknown))
    }

    fn size_hint(&self) -> (usize, Option<usize>) {
        self.told.size_hint()
    }
}

impl ExactSizeIterator for Acts<'_> {}
impl FusedIterator for Acts<'_> {}

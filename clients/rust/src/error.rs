//! Why a call is refused.
use core::fmt;

/// Why a line of a schedule is refused.
#[derive(Clone, Copy, Debug, PartialEq, Eq)]
#[non_exhaustive]
pub enum LineError {
    /// It is off the grammar.
    Bad,
    /// It has more than 140,000 bytes.
    TooLong,
    /// Its target is none.
    BadTarget,
    /// Its moment is below the one that was set before.
    MomentBack,
    /// The text ends within it, or before it where it is a field line.
    CutShort,
    /// A reason that this crate doesn't know.
    Unknown(u32),
}

impl LineError {
    fn told(why: u32) -> LineError {
        match why {
            1 => LineError::Bad,
            2 => LineError::TooLong,
            3 => LineError::BadTarget,
            4 => LineError::MomentBack,
            5 => LineError::CutShort,
            other => LineError::Unknown(other),
        }
    }
}

impl fmt::Display for LineError {
    fn fmt(&self, f: &mut fmt::Formatter<'_>) -> fmt::Result {
        let why = match self {
            LineError::Bad => "it is off the grammar",
            LineError::TooLong => "it has more than 140,000 bytes",
            LineError::BadTarget => "its target is none",
            LineError::MomentBack => "its moment is below the one before",
            LineError::CutShort => "the text ends too early",
            LineError::Unknown(why) => return write!(f, "an unknown reason, {why}"),
        };
        f.write_str(why)
    }
}

/// Why a call is refused. Of several causes but [`Error::NoMemory`] the earliest here is told. After
/// any other one than that and [`Error::BadText`] nothing has changed.
#[derive(Clone, Copy, Debug, PartialEq, Eq)]
#[non_exhaustive]
pub enum Error {
    /// The library that is linked has this version, and not that of this crate.
    OtherVersion(u32),
    /// The handle has no cache. A [`crate::Cache`] always has one.
    NoHandle,
    /// Memory was refused. Where an event was answered so, each later one is answered so too.
    NoMemory,
    /// The cache has taken 2^59 events, or 2^60 bytes of pieces or of a text.
    Exhausted,
    /// The moment is before that of the last event, or is 2^62 or later.
    BadMoment,
    /// A number or a length is outside of its limits.
    Limit,
    /// The method is no token of 1 to 15 bytes, or is CONNECT.
    BadMethod,
    /// The target is no http or https URL as the URL Standard spells it, or has a fragment.
    BadTarget,
    /// The bytes are no lines of fields, or of too many or too large ones.
    BadFields,
    /// Consumers are live.
    Live,
    /// The bytes are no image, or have more behind it.
    BadImage,
    /// No cache may begin with what the image has.
    BadContent,
    /// What the image has weighs more than the store may hold.
    Full,
    /// A text comes behind an event of another call.
    Late,
    /// A line of the text is refused. What stands before it was answered.
    BadText {
        /// Its number, from 1.
        line: u64,
        /// Why it is.
        why: LineError,
    },
    /// The library answered a number that this crate doesn't know.
    Unknown(u32),
}

impl Error {
    /// The same of a call that reads a text.
    pub(crate) fn told_of_text(answer: u32, line: u64, why: u32) -> Result<(), Error> {
        match answer {
            14 => Err(Error::BadText { line, why: LineError::told(why) }),
            other => Error::told(other),
        }
    }

    /// Nothing where a call was answered OK.
    pub(crate) fn told(answer: u32) -> Result<(), Error> {
        Err(match answer {
            0 => return Ok(()),
            1 => Error::NoHandle,
            2 => Error::NoMemory,
            3 => Error::Exhausted,
            4 => Error::BadMoment,
            5 => Error::Limit,
            6 => Error::BadMethod,
            7 => Error::BadTarget,
            8 => Error::BadFields,
            9 => Error::Live,
            10 => Error::BadImage,
            11 => Error::BadContent,
            12 => Error::Full,
            13 => Error::Late,
            other => Error::Unknown(other),
        })
    }
}

impl fmt::Display for Error {
    fn fmt(&self, f: &mut fmt::Formatter<'_>) -> fmt::Result {
        let why = match self {
            Error::OtherVersion(version) => {
                return write!(f, "the library linked has another version, {version}");
            }
            Error::NoHandle => "the handle has no cache",
            Error::NoMemory => "memory was refused",
            Error::Exhausted => "the cache has taken as many events or bytes as it may",
            Error::BadMoment => "the moment is before that of the last event, or too late",
            Error::Limit => "a number or a length is outside of its limits",
            Error::BadMethod => "the method is none",
            Error::BadTarget => "the target is none",
            Error::BadFields => "the fields are none, too many or too large",
            Error::Live => "consumers are live",
            Error::BadImage => "the bytes are no image",
            Error::BadContent => "no cache may begin with what the image has",
            Error::Full => "what the image has is more than the store may hold",
            Error::Late => "a text comes behind an event of another call",
            Error::BadText { line, why } => return write!(f, "line {line} is refused: {why}"),
            Error::Unknown(answer) => return write!(f, "an unknown answer, {answer}"),
        };
        f.write_str(why)
    }
}

impl core::error::Error for Error {}

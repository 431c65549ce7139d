//! What happens.

/// How a request loads.
#[derive(Clone, Copy, Debug, Default, PartialEq, Eq)]
pub enum Load {
    /// As RFC 9111 allows a private cache.
    #[default]
    Normal,
    /// Never without a validation.
    Validate,
    /// Past the cache, and what was stored is forgotten.
    Bypass,
    /// Also a stale answer.
    Skip,
    /// Only from the cache.
    Only,
    /// As if there were no cache.
    Disable,
}

/// What a consumer asks for.
#[derive(Clone, Copy, Debug, PartialEq, Eq)]
pub struct Request<'a> {
    /// A token of 1 to 15 bytes, and not CONNECT.
    pub method: &'a [u8],
    /// How it loads.
    pub load: Load,
    /// An http or https URL without a fragment, as the URL Standard spells it.
    pub target: &'a [u8],
    /// Lines of fields, each a name, a colon, a space, a value and a line feed.
    pub fields: &'a [u8],
}

/// What happens. Numbers of consumers and exchanges are below 2^62.
#[derive(Clone, Copy, Debug, PartialEq, Eq)]
pub enum Event<'a> {
    /// A consumer begins with its request. Each has a number above all before it.
    Start {
        /// Its number.
        consumer: u64,
        /// What it asks for.
        request: Request<'a>,
    },
    /// A consumer asks for at most `want` bytes, up to 65,536.
    Poll {
        /// Its number.
        consumer: u64,
        /// How many bytes it wants at most.
        want: u32,
    },
    /// A consumer leaves.
    Cancel {
        /// Its number.
        consumer: u64,
    },
    /// What is stored for a target is not to be used any more.
    Doom {
        /// As that of a request.
        target: &'a [u8],
    },
    /// The head of the answer to an exchange came.
    Head {
        /// The number of the exchange.
        exchange: u64,
        /// From 200 to 599.
        status: u16,
        /// Lines of fields, as those of a request.
        fields: &'a [u8],
    },
    /// Bytes of the body of an exchange came, at most 65,536.
    Piece {
        /// The number of the exchange.
        exchange: u64,
        /// The bytes.
        bytes: &'a [u8],
    },
    /// The body of an exchange came to its end.
    End {
        /// The number of the exchange.
        exchange: u64,
    },
    /// An exchange broke, or its head was refused.
    Fault {
        /// The number of the exchange.
        exchange: u64,
    },
}

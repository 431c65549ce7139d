//! Lines of fields.
use core::fmt;
use core::iter::FusedIterator;

/// Fields as lines, each a name, a colon, a space, a value and a line feed; and an iterator over their
/// names and values.
#[derive(Clone, Copy, Default, PartialEq, Eq)]
pub struct Fields<'a> {
    text: &'a [u8],
}

impl<'a> Fields<'a> {
    /// The fields whose lines the text is.
    pub fn of(text: &'a [u8]) -> Fields<'a> {
        Fields { text }
    }

    /// The lines of those that are left.
    pub fn as_bytes(&self) -> &'a [u8] {
        self.text
    }
}

impl<'a> Iterator for Fields<'a> {
    type Item = (&'a [u8], &'a [u8]);

    fn next(&mut self) -> Option<Self::Item> {
        let end = self.text.iter().position(|b| *b == b'\n')?;
        let (line, rest) = (&self.text[..end], &self.text[end + 1..]);
        self.text = rest;
        let colon = line.windows(2).position(|it| it == b": ")?;
        Some((&line[..colon], &line[colon + 2..]))
    }
}

impl FusedIterator for Fields<'_> {}

impl fmt::Debug for Fields<'_> {
    fn fmt(&self, f: &mut fmt::Formatter<'_>) -> fmt::Result {
        f.debug_list().entries(self.map(|(name, value)| Line { name, value })).finish()
    }
}

/// A field as it is shown.
struct Line<'a> {
    name: &'a [u8],
    value: &'a [u8],
}

impl fmt::Debug for Line<'_> {
    fn fmt(&self, f: &mut fmt::Formatter<'_>) -> fmt::Result {
        write!(f, "{}: {}", self.name.escape_ascii(), self.value.escape_ascii())
    }
}

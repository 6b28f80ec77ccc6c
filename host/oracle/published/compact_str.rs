// A stand-in for the crate compact_str, which Debian does not package: a short text kept in place, ordered by its bytes.
//
// The oracle's only texts are ranks in five digits and the names of candidates, so sixteen bytes are enough.
use std::fmt;

const ROOM: usize = 16;

// Zeros past the end make the derived order that of the bytes, as no name holds a zero byte.
#[derive(Clone, Copy, PartialEq, Eq, PartialOrd, Ord, Hash)]
pub struct CompactString {
    bytes: [u8; ROOM],
    len: u8,
}

impl CompactString {
    pub fn as_str(&self) -> &str {
        std::str::from_utf8(&self.bytes[..self.len as usize]).expect("made from text")
    }
}

impl From<&str> for CompactString {
    fn from(text: &str) -> Self {
        let mut bytes = [0; ROOM];
        bytes[..text.len()].copy_from_slice(text.as_bytes());
        CompactString { bytes, len: text.len() as u8 }
    }
}

impl fmt::Debug for CompactString {
    fn fmt(&self, f: &mut fmt::Formatter<'_>) -> fmt::Result {
        self.as_str().fmt(f)
    }
}

impl PartialEq<str> for CompactString {
    fn eq(&self, other: &str) -> bool {
        self.as_str() == other
    }
}

impl std::borrow::Borrow<str> for CompactString {
    fn borrow(&self) -> &str {
        self.as_str()
    }
}

impl std::ops::Deref for CompactString {
    type Target = str;
    fn deref(&self) -> &str {
        self.as_str()
    }
}

pub trait ToCompactString {
    fn to_compact_string(&self) -> CompactString;
}

impl ToCompactString for str {
    fn to_compact_string(&self) -> CompactString {
        self.into()
    }
}

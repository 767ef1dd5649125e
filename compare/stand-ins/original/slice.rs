//! Stands for the byte slices that keys are made of: ordered byte by byte, a prefix first.

use std::cmp::Ordering;
use std::sync::Arc;

/// How many bytes stand in the value itself, as in the original's.
const SHORT: usize = 20;

#[derive(Clone, Debug)]
enum Bytes {
    Short(u8, [u8; SHORT]),
    Long(Arc<[u8]>),
}

/// Some bytes that are cheap to copy.
#[derive(Clone, Debug)]
pub struct Slice(Bytes);

impl Slice {
    /// The empty key.
    pub fn empty() -> Slice {
        Slice::from(Vec::new())
    }
}

impl AsRef<[u8]> for Slice {
    fn as_ref(&self) -> &[u8] {
        match &self.0 {
            Bytes::Short(length, bytes) => &bytes[..usize::from(*length)],
            Bytes::Long(bytes) => bytes,
        }
    }
}

impl From<Vec<u8>> for Slice {
    fn from(bytes: Vec<u8>) -> Slice {
        if bytes.len() > SHORT {
            return Slice(Bytes::Long(bytes.into()));
        }
        let mut short = [0; SHORT];
        short[..bytes.len()].copy_from_slice(&bytes);
        Slice(Bytes::Short(bytes.len() as u8, short))
    }
}

impl From<&str> for Slice {
    fn from(text: &str) -> Slice {
        Slice::from(text.as_bytes().to_vec())
    }
}

impl<const N: usize> From<[u8; N]> for Slice {
    fn from(bytes: [u8; N]) -> Slice {
        Slice::from(bytes.to_vec())
    }
}

impl Eq for Slice {}

impl Ord for Slice {
    fn cmp(&self, other: &Slice) -> Ordering {
        self.as_ref().cmp(other.as_ref())
    }
}

impl<T: AsRef<[u8]>> PartialEq<T> for Slice {
    fn eq(&self, other: &T) -> bool {
        *self.as_ref() == *other.as_ref()
    }
}

impl<T: AsRef<[u8]>> PartialOrd<T> for Slice {
    fn partial_cmp(&self, other: &T) -> Option<Ordering> {
        self.as_ref().partial_cmp(other.as_ref())
    }
}

impl PartialEq<Slice> for [u8] {
    fn eq(&self, other: &Slice) -> bool {
        *self == *other.as_ref()
    }
}

impl PartialOrd<Slice> for [u8] {
    fn partial_cmp(&self, other: &Slice) -> Option<Ordering> {
        self.partial_cmp(other.as_ref())
    }
}

impl PartialEq<Slice> for &[u8] {
    fn eq(&self, other: &Slice) -> bool {
        **self == *other.as_ref()
    }
}

impl PartialOrd<Slice> for &[u8] {
    fn partial_cmp(&self, other: &Slice) -> Option<Ordering> {
        (**self).partial_cmp(other.as_ref())
    }
}

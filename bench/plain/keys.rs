//! Ranges of keys.
use crate::bytes::Bytes;

/// A key has 1 to so many bytes.
pub const MAX_KEY: usize = 256;

/// Keys from a low one on, up to but without a high one.
#[derive(Clone)]
pub struct Keys {
    pub low: Bytes,
    pub high: Option<Bytes>,
}

pub fn is_key(key: &[u8]) -> bool {
    (1..=MAX_KEY).contains(&key.len())
}

impl Keys {
    pub fn all() -> Keys {
        Keys { low: Bytes::from(&[][..]), high: None }
    }

    pub fn has(&self, key: &[u8]) -> bool {
        *key >= *self.low && self.is_below_end(key)
    }

    fn is_below_end(&self, key: &[u8]) -> bool {
        self.high.as_ref().is_none_or(|high| *key < **high)
    }

    /// Whether a key parts these keys in two.
    pub fn is_split_by(&self, key: &[u8]) -> bool {
        is_key(key) && *key > *self.low && self.is_below_end(key)
    }

    pub fn below(&self, key: Bytes) -> Keys {
        Keys { low: self.low.clone(), high: Some(key) }
    }

    pub fn from(&self, key: Bytes) -> Keys {
        Keys { low: key, high: self.high.clone() }
    }
}

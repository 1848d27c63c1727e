//! Members of JSON objects within the limits of docs/FORMATS.md; `None` is for those beyond.

use std::ops::RangeInclusive;

use serde_json::{Map, Value};

const MAX_TEXT: usize = 64; // bytes

pub type Object = Map<String, Value>;

/// An id or a name.
pub fn text<'a>(object: &'a Object, key: &str) -> Option<&'a str> {
    let text = object.get(key)?.as_str()?;
    (1..=MAX_TEXT).contains(&text.len()).then_some(text)
}

/// A whole number, of a type that holds the range.
pub fn whole<T>(object: &Object, key: &str, range: RangeInclusive<u64>) -> Option<T>
where
    T: TryFrom<u64>,
{
    let number = object.get(key)?.as_u64()?;
    range.contains(&number).then(|| T::try_from(number).ok()).flatten()
}

/// An array whose elements are all read.
pub fn list<T>(object: &Object, key: &str, read: impl Fn(&Value) -> Option<T>) -> Option<Vec<T>> {
    object.get(key)?.as_array()?.iter().map(read).collect()
}

/// The member that `read` reads, or the default where there is none of that key.
pub fn or<T>(
    object: &Object,
    key: &str,
    default: T,
    read: impl Fn(&Object, &str) -> Option<T>,
) -> Option<T> {
    if object.contains_key(key) {
        read(object, key)
    } else {
        Some(default)
    }
}

//! The range of keys.

use crate::fault::Fault;
use crate::MOST_KEY;

/// Returns the key, or `Key` if the number is no key.
pub(crate) fn checked(key: u64) -> Result<u64, Fault> {
    if key > MOST_KEY {
        return Err(Fault::Key(key));
    }
    Ok(key)
}

/// Returns `Key` with the first of these numbers that is no key.
pub(crate) fn all_checked(keys: &[u64]) -> Result<(), Fault> {
    keys.iter().try_for_each(|&key| checked(key).map(|_| ()))
}

//! Values as the texts of faults have them.

use std::fmt::{self, Write};

/// The most bytes of a text.
const MOST: usize = 47;

/// A value of a [`Key`](crate::Key) type that is no key, as the text of
/// [`Fault::Value`](crate::Fault::Value) has it: at most 47 bytes.
#[derive(Clone, Copy, PartialEq, Eq, Hash)]
pub struct Shown {
    bytes: [u8; MOST],
    length: u8,
}

impl Shown {
    /// Returns what a function writes.
    pub(crate) fn of(write: impl FnOnce(&mut dyn Write) -> fmt::Result) -> Shown {
        let mut shown = Shown {
            bytes: [0; MOST],
            length: 0,
        };
        // What has no room is left out.
        let _ = write(&mut shown);
        shown
    }

    /// Returns the text.
    pub fn as_str(&self) -> &str {
        std::str::from_utf8(&self.bytes[..usize::from(self.length)]).unwrap_or_default()
    }
}

impl Write for Shown {
    /// Appends a text, or returns an error if there is no room for all of it.
    fn write_str(&mut self, text: &str) -> fmt::Result {
        let from = usize::from(self.length);
        let room = self.bytes[from..].get_mut(..text.len()).ok_or(fmt::Error)?;
        room.copy_from_slice(text.as_bytes());
        self.length += u8::try_from(text.len()).map_err(|_| fmt::Error)?;
        Ok(())
    }
}

impl fmt::Display for Shown {
    fn fmt(&self, f: &mut fmt::Formatter<'_>) -> fmt::Result {
        f.write_str(self.as_str())
    }
}

impl fmt::Debug for Shown {
    fn fmt(&self, f: &mut fmt::Formatter<'_>) -> fmt::Result {
        write!(f, "Shown({self})")
    }
}

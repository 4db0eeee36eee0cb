//! The numbers of workers.

use std::fmt;

/// The numbers of some workers of a set, each 0 to 63.
///
/// ```
/// # fn main() -> Result<(), nm_set::Fault> {
/// let set = nm_set::Set::with_nodes(1_024)?;
/// let (_first, _second) = (set.attach()?, set.attach()?);
/// let Err(nm_set::Fault::Attached(numbers)) = set.close() else { panic!("two are attached") };
/// assert_eq!(numbers.iter().collect::<Vec<_>>(), [0, 1]);
/// assert_eq!(numbers.to_string(), "0 and 1");
/// # Ok(())
/// # }
/// ```
#[derive(Clone, Copy, Debug, Default, PartialEq, Eq, Hash)]
pub struct Numbers(u64);

impl Numbers {
    /// Returns the numbers of the bits of a mask.
    pub(crate) fn of(mask: u64) -> Numbers {
        Numbers(mask)
    }

    /// Returns a bit for each number.
    pub(crate) fn mask(self) -> u64 {
        self.0
    }

    /// Returns whether a number is one of these.
    pub fn contains(&self, number: u32) -> bool {
        number < u64::BITS && self.0 >> number & 1 == 1
    }

    /// Returns the numbers, ascending.
    pub fn iter(&self) -> impl Iterator<Item = u32> {
        let numbers = *self;
        (0..u64::BITS).filter(move |&number| numbers.contains(number))
    }

    /// Returns how many they are.
    pub fn len(&self) -> usize {
        self.0.count_ones() as usize
    }

    /// Returns whether there are none.
    pub fn is_empty(&self) -> bool {
        self.0 == 0
    }

    /// Returns the workers as the subject of a sentence, with its verb.
    pub(crate) fn are(&self) -> String {
        match self.len() {
            1 => format!("worker {self} is"),
            _ => format!("workers {self} are"),
        }
    }
}

impl FromIterator<u32> for Numbers {
    /// Returns those of the numbers that are below 64.
    fn from_iter<I: IntoIterator<Item = u32>>(numbers: I) -> Numbers {
        let bit = |number| 1_u64.checked_shl(number).unwrap_or(0);
        Numbers(numbers.into_iter().map(bit).fold(0, |all, bit| all | bit))
    }
}

impl fmt::Display for Numbers {
    fn fmt(&self, f: &mut fmt::Formatter<'_>) -> fmt::Result {
        for (at, number) in self.iter().enumerate() {
            match at {
                0 => write!(f, "{number}")?,
                _ if at + 1 == self.len() => write!(f, " and {number}")?,
                _ => write!(f, ", {number}")?,
            }
        }
        Ok(())
    }
}

#[cfg(test)]
mod tests {
    use super::Numbers;

    #[test]
    fn numbers_are_the_subject_of_a_sentence() {
        let text = |numbers: &[u32]| numbers.iter().copied().collect::<Numbers>().are();
        assert_eq!(text(&[63]), "worker 63 is");
        assert_eq!(text(&[5, 0]), "workers 0 and 5 are");
        assert_eq!(text(&[1, 2, 3]), "workers 1, 2 and 3 are");
    }

    #[test]
    fn a_number_above_63_is_none_of_them() {
        let numbers: Numbers = [64, u32::MAX].into_iter().collect();
        assert!(numbers.is_empty() && !numbers.contains(64) && !numbers.contains(0));
    }
}

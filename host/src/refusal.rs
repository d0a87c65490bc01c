//! Refusals.

use std::fmt;

/// A call that was refused; it changed nothing.
///
/// ```
/// use wordzike::{Engine, Options};
/// let none: [&str; 0] = [];
/// let refusal = Engine::new(&none, Options::default(), &[], &[]).unwrap_err();
/// assert_eq!(refusal.number(), 1);
/// assert_eq!(refusal.to_string(), "refused with 1: the directory has no name, or more than 120");
/// ```
#[derive(Clone, Copy, Debug, PartialEq, Eq, Hash)]
pub struct Refusal(u64);

impl Refusal {
    /// Ok where the number is 0.
    pub(crate) fn check(number: u64) -> Result<(), Refusal> {
        if number == 0 { Ok(()) } else { Err(Refusal(number)) }
    }

    /// The number of document 01's check.
    pub fn number(self) -> u64 {
        self.0
    }

    /// When it is met.
    pub fn words(self) -> &'static str {
        match self.0 {
            1 => "the directory has no name, or more than 120",
            2 => "a name has no byte, or more than 40",
            3 => "a name has a byte outside 33 to 126",
            4 => "a name is not above its forerunner",
            11 => "the cycle is not 0, and not 0.001 to 3600 s",
            12 => "the tier-2 period is not 0 to 86400 s",
            13 => "the grace is not 0 to 86400 s",
            14 => "not one setting for each tag, more than 16 groups, or a deadband, a group or a rate out of range",
            21 => "the clock reading is not finite, below 0 or above 1000000000 s",
            22 => "the clock reading is below the last accepted one",
            23 => "no such tag",
            24 => "the tier is not 0 to 3",
            31 => "the state is not connected",
            32 => "32 writes are queued",
            41 => "not the answer that is waited for",
            42 => "a float is not finite",
            43 => "a lent list has too little room",
            51 => "the panel list is empty, or its length is not 1 + 2n",
            53 => "the panel list names a tag that is not there",
            54 => "the panel list names a tag twice",
            55 => "a tier in the panel list is not 1 to 3",
            56 => "the engine has a tag in a tier",
            100 => "the memory is not an engine's",
            _ => "no number of document 01",
        }
    }
}

impl fmt::Display for Refusal {
    fn fmt(&self, f: &mut fmt::Formatter<'_>) -> fmt::Result {
        write!(f, "refused with {}: {}", self.0, self.words())
    }
}

impl std::error::Error for Refusal {}

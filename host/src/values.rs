//! Values, errors, entries and settings, and the cells that stand for them.

use crate::ffi;

/// A tag's value.
#[derive(Clone, Copy, Debug, PartialEq)]
#[allow(missing_docs)]
#[non_exhaustive]
pub enum Value {
    Null,
    Bool(bool),
    Int(i64),
    /// Finite, or it is refused (42).
    Float(f64),
}

/// What kind of error a driver met.
#[derive(Clone, Copy, Debug, PartialEq, Eq, Hash)]
pub enum ErrorKind {
    /// The controller has no such tag: its quality is missing.
    NotFound,
    /// It may not be read: its quality is missing.
    Access,
    /// Any other, by the driver's code: the quality is bad.
    Other(u16),
}

/// An error, with the number of its text. The host numbers texts so that equal texts have equal numbers.
#[derive(Clone, Copy, Debug, PartialEq, Eq, Hash)]
#[allow(missing_docs)]
pub struct Error {
    pub kind: ErrorKind,
    pub message: u32,
}

/// How far an entry's value can be trusted.
#[derive(Clone, Copy, Debug, PartialEq, Eq, Hash)]
#[non_exhaustive]
pub enum Quality {
    /// Read.
    Good,
    /// The last reading failed; the value is an older one.
    Bad,
    /// The controller lacks the tag, or keeps it; the value is null.
    Missing,
    /// The connection is lost; the value is the last one.
    Stale,
}

/// What is known of a tag's value.
#[derive(Clone, Copy, Debug, PartialEq)]
pub struct Entry {
    /// The value.
    pub value: Value,
    /// How far it can be trusted.
    pub quality: Quality,
    /// The wall time of its reading, in milliseconds.
    pub time: i64,
    /// Why it is bad or missing.
    pub error: Option<Error>,
}

/// A group of tags, polled at a rate of its own.
#[derive(Clone, Copy, Debug, PartialEq, Eq, Hash)]
pub struct Group {
    /// 0 to 15, or it is refused (14).
    pub number: u32,
    /// Milliseconds from one reading to the next; 0 is refused (14).
    pub rate: u32,
}

/// A tag's setting.
#[derive(Clone, Copy, Debug, Default, PartialEq)]
pub struct Setting {
    /// A change of a number by less than this isn't told.
    pub deadband: f64,
    /// The tag's group in tier 1.
    pub group: Option<Group>,
    /// Whether a description is set, so that the controller isn't asked for one.
    pub described: bool,
}

/// Seconds; none of them is negative.
#[derive(Clone, Copy, Debug, Default, PartialEq)]
pub struct Options {
    /// From one round to the next.
    pub cycle: f64,
    /// Of a turn through the tags of tier 2.
    pub period: f64,
    /// That a tag which leaves tier 1 stays in tier 2.
    pub grace: f64,
}

impl Value {
    pub(crate) fn words(self) -> [u64; 2] {
        match self {
            Value::Null => [0, 0],
            Value::Bool(b) => [1, b.into()],
            Value::Int(n) => [2, n as u64],
            Value::Float(x) => [3, x.to_bits()],
        }
    }

    pub(crate) fn of(ffi::Value { kind, word }: ffi::Value) -> Value {
        match kind {
            1 => Value::Bool(word != 0),
            2 => Value::Int(word as i64),
            3 => Value::Float(f64::from_bits(word)),
            _ => Value::Null,
        }
    }
}

impl Error {
    pub(crate) fn words(self) -> [u64; 2] {
        let kind = match self.kind {
            ErrorKind::NotFound => 1,
            ErrorKind::Access => 2,
            ErrorKind::Other(code) => u64::from(code) + 3,
        };
        [kind, self.message.into()]
    }

    pub(crate) fn of(ffi::Error { kind, message }: ffi::Error) -> Option<Error> {
        let kind = match kind {
            0 => return None,
            1 => ErrorKind::NotFound,
            2 => ErrorKind::Access,
            n => ErrorKind::Other((n - 3) as u16),
        };
        Some(Error { kind, message: message as u32 })
    }
}

impl Entry {
    pub(crate) fn of(entry: ffi::Entry) -> Option<Entry> {
        let quality = match entry.quality {
            0 => return None,
            2 => Quality::Bad,
            3 => Quality::Missing,
            4 => Quality::Stale,
            _ => Quality::Good,
        };
        Some(Entry { value: Value::of(entry.value), quality, time: entry.t, error: Error::of(entry.error) })
    }
}

impl Options {
    pub(crate) fn handed(self) -> ffi::Options {
        ffi::Options { cycle: self.cycle, period: self.period, grace: self.grace }
    }
}

impl Setting {
    pub(crate) fn cells(self) -> [u64; 4] {
        let (group, rate) = self.group.map_or((0, 0), |g| (u64::from(g.number) + 1, g.rate.into()));
        [self.deadband.to_bits(), group, rate, self.described.into()]
    }
}

/// A result of a read: value, then error.
pub(crate) fn result_cells(result: Result<Value, Error>) -> [u64; 4] {
    let ([kind, word], [error, message]) = match result {
        Ok(value) => (value.words(), [0, 0]),
        Err(error) => ([0, 0], error.words()),
    };
    [kind, word, error, message]
}

/// Puts records in the place of what `list` holds.
pub(crate) fn put<const N: usize>(list: &mut Vec<u8>, records: impl IntoIterator<Item = [u64; N]>) {
    list.clear();
    list.extend(records.into_iter().flatten().flat_map(u64::to_le_bytes));
}

/// The first tags of a list.
pub(crate) fn tags(list: &[u8], count: u64) -> Vec<u32> {
    list.chunks_exact(2).take(count as usize).map(|tag| u16::from_le_bytes([tag[0], tag[1]]).into()).collect()
}

/// The first changes of a list: tag and entry.
pub(crate) fn changes(list: &[u8], count: u64) -> impl Iterator<Item = (u32, ffi::Entry)> {
    records(list, count).map(|[tag, quality, kind, word, t, error, message, has_g, g]| {
        let (value, error) = (ffi::Value { kind, word }, ffi::Error { kind: error, message });
        (tag as u32, ffi::Entry { quality, value, t: t as i64, error, has_g, g: g as i64 })
    })
}

/// The first records of a list.
pub(crate) fn records<const N: usize>(list: &[u8], count: u64) -> impl Iterator<Item = [u64; N]> {
    let cell = |bytes: &[u8]| u64::from_le_bytes(bytes.try_into().expect("eight bytes"));
    list.chunks_exact(8 * N)
        .take(count as usize)
        .map(move |record| std::array::from_fn(|i| cell(&record[8 * i..8 * i + 8])))
}

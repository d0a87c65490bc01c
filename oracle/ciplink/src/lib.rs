//! Stand-in for the crate `ciplink`: only the types that worker.rs, values.rs, planner.rs and plc.rs name.

use std::collections::HashMap;
use std::sync::{Mutex, OnceLock};

use indexmap::IndexMap;

/// A driver value. The oracle uses Bool, LInt and LReal; `Bytes` of length 0 stands for a null in a write.
#[derive(Clone, Debug, PartialEq)]
pub enum Value {
    Bool(bool),
    SInt(i8),
    Int(i16),
    DInt(i32),
    LInt(i64),
    USInt(u8),
    UInt(u16),
    UDInt(u32),
    ULInt(u64),
    Real(f32),
    LReal(f64),
    String(String),
    Bytes(Vec<u8>),
    Array(Vec<Value>),
    Struct(IndexMap<String, Value>),
}

/// NotFound, Access, or another kind with a 16-bit code (document 01).
#[derive(Clone, Copy, Debug, PartialEq, Eq, Hash)]
pub enum ErrorKind {
    NotFound,
    Access,
    Other(u16),
}

impl ErrorKind {
    /// One text per kind, never `comm` or `refused`.
    pub fn as_str(&self) -> &'static str {
        match self {
            ErrorKind::NotFound => "k0",
            ErrorKind::Access => "k1",
            ErrorKind::Other(code) => {
                static TEXTS: OnceLock<Mutex<HashMap<u16, &'static str>>> = OnceLock::new();
                let mut texts =
                    TEXTS.get_or_init(Mutex::default).lock().unwrap_or_else(std::sync::PoisonError::into_inner);
                texts.entry(*code).or_insert_with(|| format!("k{}", u32::from(*code) + 2).leak())
            }
        }
    }
}

/// Why a tag failed.
#[derive(Clone, Debug, PartialEq, Eq)]
pub struct TagError {
    pub message: String,
    pub kind: ErrorKind,
}

pub mod cip {
    use super::{TagError, Value};

    /// The result of one tag.
    #[derive(Clone, Debug, PartialEq)]
    pub struct TagResult {
        pub tag: String,
        pub value: Option<Value>,
        pub data_type: Option<String>,
        pub error: Option<TagError>,
    }
}

//! Random names, for `leaves` and `lists`.

use super::generate::Rng;
use std::collections::BTreeSet;

/// Bytes 33 to 126 only; `more` also gives the empty name.
pub(super) fn a_name(r: &mut Rng, more: bool) -> String {
    let low = u64::from(!more);
    let length = match r.below(8) {
        0 => r.range(30, 40),
        1 => low,
        _ => r.range(low, 8),
    };
    let name: String = match r.below(4) {
        0 => (0..length).map(|_| r.range(33, 126) as u8 as char).collect(),
        1 => (0..length).map(|_| r.of(&b"aAbBzZ.."[..]) as char).collect(),
        2 => (0..length).map(|_| r.of(&b"A@[`{az.09/:~!"[..]) as char).collect(),
        _ => (0..length).map(|_| r.of(&b"xX.0189"[..]) as char).collect(),
    };
    let name = match r.below(8) {
        0 => format!("{name}.{}", r.of(&["0", "31", "007", "5", "", "x", "1x", "9:", "/0", "1.2"])),
        1 => format!("{name}{}", r.of(&[".", "..", ".5", "..3", "5.", "5.5"])),
        _ => name,
    };
    name[..name.len().min(40)].to_owned()
}

/// A name like another: the same, in other case, longer, shorter, or with one byte changed.
pub(super) fn beside(r: &mut Rng, name: &[u8]) -> Vec<u8> {
    let mut b = name.to_vec();
    match r.below(6) {
        0 => {}
        1 => {
            for c in &mut b {
                if c.is_ascii_alphabetic() && r.chance(500) {
                    *c ^= 32;
                }
            }
        }
        2 => {
            let n = r.below(b.len() as u64 + 1) as usize;
            b.truncate(n);
        }
        3 => b.push(r.range(33, 126) as u8),
        4 if !b.is_empty() => {
            let i = r.below(b.len() as u64) as usize;
            b[i] = r.range(33, 126) as u8;
        }
        // the bit of the case, in any byte
        _ if !b.is_empty() => {
            let i = r.below(b.len() as u64) as usize;
            if (33..=126).contains(&(b[i] ^ 32)) {
                b[i] ^= 32;
            }
        }
        _ => {}
    }
    b
}

/// So many names, strictly rising: some like others, some the bits of others.
pub(super) fn rising(r: &mut Rng, count: u64) -> Vec<Vec<u8>> {
    let mut set: BTreeSet<Vec<u8>> = BTreeSet::new();
    while (set.len() as u64) < count {
        let old: Vec<&Vec<u8>> = set.iter().collect();
        let word = (!old.is_empty()).then(|| old[r.below(old.len() as u64) as usize]);
        let name = match (r.below(4), word) {
            (0, Some(word)) => beside(r, word),
            (1, Some(word)) => [word, format!(".{}", r.below(33)).as_bytes()].concat(),
            _ => a_name(r, false).into_bytes(),
        };
        if (1..=40).contains(&name.len()) {
            set.insert(name);
        }
    }
    set.into_iter().collect()
}

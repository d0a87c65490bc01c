//! Our host of `oracle bench`: script.rs's controller, handed to the exported functions in a step loop. The functions are called
//! as the archive has them; results are written straight into the list that is lent.

use super::script::*;
use super::timing::used;
use super::*;
use wordzike::ffi::{Options, Reply};

const BEGIN: u64 = 0;
const OPENED: u64 = 1;
const VERSION_IS: u64 = 4;
const RESULTS: u64 = 5;
const WRITTEN: u64 = 7;
const DESCRIPTIONS: u64 = 9;
const WAITED: u64 = 11;
const TAKEN: u64 = 12;
const KIND_INT: u64 = 2;

const RESULT: usize = 32;
const LISTED: usize = 2;
const CHANGE: usize = 72;

fn cell(bytes: &[u8], k: usize) -> u64 {
    u64::from_le_bytes(bytes[8 * k..8 * k + 8].try_into().expect("eight bytes"))
}

fn tag_in(bytes: &[u8]) -> u64 {
    u16::from_le_bytes(bytes.try_into().expect("two bytes")).into()
}

fn put(bytes: &mut [u8], k: usize, word: u64) {
    bytes[8 * k..8 * k + 8].copy_from_slice(&word.to_le_bytes());
}

/// The memory that is lent: the engine, and the list of a step, both as long as its number of names asks for.
pub(super) struct Lent {
    pub mem: Vec<u8>,
    pub out: Vec<u8>,
}

/// What the host hands in, in the functions' form.
pub(super) struct Handed {
    names: Vec<u8>,
    ends: Vec<u32>,
    options: Options,
    settings: Vec<u8>,
    groups: Vec<u8>,
    results: Vec<u8>,
    descriptions: Vec<u8>,
}

impl Handed {
    pub(super) fn new(head: &Head) -> Handed {
        let n = head.names.len();
        let ends = head.names.iter().scan(0, |end, name| {
            *end += name.len() as u32;
            Some(*end)
        });
        let mut settings = vec![0; 32 * n];
        for (row, s) in settings.chunks_mut(32).zip(&head.settings) {
            let (group, rate) = s.group.map_or((0, 0), |(g, r)| (g + 1, r));
            let row_cells = [s.band.unwrap_or(0.0).to_bits(), group, rate, u64::from(s.description)];
            for (k, word) in row_cells.into_iter().enumerate() {
                put(row, k, word);
            }
        }
        Handed {
            names: head.names.concat().into_bytes(),
            ends: ends.collect(),
            options: Options { cycle: head.cycle, period: head.period, grace: head.grace },
            settings,
            groups: head.groups.iter().flat_map(|(g, r)| [*g, *r]).flat_map(u64::to_le_bytes).collect(),
            results: vec![0; RESULT * n],
            descriptions: vec![0; 8 * n],
        }
    }

    /// Bytes of the lists that steps are handed.
    pub(super) fn size(&self) -> usize {
        self.settings.len() + self.results.len() + self.descriptions.len()
    }

    /// Results for the tags of a list, over those of the last read.
    fn results(&mut self, desk: &mut Desk, tags: &[u8]) -> &[u8] {
        let count = tags.len() / LISTED;
        let results = &mut self.results[..RESULT * count];
        let mut sum = desk.sum;
        for (place, (row, tag)) in results.chunks_exact_mut(RESULT).zip(tags.chunks_exact(LISTED)).enumerate() {
            sum = sum.wrapping_add(tag_in(tag));
            let value = cells(desk.values.at(desk.turn, place));
            for (k, word) in [value.kind, value.word, 0, 0].into_iter().enumerate() {
                put(row, k, word);
            }
        }
        desk.sum = sum;
        desk.asked += count as u64;
        results
    }

    /// The answer to a request or an event: its kind, its number, its list.
    fn answer(&mut self, reply: &Reply, out: &[u8], desk: &mut Desk) -> (u64, u64, &[u8]) {
        let count = reply.count as usize;
        match reply.kind {
            CONNECT => (OPENED, 0, &[]),
            VERSION => (VERSION_IS, 1, &self.settings),
            READ | READ_BACK => (RESULTS, 0, self.results(desk, &out[..LISTED * count])),
            DESCRIBE => (DESCRIPTIONS, 0, &self.descriptions[..8 * count]),
            WRITE => {
                desk.sum = desk.sum.wrapping_add(reply.tag).wrapping_add(reply.value.word);
                (WRITTEN, 0, &[])
            }
            WAIT => (WAITED, 0, &[]),
            VALUES => {
                changes(desk, &out[..CHANGE * count]);
                (TAKEN, 0, &[])
            }
            _ => {
                desk.sum = desk.sum.wrapping_add(reply.value.word);
                (TAKEN, 0, &[])
            }
        }
    }
}

fn changes(desk: &mut Desk, list: &[u8]) {
    let mut sum = desk.sum;
    for change in list.chunks_exact(CHANGE) {
        sum = sum.wrapping_add(cell(change, 0)).wrapping_add(cell(change, 3)).wrapping_add(cell(change, 4));
    }
    desk.sum = sum;
    desk.told += (list.len() / CHANGE) as u64;
}

impl Lent {
    /// Room for engines of any number of names.
    pub(super) fn new() -> Lent {
        let most = wordzike::TAGS;
        let list = wordzike::ffi::list_size(most as u32) as usize;
        Lent { mem: Vec::with_capacity(wordzike::memory_size(most)), out: Vec::with_capacity(list) }
    }

    #[rustfmt::skip]
    pub(super) fn create(&mut self, handed: &Handed) {
        let Handed { names, ends, options, settings, groups, .. } = handed;
        self.mem.resize(wordzike::memory_size(ends.len()), 0);
        self.out.resize(wordzike::ffi::list_size(ends.len() as u32) as usize, 0);
        let code = unsafe {
            tape::__real_wz_create(
                self.mem.as_mut_ptr(), self.mem.len(),
                names.as_ptr(), names.len(),
                ends.as_ptr(), ends.len(),
                *options,
                settings.as_ptr(), settings.len(),
                groups.as_ptr(), groups.len(),
            )
        };
        assert_eq!(code, 0, "creation");
    }

    pub(super) fn set_tier(&mut self, clock: f64, tag: usize, tier: u8) {
        let (tag, tier) = (tag as u32, u32::from(tier));
        let code = unsafe { tape::__real_wz_set_tier(self.mem.as_mut_ptr(), self.mem.len(), clock, tag, tier) };
        assert_eq!(code, 0, "a tier call");
    }

    #[rustfmt::skip]
    fn step(&mut self, desk: &Desk, (kind, number, list): (u64, u64, &[u8])) -> Reply {
        let reply = unsafe {
            tape::__real_wz_step(
                self.mem.as_mut_ptr(), self.mem.len(),
                desk.clock, desk.wall(), kind, number, 0,
                list.as_ptr(), list.len(),
                self.out.as_mut_ptr(), self.out.len(),
            )
        };
        assert_eq!(reply.code, 0, "a step");
        reply
    }

    /// What a wait comes to.
    fn next(&mut self, next: Next) {
        let (mem, n) = (self.mem.as_mut_ptr(), self.mem.len());
        let code = match next {
            Next::Round => 0,
            Next::Write(tag, value) => unsafe { tape::__real_wz_write(mem, n, tag as u32, KIND_INT, value as u64) },
            Next::Stop => unsafe { tape::__real_wz_stop(mem, n) },
        };
        assert_eq!(code, 0, "a write or a stop");
    }

    fn see(&self, desk: &mut Desk, reply: &Reply) {
        let count = reply.count as usize;
        if reply.kind == VALUES {
            desk.see(reply, self.out[..CHANGE * count].chunks_exact(8).map(|c| cell(c, 0)));
        } else {
            desk.see(reply, self.out[..LISTED * count].chunks_exact(LISTED).map(tag_in));
        }
    }

    /// An engine from its creation to its stop.
    pub(super) fn run(&mut self, plan: &Plan, handed: &mut Handed, mut desk: Desk) -> Desk {
        desk.begin();
        self.create(handed);
        for (tag, tier) in &plan.calls {
            self.set_tier(0.0, *tag, *tier);
        }
        let mut reply = self.step(&desk, (BEGIN, 0, &[]));
        loop {
            if desk.seen.is_some() {
                self.see(&mut desk, &reply);
            }
            match reply.kind {
                STOPPED => return desk,
                WAIT => {
                    let next = desk.wait(reply.seconds);
                    self.next(next);
                }
                _ => {}
            }
            let answer = handed.answer(&reply, &self.out, &mut desk);
            reply = self.step(&desk, answer);
        }
    }
}

/// What our host does by itself in a round: the list of a read, its results, and a look at the changes.
pub(super) fn alone(plan: &Plan, rounds: u64) -> Duration {
    let (mut handed, mut desk) = (Handed::new(&plan.head), Desk::new(plan, rounds));
    let n = plan.head.names.len();
    let list = vec![1; CHANGE * n];
    let begun = used();
    for _ in 0..rounds {
        desk.turn += 1;
        std::hint::black_box(handed.results(&mut desk, std::hint::black_box(&list[..LISTED * n])));
        changes(&mut desk, std::hint::black_box(&list));
    }
    std::hint::black_box(desk.sum);
    used() - begun
}

//! The calls of exported functions, as they are made: frames for crates/replay (FORMAT.md, recorded answers). The program is
//! linked so that each call comes here first (`--wrap` in build.sh): what is written is what went over the C boundary.

use std::cell::RefCell;
use std::collections::BTreeMap;
use wordzike::ffi;

/// Every byte of a lent list before its call.
const BEFORE: u8 = 0xa5;

/// The calls recorded so far.
#[derive(Default)]
pub(super) struct Tape {
    pub frames: Vec<u8>,
    pub histories: u64,
    pub calls: u64,
    /// Bytes of the answers: their cells, and all that was lent for their lists.
    pub bytes: usize,
    /// How often each answer of each call was recorded: its refusal, or the kind of its reply.
    pub met: BTreeMap<(&'static str, u64, u64), u64>,
    /// The last call, where it was a look: made again it is not written again.
    last: Vec<u8>,
}

thread_local! {
    static TAPE: RefCell<Option<Tape>> = const { RefCell::new(None) };
}

const CALLS: [&str; 14] = [
    "",
    "create",
    "set_tier",
    "load",
    "write",
    "stop",
    "step",
    "state",
    "stats",
    "tier_counts",
    "group_stats",
    "table",
    "panel",
    "tag",
];

fn put_list(frame: &mut Vec<u8>, list: &[u8]) {
    frame.extend_from_slice(&u32::try_from(list.len()).expect("a list below 4 GiB").to_le_bytes());
    frame.extend_from_slice(list);
}

fn bytes_of(cells: &[u64]) -> Vec<u8> {
    cells.iter().flat_map(|c| c.to_le_bytes()).collect()
}

impl Tape {
    /// Records the calls that `run` makes.
    pub fn with(self, run: impl FnOnce()) -> Tape {
        TAPE.set(Some(self));
        run();
        TAPE.take().expect("the tape that was set")
    }

    /// The last frame.
    pub fn end(&mut self) {
        let end = [vec![14], bytes_of(&[self.histories, self.calls])].concat();
        put_list(&mut self.frames, &end);
    }

    fn put(&mut self, op: u8, frame: Vec<u8>, cells: &[u64], room: usize) {
        if op > 6 && frame == self.last {
            return;
        }
        self.histories += u64::from(op == 1);
        self.calls += 1;
        self.bytes += 8 * cells.len() + room;
        let kind = if op == 6 { cells[1] } else { 0 };
        *self.met.entry((CALLS[usize::from(op)], cells[0], kind)).or_default() += 1;
        put_list(&mut self.frames, &frame);
        self.last = frame;
    }
}

/// Makes a call, and writes its frame where calls are being recorded. `answer` gives the cells of the answer, and how many
/// bytes of the lent list are its.
fn taped<R>(
    (op, mem): (u8, usize),
    numbers: &[u64],
    lists: &[&[u8]],
    out: &mut [u8],
    call: impl FnOnce(&mut [u8]) -> R,
    answer: impl Fn(&R) -> (Vec<u64>, u64),
) -> R {
    let recording = TAPE.with_borrow(Option::is_some);
    if recording {
        out.fill(BEFORE);
    }
    let r = call(out);
    if !recording {
        return r;
    }
    let (cells, size) = answer(&r);
    let (front, behind) = out.split_at(size as usize);
    assert!(behind.iter().all(|b| *b == BEFORE), "{}: written behind its list", CALLS[usize::from(op)]);
    let mut frame = vec![op];
    frame.extend_from_slice(&(mem as u32).to_le_bytes());
    frame.extend_from_slice(&(out.len() as u32).to_le_bytes());
    frame.extend_from_slice(&bytes_of(numbers));
    for list in lists {
        put_list(&mut frame, list);
    }
    put_list(&mut frame, &bytes_of(&cells));
    put_list(&mut frame, front);
    TAPE.with_borrow_mut(|tape| tape.as_mut().expect("a tape").put(op, frame, &cells, out.len()));
    r
}

fn code(r: &u32) -> (Vec<u64>, u64) {
    (vec![u64::from(*r)], 0)
}

/// The cells that each kind of reply names, beside the code and the kind.
const NAMED: [&[usize]; 15] =
    [&[], &[], &[], &[2], &[3, 5, 6], &[2], &[2], &[9], &[2], &[4], &[], &[2], &[3, 4, 5, 6, 7, 8], &[2], &[2]];

fn reply(r: &ffi::Reply) -> (Vec<u64>, u64) {
    let ffi::Reply { code, kind, count, tag, what, value, error, seconds } = *r;
    let cells = [code, kind, count, tag, what, value.kind, value.word, error.kind, error.message, seconds.to_bits()];
    let mut unnamed = (2..cells.len()).filter(|k| !NAMED[r.kind as usize].contains(k));
    assert!(unnamed.all(|k| cells[k] == 0), "a reply has more than its kind names: {r:?}");
    (cells.to_vec(), r.count * if r.kind == 8 { 72 } else { 2 })
}

fn listed(size: u64) -> impl Fn(&ffi::ListLook) -> (Vec<u64>, u64) {
    move |r| (vec![r.code, r.count], size * r.count)
}

// ------------------------------------------------------------------------------------------ each call on its way

/// Lent memory as a slice; with length 0 the address doesn't count.
unsafe fn lent<'a, T>(at: *const T, length: usize) -> &'a [T] {
    if length == 0 { &[] } else { unsafe { std::slice::from_raw_parts(at, length) } }
}

unsafe fn lent_mut<'a>(at: *mut u8, length: usize) -> &'a mut [u8] {
    if length == 0 { &mut [] } else { unsafe { std::slice::from_raw_parts_mut(at, length) } }
}

type Mem = *mut u8;
type Bytes = *const u8;

unsafe extern "C" {
    pub(super) fn __real_wz_create(
        mem: Mem,
        n: usize,
        names: Bytes,
        names_len: usize,
        ends: *const u32,
        ends_len: usize,
        options: ffi::Options,
        settings: Bytes,
        settings_len: usize,
        groups: Bytes,
        groups_len: usize,
    ) -> u32;
    pub(super) fn __real_wz_set_tier(mem: Mem, n: usize, clock: f64, tag: u32, tier: u32) -> u32;
    fn __real_wz_load(mem: Mem, n: usize, clock: f64, list: Bytes, list_len: usize) -> u32;
    pub(super) fn __real_wz_write(mem: Mem, n: usize, tag: u32, kind: u64, word: u64) -> u32;
    pub(super) fn __real_wz_stop(mem: Mem, n: usize) -> u32;
    pub(super) fn __real_wz_step(
        mem: Mem,
        n: usize,
        clock: f64,
        wall: i64,
        kind: u64,
        number: u64,
        message: u64,
        list: Bytes,
        list_len: usize,
        out: Mem,
        out_len: usize,
    ) -> ffi::Reply;
    fn __real_wz_state(mem: Bytes, n: usize) -> ffi::StateLook;
    fn __real_wz_stats(mem: Bytes, n: usize) -> ffi::StatsLook;
    fn __real_wz_tier_counts(mem: Bytes, n: usize) -> ffi::CountsLook;
    fn __real_wz_group_stats(mem: Bytes, n: usize, out: Mem, out_len: usize) -> ffi::ListLook;
    pub(super) fn __real_wz_table(mem: Bytes, n: usize, out: Mem, out_len: usize) -> ffi::ListLook;
    fn __real_wz_panel(mem: Bytes, n: usize, out: Mem, out_len: usize) -> ffi::ListLook;
    fn __real_wz_tag(mem: Bytes, n: usize, tag: u32) -> ffi::TagLook;
}

#[unsafe(no_mangle)]
unsafe extern "C" fn __wrap_wz_create(
    mem: Mem,
    n: usize,
    names: Bytes,
    names_len: usize,
    ends: *const u32,
    ends_len: usize,
    options: ffi::Options,
    settings: Bytes,
    settings_len: usize,
    groups: Bytes,
    groups_len: usize,
) -> u32 {
    let places: Vec<u8> = unsafe { lent(ends, ends_len) }.iter().flat_map(|e| e.to_le_bytes()).collect();
    let [a, b, c] = unsafe { [lent(names, names_len), lent(settings, settings_len), lent(groups, groups_len)] };
    let ffi::Options { cycle, period, grace } = options;
    let call = |_: &mut [u8]| unsafe {
        __real_wz_create(mem, n, names, names_len, ends, ends_len, options, settings, settings_len, groups, groups_len)
    };
    taped((1, n), &[cycle, period, grace].map(f64::to_bits), &[a, &places, b, c], &mut [], call, code)
}

#[unsafe(no_mangle)]
unsafe extern "C" fn __wrap_wz_set_tier(mem: Mem, n: usize, clock: f64, tag: u32, tier: u32) -> u32 {
    let call = |_: &mut [u8]| unsafe { __real_wz_set_tier(mem, n, clock, tag, tier) };
    taped((2, n), &[clock.to_bits(), tag.into(), tier.into()], &[], &mut [], call, code)
}

#[unsafe(no_mangle)]
unsafe extern "C" fn __wrap_wz_load(mem: Mem, n: usize, clock: f64, list: Bytes, list_len: usize) -> u32 {
    let call = |_: &mut [u8]| unsafe { __real_wz_load(mem, n, clock, list, list_len) };
    taped((3, n), &[clock.to_bits()], &[unsafe { lent(list, list_len) }], &mut [], call, code)
}

#[unsafe(no_mangle)]
unsafe extern "C" fn __wrap_wz_write(mem: Mem, n: usize, tag: u32, kind: u64, word: u64) -> u32 {
    let call = |_: &mut [u8]| unsafe { __real_wz_write(mem, n, tag, kind, word) };
    taped((4, n), &[tag.into(), kind, word], &[], &mut [], call, code)
}

#[unsafe(no_mangle)]
unsafe extern "C" fn __wrap_wz_stop(mem: Mem, n: usize) -> u32 {
    taped((5, n), &[], &[], &mut [], |_| unsafe { __real_wz_stop(mem, n) }, code)
}

#[unsafe(no_mangle)]
unsafe extern "C" fn __wrap_wz_step(
    mem: Mem,
    n: usize,
    clock: f64,
    wall: i64,
    kind: u64,
    number: u64,
    message: u64,
    list: Bytes,
    list_len: usize,
    out: Mem,
    out_len: usize,
) -> ffi::Reply {
    let numbers = [clock.to_bits(), wall as u64, kind, number, message];
    let call = |to: &mut [u8]| unsafe {
        __real_wz_step(mem, n, clock, wall, kind, number, message, list, list_len, to.as_mut_ptr(), to.len())
    };
    let (list, out) = unsafe { (lent(list, list_len), lent_mut(out, out_len)) };
    taped((6, n), &numbers, &[list], out, call, reply)
}

#[unsafe(no_mangle)]
unsafe extern "C" fn __wrap_wz_state(mem: Bytes, n: usize) -> ffi::StateLook {
    let cells = |r: &ffi::StateLook| (vec![r.code, r.state, r.known, r.version], 0);
    taped((7, n), &[], &[], &mut [], |_| unsafe { __real_wz_state(mem, n) }, cells)
}

#[unsafe(no_mangle)]
unsafe extern "C" fn __wrap_wz_stats(mem: Bytes, n: usize) -> ffi::StatsLook {
    let cells = |r: &ffi::StatsLook| {
        let (ms, ts) = (r.ms.to_bits(), r.ts as u64);
        (vec![r.code, r.timed, ms, ts, r.reads, r.tags, r.overruns, r.reconnects, r.reloads], 0)
    };
    taped((8, n), &[], &[], &mut [], |_| unsafe { __real_wz_stats(mem, n) }, cells)
}

#[unsafe(no_mangle)]
unsafe extern "C" fn __wrap_wz_tier_counts(mem: Bytes, n: usize) -> ffi::CountsLook {
    let cells = |r: &ffi::CountsLook| (vec![r.code, r.tier1, r.tier2, r.tier3], 0);
    taped((9, n), &[], &[], &mut [], |_| unsafe { __real_wz_tier_counts(mem, n) }, cells)
}

#[unsafe(no_mangle)]
unsafe extern "C" fn __wrap_wz_group_stats(mem: Bytes, n: usize, out: Mem, out_len: usize) -> ffi::ListLook {
    let call = |to: &mut [u8]| unsafe { __real_wz_group_stats(mem, n, to.as_mut_ptr(), to.len()) };
    taped((10, n), &[], &[], unsafe { lent_mut(out, out_len) }, call, listed(40))
}

#[unsafe(no_mangle)]
unsafe extern "C" fn __wrap_wz_table(mem: Bytes, n: usize, out: Mem, out_len: usize) -> ffi::ListLook {
    let call = |to: &mut [u8]| unsafe { __real_wz_table(mem, n, to.as_mut_ptr(), to.len()) };
    taped((11, n), &[], &[], unsafe { lent_mut(out, out_len) }, call, listed(16))
}

#[unsafe(no_mangle)]
unsafe extern "C" fn __wrap_wz_panel(mem: Bytes, n: usize, out: Mem, out_len: usize) -> ffi::ListLook {
    let call = |to: &mut [u8]| unsafe { __real_wz_panel(mem, n, to.as_mut_ptr(), to.len()) };
    taped((12, n), &[], &[], unsafe { lent_mut(out, out_len) }, call, listed(1))
}

#[unsafe(no_mangle)]
unsafe extern "C" fn __wrap_wz_tag(mem: Bytes, n: usize, tag: u32) -> ffi::TagLook {
    let cells = |r: &ffi::TagLook| {
        let ffi::Entry { quality, value, t, error, has_g, g } = r.entry;
        let entry = [quality, value.kind, value.word, t as u64, error.kind, error.message, has_g, g as u64];
        ([&[r.code, r.tier], &entry[..], &[r.description]].concat(), 0)
    };
    taped((13, n), &[tag.into()], &[], &mut [], |_| unsafe { __real_wz_tag(mem, n, tag) }, cells)
}

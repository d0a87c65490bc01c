//! The exported functions as they are, on slices; include/wordzike.h says what each does. The only file with `unsafe`:
//! the functions take every content and every length, so that slices are all that safety needs.

/// `wz_value`.
#[repr(C)]
#[derive(Clone, Copy, Debug, PartialEq)]
#[allow(missing_docs)]
pub struct Value {
    pub kind: u64,
    pub word: u64,
}

/// `wz_error`.
#[repr(C)]
#[derive(Clone, Copy, Debug, PartialEq)]
#[allow(missing_docs)]
pub struct Error {
    pub kind: u64,
    pub message: u64,
}

/// `wz_entry`.
#[repr(C)]
#[derive(Clone, Copy, Debug, PartialEq)]
#[allow(missing_docs)]
pub struct Entry {
    pub quality: u64,
    pub value: Value,
    pub t: i64,
    pub error: Error,
    pub has_g: u64,
    pub g: i64,
}

/// `wz_options`.
#[repr(C)]
#[derive(Clone, Copy, Debug, PartialEq)]
#[allow(missing_docs)]
pub struct Options {
    pub cycle: f64,
    pub period: f64,
    pub grace: f64,
}

/// What a step gives: `wz_reply`.
#[repr(C)]
#[derive(Clone, Copy, Debug, PartialEq)]
#[allow(missing_docs)]
pub struct Reply {
    pub code: u64,
    pub kind: u64,
    pub count: u64,
    pub tag: u64,
    pub what: u64,
    pub value: Value,
    pub error: Error,
    pub seconds: f64,
}

/// `wz_state_look`.
#[repr(C)]
#[derive(Clone, Copy, Debug, PartialEq)]
#[allow(missing_docs)]
pub struct StateLook {
    pub code: u64,
    pub state: u64,
    pub known: u64,
    pub version: u64,
}

/// `wz_stats_look`.
#[repr(C)]
#[derive(Clone, Copy, Debug, PartialEq)]
#[allow(missing_docs)]
pub struct StatsLook {
    pub code: u64,
    pub timed: u64,
    pub ms: f64,
    pub ts: i64,
    pub reads: u64,
    pub tags: u64,
    pub overruns: u64,
    pub reconnects: u64,
    pub reloads: u64,
}

/// `wz_counts_look`.
#[repr(C)]
#[derive(Clone, Copy, Debug, PartialEq)]
#[allow(missing_docs)]
pub struct CountsLook {
    pub code: u64,
    pub tier1: u64,
    pub tier2: u64,
    pub tier3: u64,
}

/// `wz_list_look`.
#[repr(C)]
#[derive(Clone, Copy, Debug, PartialEq)]
#[allow(missing_docs)]
pub struct ListLook {
    pub code: u64,
    pub count: u64,
}

/// `wz_tag_look`.
#[repr(C)]
#[derive(Clone, Copy, Debug, PartialEq)]
#[allow(missing_docs)]
pub struct TagLook {
    pub code: u64,
    pub tier: u64,
    pub entry: Entry,
    pub description: u64,
}

unsafe extern "C" {
    fn wz_interface() -> u64;
    fn wz_create(
        mem: *mut u8,
        mem_len: usize,
        names: *const u8,
        names_len: usize,
        ends: *const u32,
        ends_len: usize,
        options: Options,
        settings: *const u8,
        settings_len: usize,
        groups: *const u8,
        groups_len: usize,
    ) -> u32;
    fn wz_set_tier(mem: *mut u8, mem_len: usize, clock: f64, tag: u32, tier: u32) -> u32;
    fn wz_load(mem: *mut u8, mem_len: usize, clock: f64, list: *const u8, list_len: usize) -> u32;
    fn wz_write(mem: *mut u8, mem_len: usize, tag: u32, kind: u64, word: u64) -> u32;
    fn wz_stop(mem: *mut u8, mem_len: usize) -> u32;
    fn wz_step(
        mem: *mut u8,
        mem_len: usize,
        clock: f64,
        wall: i64,
        kind: u64,
        number: u64,
        message: u64,
        list: *const u8,
        list_len: usize,
        out: *mut u8,
        out_len: usize,
    ) -> Reply;
    fn wz_state(mem: *const u8, mem_len: usize) -> StateLook;
    fn wz_stats(mem: *const u8, mem_len: usize) -> StatsLook;
    fn wz_tier_counts(mem: *const u8, mem_len: usize) -> CountsLook;
    fn wz_group_stats(mem: *const u8, mem_len: usize, out: *mut u8, out_len: usize) -> ListLook;
    fn wz_table(mem: *const u8, mem_len: usize, out: *mut u8, out_len: usize) -> ListLook;
    fn wz_panel(mem: *const u8, mem_len: usize, out: *mut u8, out_len: usize) -> ListLook;
    fn wz_tag(mem: *const u8, mem_len: usize, tag: u32) -> TagLook;
    fn wz_memory_size(count: u32) -> u64;
    fn wz_list_size(count: u32) -> u64;
    fn wz_group_stats_size() -> u64;
    fn wz_table_size(count: u32) -> u64;
    fn wz_panel_size() -> u64;
}

/// `wz_interface`.
pub fn interface() -> u64 {
    unsafe { wz_interface() }
}

/// `wz_create`.
pub fn create(mem: &mut [u8], names: &[u8], ends: &[u32], options: Options, settings: &[u8], groups: &[u8]) -> u32 {
    unsafe {
        wz_create(
            mem.as_mut_ptr(),
            mem.len(),
            names.as_ptr(),
            names.len(),
            ends.as_ptr(),
            ends.len(),
            options,
            settings.as_ptr(),
            settings.len(),
            groups.as_ptr(),
            groups.len(),
        )
    }
}

/// `wz_set_tier`.
pub fn set_tier(mem: &mut [u8], clock: f64, tag: u32, tier: u32) -> u32 {
    unsafe { wz_set_tier(mem.as_mut_ptr(), mem.len(), clock, tag, tier) }
}

/// `wz_load`.
pub fn load(mem: &mut [u8], clock: f64, list: &[u8]) -> u32 {
    unsafe { wz_load(mem.as_mut_ptr(), mem.len(), clock, list.as_ptr(), list.len()) }
}

/// `wz_write`.
pub fn write(mem: &mut [u8], tag: u32, kind: u64, word: u64) -> u32 {
    unsafe { wz_write(mem.as_mut_ptr(), mem.len(), tag, kind, word) }
}

/// `wz_stop`.
pub fn stop(mem: &mut [u8]) -> u32 {
    unsafe { wz_stop(mem.as_mut_ptr(), mem.len()) }
}

/// `wz_step`; the answer is its kind, number and message.
pub fn step(mem: &mut [u8], clock: f64, wall: i64, answer: [u64; 3], list: &[u8], out: &mut [u8]) -> Reply {
    let [kind, number, message] = answer;
    unsafe {
        wz_step(
            mem.as_mut_ptr(),
            mem.len(),
            clock,
            wall,
            kind,
            number,
            message,
            list.as_ptr(),
            list.len(),
            out.as_mut_ptr(),
            out.len(),
        )
    }
}

/// `wz_state`.
pub fn state(mem: &[u8]) -> StateLook {
    unsafe { wz_state(mem.as_ptr(), mem.len()) }
}

/// `wz_stats`.
pub fn stats(mem: &[u8]) -> StatsLook {
    unsafe { wz_stats(mem.as_ptr(), mem.len()) }
}

/// `wz_tier_counts`.
pub fn tier_counts(mem: &[u8]) -> CountsLook {
    unsafe { wz_tier_counts(mem.as_ptr(), mem.len()) }
}

/// `wz_group_stats`.
pub fn group_stats(mem: &[u8], out: &mut [u8]) -> ListLook {
    unsafe { wz_group_stats(mem.as_ptr(), mem.len(), out.as_mut_ptr(), out.len()) }
}

/// `wz_table`.
pub fn table(mem: &[u8], out: &mut [u8]) -> ListLook {
    unsafe { wz_table(mem.as_ptr(), mem.len(), out.as_mut_ptr(), out.len()) }
}

/// `wz_panel`.
pub fn panel(mem: &[u8], out: &mut [u8]) -> ListLook {
    unsafe { wz_panel(mem.as_ptr(), mem.len(), out.as_mut_ptr(), out.len()) }
}

/// `wz_tag`.
pub fn tag(mem: &[u8], tag: u32) -> TagLook {
    unsafe { wz_tag(mem.as_ptr(), mem.len(), tag) }
}

/// `wz_memory_size`.
pub fn memory_size(count: u32) -> u64 {
    unsafe { wz_memory_size(count) }
}

/// `wz_list_size`.
pub fn list_size(count: u32) -> u64 {
    unsafe { wz_list_size(count) }
}

/// `wz_group_stats_size`.
pub fn group_stats_size() -> u64 {
    unsafe { wz_group_stats_size() }
}

/// `wz_table_size`.
pub fn table_size(count: u32) -> u64 {
    unsafe { wz_table_size(count) }
}

/// `wz_panel_size`.
pub fn panel_size() -> u64 {
    unsafe { wz_panel_size() }
}

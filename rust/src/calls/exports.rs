//! The engine's exports. A slice is a pointer and a length in words; the reply's upper half says which answer, its lower
//! half the answer's number. The number of an interval is departure·2¹⁶ + arrival.

extern "C" {
    pub fn herd_open(table: *mut u32, words: usize, animals: u32, ticks: u32, carry: u32) -> u64;
    pub fn herd_add(table: *mut u32, words: usize, u: u32, v: u32, t: u32) -> u64;
    pub fn herd_join(
        first: *mut u32,
        first_words: usize,
        second: *const u32,
        second_words: usize,
    ) -> u64;
    pub fn herd_stays(table: *mut u32, words: usize, stays: *const u32, stay_words: usize) -> u64;
    pub fn herd_remove(
        table: *mut u32,
        words: usize,
        work: *mut u32,
        work_words: usize,
        u: u32,
        v: u32,
        t: u32,
    ) -> u64;
    pub fn herd_read_log(log: *const u32, words: usize, table: *mut u32, room: usize) -> u64;
    pub fn herd_write_log(table: *const u32, words: usize, buffer: *mut u32, room: usize) -> u64;
    pub fn herd_reach(
        table: *const u32,
        words: usize,
        u: u32,
        v: u32,
        first: u32,
        last: u32,
    ) -> u64;
    pub fn herd_earliest(table: *const u32, words: usize, u: u32, v: u32, first: u32) -> u64;
    pub fn herd_latest(table: *const u32, words: usize, u: u32, v: u32, last: u32) -> u64;
    pub fn herd_connected(table: *const u32, words: usize, first: u32, last: u32) -> u64;
    pub fn herd_reached(
        table: *const u32,
        words: usize,
        u: u32,
        first: u32,
        last: u32,
        set: *mut u32,
        room: usize,
    ) -> u64;
    pub fn herd_chain(
        table: *const u32,
        words: usize,
        u: u32,
        v: u32,
        first: u32,
        last: u32,
        buffer: *mut u32,
        room: usize,
    ) -> u64;
    pub fn herd_claimed(
        table: *const u32,
        words: usize,
        u: u32,
        v: u32,
        first: u32,
        last: u32,
        chain: *const u32,
        contacts: usize,
    ) -> u64;
}

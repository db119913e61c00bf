//! What a make takes of the program's memory.

use crate::{boards, Known, Mechanism};

/// What the library asks for while it makes a register, a fan or a board: exactly, if it is of this crate's release. For a program that gives
/// it memory of its own, by `nidzaru_allocate` and `nidzaru_release`.
///
/// Each request is a multiple of 64 bytes, so if they are given out one behind the other, a block of so many bytes that is aligned to 16 has room
/// for them.
#[derive(Clone, Copy, Debug, PartialEq, Eq)]
pub struct Memory {
    /// The bytes of all requests. Some of them are given back before all is made.
    pub bytes: usize,
    /// How many requests they are.
    pub requests: usize,
}

/// What is asked for while a register is made.
///
/// ```
/// const NEEDED: nidzaru::Memory = nidzaru::register_memory::<[u64; 8], nidzaru::FourSlot>();
/// assert_eq!(NEEDED.requests, 6);
/// ```
pub const fn register_memory<T: Copy + Send, M: Mechanism>() -> Memory {
    of_register(Known::<T, M>::CALLS.size(), M::TRIPLE)
}

/// The same of a fan of `N` readers: a register for each.
pub const fn fan_memory<T: Copy + Send, M: Mechanism, const N: usize>() -> Memory {
    let each = register_memory::<T, M>();
    Memory { bytes: N * each.bytes, requests: N * each.requests }
}

/// The same of a board of `n` places, of which there are 2 to 16. (What has the places, as a `Vec`, is no memory of the library's.)
pub const fn board_memory<T: Copy + Send, M: Mechanism>(n: usize) -> Memory {
    assert!(2 <= n && n <= 16, "a board has 2 to 16 places");
    of_board(boards::Known::<T, M>::CALLS.size(), M::TRIPLE, n)
}

/// How many bytes the library asks for if its code wants so many: whole lines of the cache, and one more.
const fn lines(bytes: usize) -> usize {
    bytes.next_multiple_of(64) + 64
}

pub(crate) const fn of_register(size: usize, triple: bool) -> Memory {
    // A slot is a record and its number. The slots are first put into a list, which has room for four at once, or if they are large for one, two
    // and four; then they lie beside the control words. Both sides share a block that leads there, and each has one of its own.
    let slot = size + 8;
    let grows = slot > 1024;
    let list = lines(4 * slot) + if grows { lines(slot) + lines(2 * slot) } else { 0 };
    let (slots, words, writer) = if triple { (3, 8, 24) } else { (4, 256, 40) };
    let bytes = list + lines(slots * slot) + lines(words) + lines(72) + lines(writer) + lines(16);
    Memory { bytes, requests: if grows { 8 } else { 6 } }
}

pub(crate) const fn of_board(size: usize, triple: bool, n: usize) -> Memory {
    // Words and slots of all registers are first put into a list each. That of the words grows once, as eight words for each place stand behind
    // the registers'. A seat is what a place knows of the registers, a pass all that it has: there are two lists of seats and one of passes, two of
    // places and one of what handles lead to. The board is a block, and each place has two, and all but one room for a seat.
    let (stride, slots, stored) = if triple { (8, 3, 272) } else { (16, 4, 528) };
    let record = size + 16;
    let seat = stored + record;
    let pass = seat + record + 40;
    let words = 8 * (stride * n * n + 8);
    let cells = lines(words) + lines(2 * words) + lines(words + 64 * n) + 2 * lines(slots * n * n * record);
    let lists = 2 * lines(n * seat) + lines(n * pass) + 2 * lines(16 * n) + lines(8 * n);
    let blocks = lines(record + 88) + n * (lines(pass) + lines(16)) + (n - 1) * lines(seat);
    Memory { bytes: cells + lists + blocks, requests: 3 * n + 11 }
}

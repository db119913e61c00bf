//! What a make takes is what the crate says beforehand: memory of just so many bytes, given out in just so many parts, serves it. If a byte or a
//! request is missing, memory was refused, and all that was taken is given back.

// (with that feature the crate has both functions)
#![cfg(not(feature = "shared"))]

use nidzaru::{board_memory, board_over, fan_memory, fan_over, register_memory, register_over, BoardError};
use nidzaru::{FourSlot, Mechanism, Memory, OutOfMemory, Triple};
use std::cell::RefCell;
use std::ffi::c_void;
use std::ptr;
use std::thread;

/// What a thread's makes may take and have taken. It begins where no line of the cache does.
struct Given {
    memory: Vec<u64>,
    left: Memory,
    taken: Memory,
    live: usize,
}

const NONE: Memory = Memory { bytes: 0, requests: 0 };

thread_local! {
    static GIVEN: RefCell<Given> = const { RefCell::new(Given { memory: Vec::new(), left: NONE, taken: NONE, live: 0 }) };
}

impl Given {
    fn take(&mut self, bytes: usize) -> *mut c_void {
        if self.left.requests == 0 || self.left.bytes < bytes {
            return ptr::null_mut();
        }
        self.left = Memory { bytes: self.left.bytes - bytes, requests: self.left.requests - 1 };
        let from = self.memory.as_mut_ptr();
        let first = 2 + (64 - from as usize % 64) / 8;
        let part = &mut self.memory[first + self.taken.bytes / 8..][..bytes / 8];
        self.taken = Memory { bytes: self.taken.bytes + bytes, requests: self.taken.requests + 1 };
        self.live += 1;
        part.as_mut_ptr().cast()
    }
}

#[no_mangle]
extern "C" fn nidzaru_allocate(bytes: usize) -> *mut c_void {
    GIVEN.with_borrow_mut(|it| it.take(bytes))
}

#[no_mangle]
extern "C" fn nidzaru_release(_: *mut c_void) {
    GIVEN.with_borrow_mut(|it| it.live -= 1);
}

/// What a make comes to with this memory: whether it was made, and what it took. Nothing of it stays.
fn try_with(given: Memory, make: &impl Fn() -> bool) -> (bool, Memory) {
    let memory = vec![0; given.bytes / 8 + 16];
    GIVEN.set(Given { memory, left: given, taken: NONE, live: 0 });
    let is_made = make();
    GIVEN.with_borrow(|it| {
        assert_eq!(it.live, 0, "a part stays");
        (is_made, it.taken)
    })
}

fn sees(needed: Memory, make: impl Fn() -> bool) {
    assert_eq!(try_with(needed, &make), (true, needed));
    assert!(!try_with(Memory { bytes: needed.bytes - 1, ..needed }, &make).0, "a byte less is enough");
    assert!(!try_with(Memory { requests: needed.requests - 1, ..needed }, &make).0, "a request less is enough");
}

fn sees_register<const SIZE: usize, M: Mechanism>() {
    sees(register_memory::<[u8; SIZE], M>(), || match register_over::<_, M>([0_u8; SIZE]) {
        Ok(_) => true,
        Err(OutOfMemory) => false,
    });
}

fn sees_fan<const SIZE: usize, M: Mechanism, const N: usize>() {
    sees(fan_memory::<[u8; SIZE], M, N>(), || match fan_over::<_, M, N>([0_u8; SIZE]) {
        Ok(_) => true,
        Err(OutOfMemory) => false,
    });
}

fn sees_boards<const SIZE: usize, M: Mechanism>() {
    for n in 2..=16 {
        sees(board_memory::<[u8; SIZE], M>(n), || match board_over::<_, M>(n, [0_u8; SIZE]) {
            Ok(_) => true,
            Err(why) => {
                assert_eq!(why, BoardError::OutOfMemory);
                false
            }
        });
    }
}

/// Calls a function with each of the sizes and both mechanisms.
macro_rules! at_each_size {
    ($sees:ident, $($size:literal)*) => {$(
        $sees::<$size, FourSlot>();
        $sees::<$size, Triple>();
    )*};
}

#[test]
fn registers() {
    // (records that are copied come to the stack)
    let run = || {
        at_each_size!(sees_register, 1 8 9 24 25 64 65 128 129 256 257 1024 1025 4096 4097 65536 65537 1048576);
    };
    thread::Builder::new().stack_size(32 << 20).spawn(run).unwrap().join().unwrap();
}

#[test]
fn fans() {
    sees_fan::<1, FourSlot, 1>();
    sees_fan::<24, FourSlot, 3>();
    sees_fan::<257, Triple, 2>();
    sees_fan::<4096, Triple, 16>();
}

#[test]
fn boards() {
    at_each_size!(sees_boards, 1 24 25 256 257 4096);
}

#[test]
#[should_panic(expected = "2 to 16 places")]
fn a_board_of_one_place() {
    board_memory::<u64, FourSlot>(1);
}

//! Under ThreadSanitizer, as c/tests/pairs.c for C. Pairs of a plain store and a plain load in two threads whose only order is one call: a
//! read, a look, news, a hold, also of what was published in place, or a board's read, by sides and places that were moved since they were
//! made. In one half of the pairs the write stands still behind the library's own call, until the other thread has read and loaded; in the
//! other half the read stands still before it, until the other thread has stored and written. So an order that is told after the write, or
//! looked for before the read, is a race in each run.
//! And a slot that a reader held and a writer then fills, whose only order is the reader's next call and the loan.
//! usage: pairs clean       nothing is to be reported
//!        pairs unread      one pair without its call: a race, which is to be reported
//!        pairs other       one pair whose read is of another register than its write: a race, which is to be reported
//! Link with the --wrap words of tests/library/rust.sh.

use nidzaru::{Place, Reader, Since, Stamp, Triple, Writer};
use std::cell::UnsafeCell;
use std::ffi::c_void;
use std::process::ExitCode;
use std::sync::atomic::{AtomicBool, AtomicU32, Ordering::Relaxed};
use std::thread;

const ROUNDS: usize = 4;
const LENT: u32 = 8;

#[derive(Clone, Copy, Debug, PartialEq)]
enum Call {
    Latest,
    ReadInto,
    Copied,
    Look,
    News,
    Hold,
    Published,
    Read,
    PlaceReadInto,
    ReadSince,
    PlaceNews,
    PlaceCopied,
    /// A read of another register.
    Other,
    None,
}

const CALLS: [Call; 12] = [
    Call::Latest,
    Call::ReadInto,
    Call::Copied,
    Call::Look,
    Call::News,
    Call::Hold,
    Call::Published,
    Call::Read,
    Call::PlaceReadInto,
    Call::ReadSince,
    Call::PlaceNews,
    Call::PlaceCopied,
];

/// Steps that order nothing that ThreadSanitizer knows of, and a call of the library that stands still between them, once.
static STEP: AtomicU32 = AtomicU32::new(0);
static ARMED: AtomicBool = AtomicBool::new(false);
static BEFORE_READ: AtomicBool = AtomicBool::new(false);

fn reach(step: u32) {
    STEP.store(step, Relaxed);
}

fn wait_for(step: u32) {
    while STEP.load(Relaxed) < step {
        thread::yield_now();
    }
}

fn stand_still(before_read: bool) {
    if before_read == BEFORE_READ.load(Relaxed) && ARMED.swap(false, Relaxed) {
        reach(1);
        wait_for(2);
    }
}

macro_rules! stands_still {
    ($before_read:literal, $real:ident, $wrap:ident, $($name:ident),*) => {
        extern "C" {
            fn $real($($name: *mut c_void),*) -> u32;
        }
        #[no_mangle]
        unsafe extern "C" fn $wrap($($name: *mut c_void),*) -> u32 {
            if $before_read {
                stand_still(true);
            }
            let status = unsafe { $real($($name),*) };
            if !$before_read {
                stand_still(false);
            }
            status
        }
    };
}

stands_still!(false, __real_nidzaru_24_write, __wrap_nidzaru_24_write, side, item);
stands_still!(true, __real_nidzaru_24_read, __wrap_nidzaru_24_read, side, item, number);
stands_still!(true, __real_nidzaru_24_look, __wrap_nidzaru_24_look, side, number);
stands_still!(false, __real_nidzaru_triple_24_write, __wrap_nidzaru_triple_24_write, side, item);
stands_still!(false, __real_nidzaru_triple_24_publish, __wrap_nidzaru_triple_24_publish, side);
stands_still!(true, __real_nidzaru_triple_24_look, __wrap_nidzaru_triple_24_look, side, number);
stands_still!(false, __real_nidzaru_board_24_write, __wrap_nidzaru_board_24_write, side, item, stamp);
stands_still!(true, __real_nidzaru_board_24_read, __wrap_nidzaru_board_24_read, side, item, stamp);
stands_still!(true, __real_nidzaru_board_24_read_since, __wrap_nidzaru_board_24_read_since, side, least, item, stamp);

/// What one thread stores and the other loads.
struct Shared(UnsafeCell<u64>);

// The pair of each call is ordered by it: that is what is tested.
unsafe impl Sync for Shared {}

/// A record that is passed where it lies, and one that is copied.
type Words = [u64; 3];
type Halves = [u32; 6];

/// All sides and places that a round uses.
struct Round {
    words: (Writer<Words>, Reader<Words>),
    halves: (Writer<Halves>, Reader<Halves>),
    lent: (Writer<Words, Triple>, Reader<Words, Triple>),
    places: Vec<Place<Words>>,
    small: Vec<Place<Halves>>,
}

impl Round {
    fn new() -> Round {
        Round {
            words: nidzaru::register([0; 3]).unwrap(),
            halves: nidzaru::register([0; 6]).unwrap(),
            lent: nidzaru::triple_register([0; 3]).unwrap(),
            places: nidzaru::board(2, [0; 3]).unwrap(),
            small: nidzaru::board(2, [0; 6]).unwrap(),
        }
    }
}

#[inline(never)]
fn store(shared: &Shared) {
    unsafe { shared.0.get().write_volatile(1) }
}

#[inline(never)]
fn load(shared: &Shared) -> u64 {
    unsafe { shared.0.get().read_volatile() }
}

fn pair(call: Call, before_read: bool, shared: &'static Shared) -> bool {
    let Round { words, halves, lent: (mut lender, mut holder), mut places, mut small } = Round::new();
    let ((mut writer, mut reader), (mut half_writer, mut half_reader)) = (words, halves);
    let (mut place, mut other) = (places.pop().unwrap(), places.pop().unwrap());
    let (mut half, mut other_half) = (small.pop().unwrap(), small.pop().unwrap());
    reach(0);
    BEFORE_READ.store(before_read, Relaxed);
    let stands_still = !matches!(call, Call::Other | Call::None);
    ARMED.store(stands_still, Relaxed);
    let storing = thread::spawn(move || {
        if before_read {
            wait_for(1);
        }
        store(shared);
        match call {
            Call::Copied => half_writer.write(&[7; 6]).unwrap(),
            Call::Hold => lender.write(&[7; 3]).unwrap(),
            Call::Published => lender.write_with(|record| *record = [7; 3]).unwrap(),
            Call::PlaceCopied => drop(half.write(&[7; 6]).unwrap()),
            Call::Read | Call::PlaceReadInto | Call::ReadSince | Call::PlaceNews => drop(place.write(&[7; 3]).unwrap()),
            _ => writer.write(&[7; 3]).unwrap(),
        }
        if before_read || !stands_still {
            reach(2);
        }
        (writer, half_writer, lender, place, half)
    });
    let loading = thread::spawn(move || {
        if !before_read && stands_still {
            wait_for(1);
        }
        let mut item = [0; 3];
        let read = match call {
            Call::Latest => reader.latest() == [7; 3],
            Call::ReadInto => reader.read_into(&mut item) == 1 && item == [7; 3],
            Call::Copied => half_reader.latest() == [7; 6],
            Call::Look => reader.look() == 1,
            Call::News => reader.news() == Some([7; 3]),
            Call::Hold | Call::Published => *holder.hold() == [7; 3] && holder.number() == 1,
            Call::Read => other.read() == [7; 3],
            Call::PlaceReadInto => other.read_into(&mut item).tag == 1 && item == [7; 3],
            Call::ReadSince => other.read_since(Stamp::new(1, 1)) == Since::Fresh([7; 3]),
            Call::PlaceNews => other.news() == Some([7; 3]),
            Call::PlaceCopied => other_half.read() == [7; 6],
            Call::Other => {
                wait_for(2);
                half_reader.latest() == [0; 6]
            }
            Call::None => {
                wait_for(2);
                true
            }
        };
        let loaded = load(shared) == 1;
        if !before_read {
            reach(2);
        }
        drop((reader, half_reader, holder, other, other_half));
        read && loaded
    });
    drop(storing.join().unwrap());
    loading.join().unwrap()
}

/// One thread reads each record where it lies, and holds another register's meanwhile; the other thread then fills the next one.
fn lends() -> bool {
    let (mut writer, mut reader) = nidzaru::triple_register([0; 3]).unwrap();
    let (_other_writer, mut other) = nidzaru::triple_register([9; 3]).unwrap();
    reach(0);
    let filling = thread::spawn(move || {
        for n in 1..=LENT {
            wait_for(2 * n - 1);
            writer.write_with(|record| *record = [u64::from(n); 3]).unwrap();
            reach(2 * n);
        }
        writer
    });
    let holding = thread::spawn(move || {
        let mut right = true;
        for n in 0..=LENT {
            wait_for(2 * n);
            let (held, also) = (reader.hold(), other.hold());
            right &= *held == [u64::from(n); 3] && *also == [9; 3];
            reach(2 * n + 1);
        }
        (right, reader)
    });
    drop(filling.join().unwrap());
    holding.join().unwrap().0
}

/// A cell of its own for each pair.
fn fresh() -> &'static Shared {
    Box::leak(Box::new(Shared(UnsafeCell::new(0))))
}

fn main() -> ExitCode {
    let passed = match std::env::args().nth(1).as_deref() {
        Some("clean") => CALLS.iter().all(|&call| (0..ROUNDS).all(|round| pair(call, round % 2 == 1, fresh()))) && lends(),
        Some("unread") => pair(Call::None, false, fresh()),
        Some("other") => pair(Call::Other, false, fresh()),
        _ => false,
    };
    println!("{}", if passed { "passed" } else { "FAILED" });
    ExitCode::from(u8::from(!passed))
}

//! Each call once, at the edges of the library's sizes, and what it refuses.

use nidzaru::{
    board, board_over, library_version, register, register_over, triple_board, triple_register, BoardError, FourSlot, Mechanism,
    OutOfMemory, Refused, Sides, Triple,
};
use std::cell::Cell;
use std::ffi::c_void;
use std::fmt::Debug;

thread_local! {
    /// The requests for memory that this thread has made, and the one of them that is refused.
    static ASKED: Cell<u64> = const { Cell::new(0) };
    static REFUSED: Cell<u64> = const { Cell::new(u64::MAX) };
    /// The blocks that this thread has taken, without those that it has given back.
    static BLOCKS: Cell<i64> = const { Cell::new(0) };
}

extern "C" {
    fn __libc_malloc(size: usize) -> *mut c_void;
    fn __libc_realloc(old: *mut c_void, size: usize) -> *mut c_void;
    fn __libc_free(old: *mut c_void);
    fn __libc_memalign(alignment: usize, size: usize) -> *mut c_void;
}

fn is_refused() -> bool {
    let asked = ASKED.get() + 1;
    ASKED.set(asked);
    asked == REFUSED.get()
}

/// The C library's, but for the request that is refused. The library for C and Rust's allocator both come here.
#[no_mangle]
extern "C" fn malloc(size: usize) -> *mut c_void {
    if is_refused() {
        return std::ptr::null_mut();
    }
    BLOCKS.set(BLOCKS.get() + 1);
    // The C library's own function, with what it was to get.
    unsafe { __libc_malloc(size) }
}

/// The same of what lies on whole lines of the cache, as places do.
#[no_mangle]
extern "C" fn posix_memalign(to: *mut *mut c_void, alignment: usize, size: usize) -> i32 {
    const NO_MEMORY: i32 = 12;
    // As above; `to` leads to a pointer.
    let made = if is_refused() { std::ptr::null_mut() } else { unsafe { __libc_memalign(alignment, size) } };
    if made.is_null() {
        return NO_MEMORY;
    }
    BLOCKS.set(BLOCKS.get() + 1);
    unsafe { to.write(made) };
    0
}

#[no_mangle]
extern "C" fn realloc(old: *mut c_void, size: usize) -> *mut c_void {
    if is_refused() {
        return std::ptr::null_mut();
    }
    BLOCKS.set(BLOCKS.get() + i64::from(old.is_null()));
    // As above.
    unsafe { __libc_realloc(old, size) }
}

#[no_mangle]
extern "C" fn free(old: *mut c_void) {
    BLOCKS.set(BLOCKS.get() - i64::from(!old.is_null()));
    // As above.
    unsafe { __libc_free(old) }
}

fn calls<T: Copy + Send + PartialEq + std::fmt::Debug, M: Mechanism>(made: Result<Sides<T, M>, OutOfMemory>, first: T, next: T) {
    let (mut writer, mut reader) = made.unwrap();
    assert!(!reader.has_news() && reader.news().is_none() && reader.look() == 0);
    assert_eq!((reader.latest(), reader.number()), (first, 0));
    let took = ASKED.get();
    assert_eq!(writer.write(&next), Ok(()));
    assert!(reader.has_news() && reader.number() == 0 && reader.look() == 1 && reader.number() == 0);
    assert!(reader.news() == Some(next) && reader.news().is_none() && reader.number() == 1);
    assert_eq!(writer.write(&first), Ok(()));
    assert_eq!(writer.write(&next), Ok(()));
    let mut item = first;
    assert_eq!((reader.read_into(&mut item), item, reader.number()), (3, next, 3));
    drop(writer);
    assert!(!reader.has_news());
    assert_eq!((reader.latest(), reader.number()), (next, 3));
    drop(reader);
    assert_eq!(ASKED.get(), took, "a call but that which makes a register took memory");
}

/// Each call over a record of so many bytes, in both mechanisms, and a writer whose reader went first.
macro_rules! at_sizes {
    ($($size:literal)*) => {$(
        let (first, next) = ([1u8; $size], [2u8; $size]);
        calls(register(first), first, next);
        calls(triple_register(first), first, next);
        let (mut writer, reader) = register(first).unwrap();
        drop(reader);
        assert_eq!(writer.write(&next), Ok(()));
    )*};
}

#[test]
fn each_call_at_each_size() {
    at_sizes!(1 7 8 9 23 24 25 63 64 65 127 128 129 255 256 257 1023 1024 1025 4095 4096);
    calls(register([1u64; 512]), [1; 512], [2; 512]);
    calls(register('a'), 'a', 'b');
    calls(triple_register(Some(1.5)), Some(1.5), None);
}

/// What is held lies there whole until the reader's next call, with the reader's number, and no hold takes memory.
fn holds<T: Copy + Send + PartialEq + std::fmt::Debug>(of: impl Fn(u8) -> T) {
    let (mut writer, mut reader) = triple_register(of(0)).unwrap();
    assert_eq!((*reader.hold(), reader.number()), (of(0), 0));
    let took = ASKED.get();
    for n in (2..=100).step_by(2) {
        let held = reader.hold();
        writer.write(&of(n - 1)).unwrap();
        writer.write(&of(n)).unwrap();
        assert_eq!(*held, of(n - 2));
        assert_eq!((reader.number(), reader.has_news()), (u64::from(n) - 2, true));
        assert_eq!((*reader.hold(), reader.number(), reader.has_news()), (of(n), u64::from(n), false));
        let (at, again) = (std::ptr::from_ref(reader.hold()), std::ptr::from_ref(reader.hold()));
        assert_eq!(at, again);
    }
    assert_eq!(ASKED.get(), took, "a hold took memory");
    drop(writer);
    assert_eq!((*reader.hold(), reader.number()), (of(100), 100));
}

#[test]
fn held_records_at_each_size() {
    macro_rules! hold_sizes {
        ($($size:literal)*) => {$(holds(|n| [n; $size]);)*};
    }
    hold_sizes!(1 7 8 9 23 24 25 63 64 65 127 128 129 255 256 257 1023 1024 1025 4095 4096);
    holds(|n| [u64::from(n); 512]);
    holds(|n| (n, f64::from(n)));
    holds(|_| ());
}

/// What is filled in place is the next record, whole, with the next number; what isn't is an older record's; and nothing takes memory.
fn fills<T: Copy + Send + PartialEq + std::fmt::Debug>(of: impl Fn(u8) -> T) {
    let (mut writer, mut reader) = triple_register(of(0)).unwrap();
    let took = ASKED.get();
    for n in 1..=100 {
        let mut older = None;
        assert_eq!(writer.write_with(|record| older = Some(std::mem::replace(record, of(n)))), Ok(()));
        // The third slot back is the writer's, if the reader takes each record.
        assert_eq!(older, Some(of(n.saturating_sub(3))));
        assert_eq!((reader.latest(), reader.number()), (of(n), u64::from(n)));
    }
    writer.write_with(|_| {}).unwrap();
    assert_eq!((*reader.hold(), reader.number()), (of(98), 101));
    writer.write(&of(100)).unwrap();
    drop(reader);
    assert_eq!(writer.write_with(|record| *record = of(7)), Ok(()));
    assert_eq!(ASKED.get(), took, "a write in place took memory");
}

#[test]
fn records_filled_in_place_at_each_size() {
    macro_rules! fill_sizes {
        ($($size:literal)*) => {$(fills(|n| [n; $size]);)*};
    }
    fill_sizes!(1 7 8 9 23 24 25 63 64 65 127 128 129 255 256 257 1023 1024 1025 4095 4096);
    fills(|n| [u64::from(n); 512]);
    fills(|n| (n, f64::from(n)));
    fills(|_| ());
}

#[test]
fn nothing_is_shown_where_a_fill_panics() {
    let (mut writer, mut reader) = triple_register([1; 3]).unwrap();
    writer.write(&[2; 3]).unwrap();
    assert_eq!((reader.latest(), reader.number()), ([2; 3], 1));
    let filled = std::panic::catch_unwind(std::panic::AssertUnwindSafe(|| {
        writer.write_with(|record| {
            *record = [3; 3];
            panic!("a fill that panics, as this test wants it");
        })
    }));
    assert!(filled.is_err());
    assert_eq!((reader.has_news(), reader.latest(), reader.number()), (false, [2; 3], 1));
    writer.write_with(|record| assert_eq!(*record, [3; 3])).unwrap();
    assert_eq!((reader.latest(), reader.number()), ([3; 3], 2));
}

#[test]
fn what_debug_prints() {
    let (mut writer, mut reader) = register('a').unwrap();
    let mut places = board(2, 'a').unwrap();
    writer.write(&'b').unwrap();
    reader.latest();
    places[1].write(&'b').unwrap();
    assert_eq!(format!("{writer:?} {reader:?}"), "Writer { .. } Reader { number: 1, .. }");
    assert_eq!(format!("{:?}", places[1]), "Place { stamp: Stamp { tag: 1, writer: 1 }, .. }");
}

#[test]
fn a_record_may_have_no_bytes() {
    let (mut writer, mut reader) = register(()).unwrap();
    assert_eq!(writer.write(&()), Ok(()));
    assert!(reader.has_news());
    reader.latest();
    assert_eq!(reader.number(), 1);
}

#[test]
fn requests_for_memory_are_refused_in_turn() {
    fn refuse<T, E: Debug + PartialEq>(least: u64, wanted: E, make: impl Fn() -> Result<T, E>) {
        for at in 1.. {
            ASKED.set(0);
            REFUSED.set(at);
            let had = BLOCKS.get();
            let made = make();
            REFUSED.set(u64::MAX);
            if ASKED.get() < at {
                assert!(made.is_ok() && at > least, "no request was refused");
                drop(made);
                assert_eq!(BLOCKS.get(), had, "blocks that are left");
                return;
            }
            assert_eq!(made.err().as_ref(), Some(&wanted));
            assert_eq!(BLOCKS.get(), had, "blocks of what wasn't made");
        }
    }
    refuse(4, OutOfMemory, || register([1; 3]));
    refuse(4, OutOfMemory, || triple_register([1; 3]));
    refuse(12, OutOfMemory, || nidzaru::fan::<_, 3>([1; 3]));
    refuse(8, BoardError::OutOfMemory, || board(3, [1; 3]));
    refuse(8, BoardError::OutOfMemory, || triple_board(3, [1; 3]));
}

#[test]
fn what_goes_gives_back_its_memory() {
    fn goes<M: Mechanism>() {
        let had = BLOCKS.get();
        let (writer, mut reader) = register_over::<_, M>([1u8; 100]).unwrap();
        let both = BLOCKS.get();
        assert!(both > had);
        drop(writer);
        assert!(BLOCKS.get() < both && BLOCKS.get() > had, "a side that goes gives back what is its own");
        assert_eq!(reader.latest(), [1; 100]);
        drop(reader);
        assert_eq!(BLOCKS.get(), had, "blocks of a register");
        let mut places = board_over::<_, M>(3, [1u8; 100]).unwrap();
        let all = BLOCKS.get();
        drop(places.pop());
        assert!(BLOCKS.get() < all && BLOCKS.get() > had, "a place that goes gives back what is its own");
        drop(places);
        assert_eq!(BLOCKS.get(), had, "blocks of a board");
    }
    goes::<FourSlot>();
    goes::<Triple>();
}

#[test]
fn the_errors_say_what_was_refused() {
    assert_eq!(OutOfMemory.to_string(), "memory for a register was refused");
    assert_eq!(Refused.to_string(), "the limit refuses the write");
}

#[test]
fn crate_and_library_are_of_one_version() {
    let part = |text: &str| text.parse::<u32>().unwrap();
    let major = part(env!("CARGO_PKG_VERSION_MAJOR"));
    let (minor, patch) = (part(env!("CARGO_PKG_VERSION_MINOR")), part(env!("CARGO_PKG_VERSION_PATCH")));
    assert_eq!(library_version(), 10_000 * major + 100 * minor + patch);
}

#[test]
fn sides_may_go_to_another_thread() {
    fn may_go<T: Send>(it: T) -> T {
        it
    }
    let (writer, reader) = register(1.5).unwrap();
    let (writer, mut reader) = (may_go(writer), may_go(reader));
    std::thread::spawn(move || drop(writer)).join().unwrap();
    assert_eq!(reader.latest(), 1.5);
}

#[test]
fn records_may_borrow() {
    fn borrow<M: Mechanism>() {
        let names: Vec<String> = (0..1000).map(|n| n.to_string()).collect();
        let (mut writer, mut reader) = register_over::<_, M>(names[0].as_str()).unwrap();
        let mut places = board_over::<_, M>(2, &names[0]).unwrap();
        let mut place = places.pop().unwrap();
        std::thread::scope(|threads| {
            threads.spawn(|| {
                for name in &names[1..] {
                    writer.write(&name.as_str()).unwrap();
                    place.write(&name).unwrap();
                }
            });
            threads.spawn(|| {
                while reader.number() < 999 {
                    assert_eq!(reader.latest(), names[reader.number() as usize]);
                    assert_eq!(*places[0].read(), places[0].stamp().tag.to_string());
                }
            });
        });
        assert_eq!((reader.latest(), places[0].read().as_str()), ("999", "999"));
    }
    borrow::<FourSlot>();
    borrow::<Triple>();
}

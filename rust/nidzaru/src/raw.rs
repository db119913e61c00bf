//! The library's calls, and what is unsafe about them. `unsafe` stands also in the clock of `log`, in what `watched` tells ThreadSanitizer,
//! and in `block` and `shared`.
//!
//! What a call owes (the library's page for C lists it), and why it is met here:
//!
//! 1. *A handle begins empty, and only these calls write it.* A [`Side`] is made by [`open`] and [`open_board`] alone, and in a block by
//!    `open_here` and `open_board_here`; its fields are private to this module, and it is neither `Copy` nor `Clone`. The library doesn't know
//!    where a handle lies: it may be moved between calls. (In a block its claim's owner alone uses it; `block` sees to that.)
//! 2. *One call at a time with one handle.* Each call takes the handle by `&mut`. From thread to thread it goes by a move, which
//!    std's threads and channels order.
//! 3. *Pointers lead to whole objects, and what one call is passed doesn't overlap.* A record of the library is passed as a `T` of just
//!    that size and alignment, or as an array of words of that size; `&mut` borrows don't overlap. The words may be uninitialized where
//!    the record has padding: they are copied and never looked at, on either side.
//! 4. *The record that comes back is a `T`.* The library gives a record that was written into this register or board, whole, or its opening:
//!    bytes that were copied from a `T`, and a `Copy` type may be had again from its bytes. `T` is `Send`, so it may come in another
//!    thread. What `T` borrows lives as long as the sides and places, whose types name it: a writer takes no `T` of a shorter lifetime and, since
//!    its slot shows an older one, gives none of a longer one; nor does a reader.
//! 5. *The calls are those of the record's size.* They are chosen by `size_of::<T>()` at [`open`] and at each call, in one way.
//! 6. *A signal handler, and the forked child of a process with threads, makes and ends nothing, and uses no handle that a call was using
//!    at that moment; and there is one allocator*: this is left to the program, as it is for its own use of std's allocator.
#![allow(unsafe_code)]

use crate::watched::{ignore, Order};
use alloc::vec::Vec;
use core::ffi::c_void;
use core::mem::MaybeUninit;
use core::ops::{Deref, DerefMut};
use core::ptr;

const DONE: u32 = 0;
const NO_MEMORY: u32 = 1;
const REFUSED: u32 = 4;
const PROCESSES: u32 = 8;
const LIMIT: u32 = 9;
const OLDER: u32 = 10;
const CUT_OFF: u32 = 12;

/// A handle of the library.
#[repr(C)]
struct Side {
    live: u64,
    at: *mut c_void,
}

impl Side {
    const EMPTY: Side = Side { live: 0, at: ptr::null_mut() };
}

/// The words of a record where they lie, and how many they are: a slice of the library's.
#[repr(C)]
struct Lent {
    at: *mut u64,
    count: usize,
}

impl Lent {
    const NONE: Lent = Lent { at: ptr::NonNull::dangling().as_ptr(), count: 0 };
}

type Make = unsafe extern "C" fn(*const c_void, *mut Side, *mut Side) -> u32;
type Write = unsafe extern "C" fn(*mut Side, *const c_void) -> u32;
type Read = unsafe extern "C" fn(*mut Side, *mut c_void, *mut u64) -> u32;
type Look = unsafe extern "C" fn(*mut Side, *mut u64) -> u32;
type Hold = unsafe extern "C" fn(*mut Side, *mut Lent) -> u32;
type Loan = unsafe extern "C" fn(*mut Side, *mut Lent) -> u32;
type Publish = unsafe extern "C" fn(*mut Side) -> u32;
type End = unsafe extern "C" fn(*mut Side) -> u32;

/// The calls of one cell, over records of one size.
pub struct Calls {
    size: usize,
    make: Make,
    write: Write,
    read: Read,
    look: Look,
    end_writer: End,
    end_reader: End,
}

/// Declares the calls of a cell, by its name in the library, and names them.
macro_rules! calls {
    ($name:ident, $size:literal, $cell:literal) => {
        static $name: Calls = {
            extern "C" {
                #[link_name = concat!("nidzaru_", $cell, "_make")]
                fn make(first: *const c_void, writer: *mut Side, reader: *mut Side) -> u32;
                #[link_name = concat!("nidzaru_", $cell, "_write")]
                fn write(writer: *mut Side, item: *const c_void) -> u32;
                #[link_name = concat!("nidzaru_", $cell, "_read")]
                fn read(reader: *mut Side, item: *mut c_void, number: *mut u64) -> u32;
                #[link_name = concat!("nidzaru_", $cell, "_look")]
                fn look(reader: *mut Side, number: *mut u64) -> u32;
                #[link_name = concat!("nidzaru_", $cell, "_end_writer")]
                fn end_writer(writer: *mut Side) -> u32;
                #[link_name = concat!("nidzaru_", $cell, "_end_reader")]
                fn end_reader(reader: *mut Side) -> u32;
            }
            Calls { size: $size, make, write, read, look, end_writer, end_reader }
        };
    };
}

calls!(FOUR_SLOT_8, 8, "8");
calls!(FOUR_SLOT_24, 24, "24");
calls!(FOUR_SLOT_64, 64, "64");
calls!(FOUR_SLOT_128, 128, "128");
calls!(FOUR_SLOT_256, 256, "256");
calls!(FOUR_SLOT_1024, 1024, "1024");
calls!(FOUR_SLOT_4096, 4096, "4096");
calls!(FOUR_SLOT_65536, 65536, "65536");
calls!(FOUR_SLOT_1048576, 1048576, "1048576");
calls!(TRIPLE_8, 8, "triple_8");
calls!(TRIPLE_24, 24, "triple_24");
calls!(TRIPLE_64, 64, "triple_64");
calls!(TRIPLE_128, 128, "triple_128");
calls!(TRIPLE_256, 256, "triple_256");
calls!(TRIPLE_1024, 1024, "triple_1024");
calls!(TRIPLE_4096, 4096, "triple_4096");
calls!(TRIPLE_65536, 65536, "triple_65536");
calls!(TRIPLE_1048576, 1048576, "triple_1048576");

extern "C" {
    fn nidzaru_triple_8_hold(reader: *mut Side, at: *mut Lent) -> u32;
    fn nidzaru_triple_24_hold(reader: *mut Side, at: *mut Lent) -> u32;
    fn nidzaru_triple_64_hold(reader: *mut Side, at: *mut Lent) -> u32;
    fn nidzaru_triple_128_hold(reader: *mut Side, at: *mut Lent) -> u32;
    fn nidzaru_triple_256_hold(reader: *mut Side, at: *mut Lent) -> u32;
    fn nidzaru_triple_1024_hold(reader: *mut Side, at: *mut Lent) -> u32;
    fn nidzaru_triple_4096_hold(reader: *mut Side, at: *mut Lent) -> u32;
    fn nidzaru_triple_65536_hold(reader: *mut Side, at: *mut Lent) -> u32;
    fn nidzaru_triple_1048576_hold(reader: *mut Side, at: *mut Lent) -> u32;
}

/// What holds a record of a triple buffer, by the library's size.
const fn hold_for(size: usize) -> Hold {
    match size {
        8 => nidzaru_triple_8_hold,
        24 => nidzaru_triple_24_hold,
        64 => nidzaru_triple_64_hold,
        128 => nidzaru_triple_128_hold,
        256 => nidzaru_triple_256_hold,
        1024 => nidzaru_triple_1024_hold,
        4096 => nidzaru_triple_4096_hold,
        65536 => nidzaru_triple_65536_hold,
        _ => nidzaru_triple_1048576_hold,
    }
}

/// The two calls of a write in place.
#[derive(Clone, Copy)]
struct InPlace {
    loan: Loan,
    publish: Publish,
}

/// Declares them, by the cell's name in the library.
macro_rules! in_place {
    ($cell:literal) => {{
        extern "C" {
            #[link_name = concat!("nidzaru_", $cell, "_loan")]
            fn loan(writer: *mut Side, at: *mut Lent) -> u32;
            #[link_name = concat!("nidzaru_", $cell, "_publish")]
            fn publish(writer: *mut Side) -> u32;
        }
        InPlace { loan, publish }
    }};
}

/// What lends the writer's slot of a triple buffer and what publishes it, by the library's size.
const fn in_place_for(size: usize) -> InPlace {
    match size {
        8 => in_place!("triple_8"),
        24 => in_place!("triple_24"),
        64 => in_place!("triple_64"),
        128 => in_place!("triple_128"),
        256 => in_place!("triple_256"),
        1024 => in_place!("triple_1024"),
        4096 => in_place!("triple_4096"),
        65536 => in_place!("triple_65536"),
        _ => in_place!("triple_1048576"),
    }
}

extern "C" {
    fn nidzaru_version() -> u32;

    /// A name that a library has if it isn't older than this crate. Nothing is read of it.
    #[link_name = concat!("nidzaru_since_", env!("CARGO_PKG_VERSION_MAJOR"), "_", env!("CARGO_PKG_VERSION_MINOR"))]
    static SINCE: u8;
}

/// Asks for a library that isn't older than this crate: no other is linked.
fn ask_for_release() {
    // The address alone is taken.
    core::hint::black_box(&raw const SINCE);
}

pub fn version() -> u32 {
    // It takes nothing and reads no memory.
    unsafe { nidzaru_version() }
}

impl Calls {
    /// The size of the library's records that these calls are for.
    pub const fn size(&self) -> usize {
        self.size
    }
}

/// The calls for records of a size of at most 1,048,576 bytes.
pub const fn calls_for(size: usize, triple: bool) -> &'static Calls {
    match (size, triple) {
        (0..=8, false) => &FOUR_SLOT_8,
        (9..=24, false) => &FOUR_SLOT_24,
        (25..=64, false) => &FOUR_SLOT_64,
        (65..=128, false) => &FOUR_SLOT_128,
        (129..=256, false) => &FOUR_SLOT_256,
        (257..=1024, false) => &FOUR_SLOT_1024,
        (1025..=4096, false) => &FOUR_SLOT_4096,
        (4097..=65536, false) => &FOUR_SLOT_65536,
        (65537..=1048576, false) => &FOUR_SLOT_1048576,
        (0..=8, true) => &TRIPLE_8,
        (9..=24, true) => &TRIPLE_24,
        (25..=64, true) => &TRIPLE_64,
        (65..=128, true) => &TRIPLE_128,
        (129..=256, true) => &TRIPLE_256,
        (257..=1024, true) => &TRIPLE_1024,
        (1025..=4096, true) => &TRIPLE_4096,
        (4097..=65536, true) => &TRIPLE_65536,
        (65537..=1048576, true) => &TRIPLE_1048576,
        _ => panic!("a record of a register has at most 1048576 bytes"),
    }
}

/// A side or a place that is live, as the calls use it.
#[repr(C)]
pub struct Live {
    side: Side,
    order: Order,
}

/// A writing side that is live until it goes. Each call stores into it, so it has a cache line of its own.
#[repr(align(64))]
pub struct WritingSide {
    live: Live,
    end: End,
}

/// A reading side that is live until it goes, with a cache line of its own.
#[repr(align(64))]
pub struct ReadingSide {
    live: Live,
    end: End,
}

/// What has a live side is used as that side is.
macro_rules! is_live {
    ($name:ident) => {
        impl Deref for $name {
            type Target = Live;

            #[inline]
            fn deref(&self) -> &Live {
                &self.live
            }
        }

        impl DerefMut for $name {
            #[inline]
            fn deref_mut(&mut self) -> &mut Live {
                &mut self.live
            }
        }
    };
}

is_live!(WritingSide);
is_live!(ReadingSide);
is_live!(BoardPlace);

// A side may go to another thread: the library's handles may cross threads, and the records are `Send`.
unsafe impl Send for WritingSide {}
unsafe impl Send for ReadingSide {}

impl Drop for WritingSide {
    fn drop(&mut self) {
        // The side is live, and is not used again.
        let status = ignore(|| unsafe { (self.end)(&mut self.side) });
        assert!(status == DONE || status == CUT_OFF, "the side is live");
    }
}

impl Drop for ReadingSide {
    fn drop(&mut self) {
        self.order.let_go();
        // As above.
        let status = ignore(|| unsafe { (self.end)(&mut self.side) });
        assert!(status == DONE || status == CUT_OFF, "the side is live");
    }
}

/// Whether a `T` is passed where it lies, to calls over records of this size.
const fn passes<T>(size: usize) -> bool {
    size_of::<T>() == size && align_of::<T>() >= 8
}

/// A record of the library with a smaller one in front.
struct Words<const N: usize>([MaybeUninit<u64>; N]);

impl<const N: usize> Words<N> {
    #[inline]
    fn zero() -> Self {
        Words([const { MaybeUninit::new(0) }; N])
    }

    /// The bytes of the item, and zeros behind it.
    #[inline]
    fn of<T: Copy>(item: &T) -> Self {
        assert!(size_of::<T>() <= size_of::<Self>());
        let mut words = Self::zero();
        // Both have room for a `T`, and a local doesn't overlap what is borrowed.
        unsafe { ptr::copy_nonoverlapping(ptr::from_ref(item).cast::<u8>(), words.0.as_mut_ptr().cast::<u8>(), size_of::<T>()) };
        words
    }

    /// The item in front, of whose type the first bytes have to be.
    #[inline]
    unsafe fn item<T: Copy>(&self) -> T {
        assert!(size_of::<T>() <= size_of::<Self>());
        // The words are aligned to 8, and a `T` may be to more.
        unsafe { ptr::read_unaligned(self.0.as_ptr().cast::<T>()) }
    }

    #[inline]
    fn as_ptr(&self) -> *const c_void {
        self.0.as_ptr().cast()
    }

    #[inline]
    fn as_mut_ptr(&mut self) -> *mut c_void {
        self.0.as_mut_ptr().cast()
    }
}

/// Makes a call that takes so much of the stack that no other function is to take it in.
#[inline(never)]
fn apart<R>(call: impl FnOnce() -> R) -> R {
    call()
}

/// Calls `$call` with the number of words of the library's records.
macro_rules! by_size {
    ($calls:expr, $call:ident, $arguments:tt) => {
        match $calls.size {
            65536 => apart(|| $call::<_, 8192> $arguments),
            1048576 => apart(|| $call::<_, 131072> $arguments),
            _ => by_small_size!($calls, $call, $arguments),
        }
    };
}

/// The same of records of at most 4,096 bytes, which a board's are.
macro_rules! by_small_size {
    ($calls:expr, $call:ident, $arguments:tt) => {
        match $calls.size {
            8 => $call::<_, 1> $arguments,
            24 => $call::<_, 3> $arguments,
            64 => $call::<_, 8> $arguments,
            128 => $call::<_, 16> $arguments,
            256 => $call::<_, 32> $arguments,
            1024 => $call::<_, 128> $arguments,
            _ => $call::<_, 512> $arguments,
        }
    };
}

/// Both sides of a new register. None where memory is refused.
pub fn open<T: Copy>(calls: &'static Calls, first: &T) -> Option<(WritingSide, ReadingSide)> {
    ask_for_release();
    if passes::<T>(calls.size) {
        // The opening is as large and aligned as the library's record.
        unsafe { open_at(calls, ptr::from_ref(first).cast()) }
    } else {
        by_size!(calls, open_by, (calls, first))
    }
}

fn open_by<T: Copy, const N: usize>(calls: &'static Calls, first: &T) -> Option<(WritingSide, ReadingSide)> {
    // The words are as many as the library's record has.
    unsafe { open_at(calls, Words::<N>::of(first).as_ptr()) }
}

/// The same, where `first` leads to a whole record of the library.
unsafe fn open_at(calls: &'static Calls, first: *const c_void) -> Option<(WritingSide, ReadingSide)> {
    let (mut writer, mut reader) = (Side::EMPTY, Side::EMPTY);
    // The handles are empty.
    let status = ignore(|| unsafe { (calls.make)(first, &mut writer, &mut reader) });
    match status {
        DONE => {}
        NO_MEMORY => return None,
        other => unreachable!("both handles are empty, so the status isn't {other}"),
    }
    let order = Order::new();
    let writer = WritingSide { live: Live { side: writer, order }, end: calls.end_writer };
    Some((writer, ReadingSide { live: Live { side: reader, order }, end: calls.end_reader }))
}

/// The writing sides of a fan, of whose registers each reader has one. Between two calls their numbers are alike.
pub struct EachSide<const N: usize> {
    sides: [WritingSide; N],
    is_cut_off: bool,
}

impl<const N: usize> EachSide<N> {
    /// Says before a call that it is cut off, and behind it that it isn't.
    #[inline]
    fn mark(&mut self, is_cut_off: bool) {
        // (a store that no other one makes needless: the call between may not come back)
        unsafe { ptr::write_volatile(&mut self.is_cut_off, is_cut_off) };
    }
}

/// The sides of a new fan. None where memory is refused, and what was made until then goes.
pub fn open_each<T: Copy, const N: usize>(calls: &'static Calls, first: &T) -> Option<(EachSide<N>, [ReadingSide; N])> {
    let mut made = [const { None }; N];
    for both in &mut made {
        *both = Some(open(calls, first)?);
    }
    let mut readers = [const { None }; N];
    let mut places = readers.iter_mut();
    let sides = made.map(|both| {
        let (writer, reader) = both.expect("each register is made");
        *places.next().expect("as many readers as registers") = Some(reader);
        writer
    });
    Some((EachSide { sides, is_cut_off: false }, readers.map(|reader| reader.expect("each register has a reader"))))
}

/// Writes the record into each register. `false` where the limit refuses it, as it does in all of them.
#[inline]
pub fn write_each<T: Copy, const N: usize>(calls: &'static Calls, each: &mut EachSide<N>, item: &T) -> bool {
    if each.is_cut_off {
        was_cut_off();
    }
    each.mark(true);
    for k in 0..N {
        if !write(calls, &mut each.sides[k], item) {
            // (if one before it has the record, the numbers aren't alike any more)
            assert!(k == 0, "each register has the same number");
            each.mark(false);
            return false;
        }
    }
    each.mark(false);
    true
}

/// What a side or place in shared memory says of itself: 0 where there is none, [`BUSY`] where a call runs or was cut off, else its number.
#[cfg(feature = "shared")]
impl Live {
    pub fn state(&self) -> u64 {
        self.side.live
    }

    /// Where what the side knows lies.
    pub fn at(&self) -> u64 {
        self.side.at as u64
    }

    /// Says that no call runs, with the number of the side.
    pub fn mark(&mut self, state: u64) {
        core::sync::atomic::fence(core::sync::atomic::Ordering::SeqCst);
        self.side.live = state;
    }
}

/// The state of a side while a call runs.
#[cfg(feature = "shared")]
pub const BUSY: u64 = 255;

/// Makes a register, and puts its sides here, where none are. Gives the library's status.
#[cfg(feature = "shared")]
pub fn open_here<T: Copy>(calls: &'static Calls, first: &T, writer: &mut Live, reader: &mut Live) -> u32 {
    ask_for_release();
    by_size!(calls, open_here_by, (calls, first, writer, reader))
}

#[cfg(feature = "shared")]
fn open_here_by<T: Copy, const N: usize>(calls: &'static Calls, first: &T, writer: &mut Live, reader: &mut Live) -> u32 {
    // The words are as many as the library's record has, and both sides are others.
    unsafe { (calls.make)(Words::<N>::of(first).as_ptr(), &mut writer.side, &mut reader.side) }
}

/// Makes a board of so many places, 2 to 16, and hands each out. Gives the library's status.
#[cfg(feature = "shared")]
pub fn open_board_here<T: Copy>(calls: &'static BoardCalls, n: usize, first: &T, mut put: impl FnMut(usize, Live)) -> u32 {
    ask_for_release();
    let mut sides = [const { Side::EMPTY }; 16];
    let made: Result<(), NoBoard> = by_small_size!(calls, open_board_by, (calls, &mut sides[..n], u64::MAX - 1, first));
    if made.is_err() {
        return NO_MEMORY;
    }
    let order = Order::new();
    sides.into_iter().take(n).enumerate().for_each(|(k, side)| put(k, Live { side, order }));
    DONE
}

#[cfg(feature = "shared")]
extern "C" {
    #[link_name = "nidzaru_fingerprint"]
    static FINGERPRINT: u64;
}

/// The number of this very build of the library.
#[cfg(feature = "shared")]
pub fn fingerprint() -> u64 {
    // Nobody writes there.
    unsafe { FINGERPRINT }
}

/// Writes the record. `false` where the limit refuses it.
#[inline]
pub fn write<T: Copy>(calls: &'static Calls, writer: &mut Live, item: &T) -> bool {
    if passes::<T>(calls.size) {
        // The item is as large and aligned as the library's record.
        is_written(writer.order.show(|| unsafe { (calls.write)(&mut writer.side, ptr::from_ref(item).cast()) }))
    } else {
        by_size!(calls, write_by, (calls, writer, item))
    }
}

#[inline]
fn write_by<T: Copy, const N: usize>(calls: &'static Calls, writer: &mut Live, item: &T) -> bool {
    // The words are as many as the library's record has.
    let words = Words::<N>::of(item);
    is_written(writer.order.show(|| unsafe { (calls.write)(&mut writer.side, words.as_ptr()) }))
}

/// Fills the record in the writer's slot of a triple buffer where it lies, and publishes it. `false` where the limit refuses it.
#[inline]
pub fn write_in_place<T: Copy>(calls: &'static Calls, writer: &mut Live, fill: impl FnOnce(&mut T)) -> bool {
    const { assert!(align_of::<T>() <= 8, "a record that is filled where it lies is aligned to at most 8") };
    let InPlace { loan, publish } = in_place_for(calls.size);
    let mut lent = Lent::NONE;
    // `lent` has no words, and then those of the writer's slot.
    must_be_done(ignore(|| unsafe { loan(&mut writer.side, &mut lent) }));
    debug_assert_eq!(lent.count * 8, calls.size);
    writer.order.take(lent.at.cast());
    // The slot begins with the bytes of a `T`, an older record's or the opening's, and is aligned to 8. Nobody else reads or writes there
    // before it is published.
    fill(unsafe { &mut *lent.at.cast::<T>() });
    is_written(writer.order.show(|| unsafe { publish(&mut writer.side) }))
}

#[inline]
fn is_written(status: u32) -> bool {
    match status {
        DONE => true,
        REFUSED => false,
        CUT_OFF => was_cut_off(),
        other => unreachable!("the handle has the writing side, or a place, so the status isn't {other}"),
    }
}

/// Reads a record and its number.
#[inline]
pub fn read<T: Copy>(calls: &'static Calls, reader: &mut Live) -> (T, u64) {
    if passes::<T>(calls.size) {
        let (mut item, mut number) = (MaybeUninit::<T>::uninit(), 0);
        // The place is as large and aligned as the library's record.
        must_be_done(reader.order.see(|| unsafe { (calls.read)(&mut reader.side, item.as_mut_ptr().cast(), &mut number) }));
        // The call has filled it with the bytes of a `T`.
        (unsafe { item.assume_init() }, number)
    } else {
        by_size!(calls, read_by, (calls, reader))
    }
}

#[inline]
fn read_by<T: Copy, const N: usize>(calls: &'static Calls, reader: &mut Live) -> (T, u64) {
    let (mut words, mut number) = (Words::<N>::zero(), 0);
    // The words are as many as the library's record has.
    must_be_done(reader.order.see(|| unsafe { (calls.read)(&mut reader.side, words.as_mut_ptr(), &mut number) }));
    // They begin with the bytes of a `T`.
    (unsafe { words.item() }, number)
}

/// Reads a record into place, and gives its number.
#[inline]
pub fn read_into<T: Copy>(calls: &'static Calls, reader: &mut Live, item: &mut T) -> u64 {
    if passes::<T>(calls.size) {
        let mut number = 0;
        // The item is as large and aligned as the library's record, and gets the bytes of a `T`.
        must_be_done(reader.order.see(|| unsafe { (calls.read)(&mut reader.side, ptr::from_mut(item).cast(), &mut number) }));
        number
    } else {
        apart(|| {
            let (record, number) = read(calls, reader);
            *item = record;
            number
        })
    }
}

/// The number that a read would give.
#[inline]
pub fn look(calls: &'static Calls, reader: &mut Live) -> u64 {
    let mut number = 0;
    // The pointer leads to a number.
    must_be_done(reader.order.see(|| unsafe { (calls.look)(&mut reader.side, &mut number) }));
    number
}

/// Where a record of a triple buffer's lies that a read would give, and its number.
#[inline]
pub fn hold<'a, T: Copy>(calls: &'static Calls, reader: &'a mut Live) -> (&'a T, u64) {
    const { assert!(align_of::<T>() <= 8, "a record that is read where it lies is aligned to at most 8") };
    let (mut held, mut number) = (Lent::NONE, 0);
    // `held` has no words, and then those of the record that the reader holds.
    must_be_done(reader.order.see(|| unsafe {
        match (calls.look)(&mut reader.side, &mut number) {
            DONE => hold_for(calls.size)(&mut reader.side, &mut held),
            status => status,
        }
    }));
    debug_assert_eq!(held.count * 8, calls.size);
    reader.order.keep(held.at.cast());
    // It begins with the bytes of a `T` and is aligned to 8. Nothing writes there before the next call, which takes the side by `&mut`.
    (unsafe { &*held.at.cast::<T>() }, number)
}

#[inline]
fn must_be_done(status: u32) {
    if status == CUT_OFF {
        was_cut_off();
    }
    assert_eq!(status, DONE, "the handle has the side, or a place");
}

/// The last call of the side never came to its end, as by a jump out of a signal handler: the side is lost.
#[cold]
fn was_cut_off() -> ! {
    panic!("the side's last call was cut off");
}

/// A stamp of the library.
#[repr(C)]
#[derive(Clone, Copy, Default)]
pub struct Mark {
    pub tag: u64,
    pub writer: u64,
}

type MakeBoard = unsafe extern "C" fn(*const c_void, u64, *mut Side, usize) -> u32;
type WritePlace = unsafe extern "C" fn(*mut Side, *const c_void, *mut Mark) -> u32;
type ReadPlace = unsafe extern "C" fn(*mut Side, *mut c_void, *mut Mark) -> u32;
type ReadPlaceSince = unsafe extern "C" fn(*mut Side, *const Mark, *mut c_void, *mut Mark) -> u32;

/// The calls of boards over one family, with records of one size.
pub struct BoardCalls {
    size: usize,
    make: MakeBoard,
    write: WritePlace,
    read: ReadPlace,
    read_since: ReadPlaceSince,
    end: End,
}

/// Declares the calls of boards over a family, by their name in the library, and names them.
macro_rules! board_calls {
    ($name:ident, $size:literal, $board:literal) => {
        static $name: BoardCalls = {
            extern "C" {
                #[link_name = concat!("nidzaru_", $board, "_make")]
                fn make(first: *const c_void, limit: u64, places: *mut Side, count: usize) -> u32;
                #[link_name = concat!("nidzaru_", $board, "_write")]
                fn write(place: *mut Side, item: *const c_void, stamp: *mut Mark) -> u32;
                #[link_name = concat!("nidzaru_", $board, "_read")]
                fn read(place: *mut Side, item: *mut c_void, stamp: *mut Mark) -> u32;
                #[link_name = concat!("nidzaru_", $board, "_read_since")]
                fn read_since(place: *mut Side, least: *const Mark, item: *mut c_void, stamp: *mut Mark) -> u32;
                #[link_name = concat!("nidzaru_", $board, "_end")]
                fn end(place: *mut Side) -> u32;
            }
            BoardCalls { size: $size, make, write, read, read_since, end }
        };
    };
}

board_calls!(FOUR_SLOT_BOARD_24, 24, "board_24");
board_calls!(FOUR_SLOT_BOARD_256, 256, "board_256");
board_calls!(FOUR_SLOT_BOARD_4096, 4096, "board_4096");
board_calls!(TRIPLE_BOARD_24, 24, "triple_board_24");
board_calls!(TRIPLE_BOARD_256, 256, "triple_board_256");
board_calls!(TRIPLE_BOARD_4096, 4096, "triple_board_4096");

/// The calls of boards for records of a size of at most 4,096 bytes.
pub const fn board_calls_for(size: usize, triple: bool) -> &'static BoardCalls {
    match (size, triple) {
        (0..=24, false) => &FOUR_SLOT_BOARD_24,
        (25..=256, false) => &FOUR_SLOT_BOARD_256,
        (257..=4096, false) => &FOUR_SLOT_BOARD_4096,
        (0..=24, true) => &TRIPLE_BOARD_24,
        (25..=256, true) => &TRIPLE_BOARD_256,
        (257..=4096, true) => &TRIPLE_BOARD_4096,
        _ => panic!("a record of a board has at most 4096 bytes"),
    }
}

impl BoardCalls {
    /// The size of the library's records that these calls are for.
    pub const fn size(&self) -> usize {
        self.size
    }
}

/// A place that is live until it goes, with a cache line of its own.
#[repr(align(64))]
pub struct BoardPlace {
    live: Live,
    end: End,
}

// A place may go to another thread, as a side may.
unsafe impl Send for BoardPlace {}

impl Drop for BoardPlace {
    fn drop(&mut self) {
        // The place is live, and is not used again.
        let status = ignore(|| unsafe { (self.end)(&mut self.side) });
        assert!(status == DONE || status == CUT_OFF, "the side is live");
    }
}

/// Why no board was made.
#[derive(Clone, Copy)]
pub enum NoBoard {
    Places,
    Limit,
    Memory,
}

/// The places of a new board.
pub fn open_board<T: Copy>(calls: &'static BoardCalls, n: usize, limit: u64, first: &T) -> Result<Vec<BoardPlace>, NoBoard> {
    if !(2..=16).contains(&n) {
        return Err(NoBoard::Places);
    }
    let mut places = Vec::new();
    places.try_reserve_exact(n).map_err(|_| NoBoard::Memory)?;
    let mut sides = [const { Side::EMPTY }; 16];
    ask_for_release();
    by_small_size!(calls, open_board_by, (calls, &mut sides[..n], limit, first))?;
    let order = Order::new();
    places.extend(sides.into_iter().take(n).map(|side| BoardPlace { live: Live { side, order }, end: calls.end }));
    Ok(places)
}

fn open_board_by<T: Copy, const N: usize>(calls: &BoardCalls, sides: &mut [Side], limit: u64, first: &T) -> Result<(), NoBoard> {
    // The handles are empty and as many as is said, and the words are as many as the library's record has.
    let status = ignore(|| unsafe { (calls.make)(Words::<N>::of(first).as_ptr(), limit, sides.as_mut_ptr(), sides.len()) });
    match status {
        DONE => Ok(()),
        NO_MEMORY => Err(NoBoard::Memory),
        PROCESSES => Err(NoBoard::Places),
        LIMIT => Err(NoBoard::Limit),
        other => unreachable!("all handles are empty, so the status isn't {other}"),
    }
}

/// Writes the record, and gives its stamp. None where the tags have ended.
#[inline]
pub fn write_place<T: Copy>(calls: &'static BoardCalls, place: &mut Live, item: &T) -> Option<Mark> {
    if passes::<T>(calls.size) {
        let mut stamp = Mark::default();
        // The item is as large and aligned as the library's record.
        let status = place.order.show(|| unsafe { (calls.write)(&mut place.side, ptr::from_ref(item).cast(), &mut stamp) });
        is_written(status).then_some(stamp)
    } else {
        by_small_size!(calls, write_place_by, (calls, place, item))
    }
}

#[inline]
fn write_place_by<T: Copy, const N: usize>(calls: &BoardCalls, place: &mut Live, item: &T) -> Option<Mark> {
    let mut stamp = Mark::default();
    let words = Words::<N>::of(item);
    // The words are as many as the library's record has.
    let status = place.order.show(|| unsafe { (calls.write)(&mut place.side, words.as_ptr(), &mut stamp) });
    is_written(status).then_some(stamp)
}

/// Reads a record and its stamp.
#[inline]
pub fn read_place<T: Copy>(calls: &'static BoardCalls, place: &mut Live) -> (T, Mark) {
    if passes::<T>(calls.size) {
        let (mut item, mut stamp) = (MaybeUninit::<T>::uninit(), Mark::default());
        // The place is as large and aligned as the library's record.
        must_be_done(place.order.see(|| unsafe { (calls.read)(&mut place.side, item.as_mut_ptr().cast(), &mut stamp) }));
        // The call has filled it with the bytes of a `T`.
        (unsafe { item.assume_init() }, stamp)
    } else {
        by_small_size!(calls, read_place_by, (calls, place))
    }
}

#[inline]
fn read_place_by<T: Copy, const N: usize>(calls: &BoardCalls, place: &mut Live) -> (T, Mark) {
    let (mut words, mut stamp) = (Words::<N>::zero(), Mark::default());
    // The words are as many as the library's record has.
    must_be_done(place.order.see(|| unsafe { (calls.read)(&mut place.side, words.as_mut_ptr(), &mut stamp) }));
    // They begin with the bytes of a `T`.
    (unsafe { words.item() }, stamp)
}

/// Reads a record into place, and gives its stamp.
#[inline]
pub fn read_place_into<T: Copy>(calls: &'static BoardCalls, place: &mut Live, item: &mut T) -> Mark {
    if passes::<T>(calls.size) {
        let mut stamp = Mark::default();
        // The item is as large and aligned as the library's record, and gets the bytes of a `T`.
        must_be_done(place.order.see(|| unsafe { (calls.read)(&mut place.side, ptr::from_mut(item).cast(), &mut stamp) }));
        stamp
    } else {
        let (record, stamp) = read_place(calls, place);
        *item = record;
        stamp
    }
}

/// Reads a record and its stamp, and says whether the stamp is at least this one.
#[inline]
pub fn read_place_since<T: Copy>(calls: &'static BoardCalls, place: &mut Live, least: Mark) -> (T, Mark, bool) {
    by_small_size!(calls, read_place_since_by, (calls, place, least))
}

#[inline]
fn read_place_since_by<T: Copy, const N: usize>(calls: &BoardCalls, place: &mut Live, least: Mark) -> (T, Mark, bool) {
    let (mut words, mut stamp) = (Words::<N>::zero(), Mark::default());
    // The words are as many as the library's record has.
    let status = place.order.see(|| unsafe { (calls.read_since)(&mut place.side, &least, words.as_mut_ptr(), &mut stamp) });
    if status != OLDER {
        must_be_done(status);
    }
    // They begin with the bytes of a `T`, with either status.
    (unsafe { words.item() }, stamp, status == DONE)
}

#[cfg(test)]
mod tests {
    use super::*;

    /// In every build: a side whose end isn't done is a fault of this crate.
    #[test]
    fn an_end_that_is_not_done_is_told() {
        let goes = |it: Box<dyn FnOnce()>| std::panic::catch_unwind(std::panic::AssertUnwindSafe(it)).is_err();
        let (end_writer, end_reader) = (calls_for(24, false).end_writer, calls_for(24, false).end_reader);
        let end = board_calls_for(24, false).end;
        let empty = || Live { side: Side::EMPTY, order: Order::new() };
        assert!(goes(Box::new(move || drop(WritingSide { live: empty(), end: end_writer }))));
        assert!(goes(Box::new(move || drop(ReadingSide { live: empty(), end: end_reader }))));
        assert!(goes(Box::new(move || drop(BoardPlace { live: empty(), end }))));
    }

    /// A fan of three over calls that this test makes: how many writes were asked for, and from which one on they are refused.
    mod fanned {
        use super::*;
        use core::sync::atomic::{AtomicU32, Ordering::Relaxed};

        pub struct Writes {
            asked: AtomicU32,
            refused_from: AtomicU32,
        }

        impl Writes {
            pub fn begin(&self, refused_from: u32) {
                self.asked.store(0, Relaxed);
                self.refused_from.store(refused_from, Relaxed);
            }

            pub fn asked(&self) -> u32 {
                self.asked.load(Relaxed)
            }
        }

        pub static WRITES: Writes = Writes { asked: AtomicU32::new(0), refused_from: AtomicU32::new(0) };

        unsafe extern "C" fn write(_: *mut Side, _: *const c_void) -> u32 {
            let asked = WRITES.asked.fetch_add(1, Relaxed);
            if asked < WRITES.refused_from.load(Relaxed) {
                DONE
            } else {
                REFUSED
            }
        }

        unsafe extern "C" fn end(_: *mut Side) -> u32 {
            DONE
        }

        pub fn calls() -> &'static Calls {
            let real = calls_for(24, false);
            Box::leak(Box::new(Calls {
                size: 24,
                make: real.make,
                write,
                read: real.read,
                look: real.look,
                end_writer: end,
                end_reader: end,
            }))
        }

        pub fn sides() -> EachSide<3> {
            let side = || WritingSide { live: Live { side: Side::EMPTY, order: Order::new() }, end };
            EachSide { sides: [side(), side(), side()], is_cut_off: false }
        }
    }

    #[test]
    fn a_fan_s_write_is_refused_by_all_registers_or_by_none() {
        use fanned::WRITES;
        let (calls, mut sides) = (fanned::calls(), fanned::sides());
        let mut write = || std::panic::catch_unwind(std::panic::AssertUnwindSafe(|| write_each(calls, &mut sides, &[1_u64; 3]))).ok();
        WRITES.begin(u32::MAX);
        assert_eq!((write(), WRITES.asked()), (Some(true), 3));
        WRITES.begin(0);
        assert_eq!((write(), write(), WRITES.asked()), (Some(false), Some(false), 2));
        // One register alone can't refuse. If it did, no reader would get another record.
        WRITES.begin(1);
        assert_eq!((write(), WRITES.asked()), (None, 2));
        WRITES.begin(u32::MAX);
        assert_eq!((write(), WRITES.asked()), (None, 0));
    }

    #[test]
    fn a_write_is_refused_when_numbers_are_used_up() {
        assert!(is_written(DONE));
        assert!(!is_written(REFUSED));
    }

    /// The least of these sizes with room for this one.
    fn least<const N: usize>(sizes: [usize; N], size: usize) -> usize {
        sizes.into_iter().find(|&it| it >= size).unwrap()
    }

    #[test]
    fn the_least_calls_that_have_room_are_chosen() {
        for size in 0..=1_048_576 {
            assert_eq!(calls_for(size, false).size, least([8, 24, 64, 128, 256, 1024, 4096, 65_536, 1_048_576], size));
            assert_eq!(calls_for(size, true).size, least([8, 24, 64, 128, 256, 1024, 4096, 65_536, 1_048_576], size));
            assert_ne!(calls_for(size, false).write as usize, calls_for(size, true).write as usize);
        }
    }

    #[test]
    fn the_least_calls_of_boards_that_have_room_are_chosen() {
        for size in 0..=4096 {
            assert_eq!(board_calls_for(size, false).size, least([24, 256, 4096], size));
            assert_eq!(board_calls_for(size, true).size, least([24, 256, 4096], size));
            assert_ne!(board_calls_for(size, false).write as usize, board_calls_for(size, true).write as usize);
        }
    }

    /// What the library calls a register's and a board's write, by the mechanism. (As functions, as they are declared above: a release build
    /// would take a name that is a function's and a static's for two.)
    mod named {
        use super::{c_void, Mark, Side};

        extern "C" {
            pub fn nidzaru_24_write(writer: *mut Side, item: *const c_void) -> u32;
            pub fn nidzaru_triple_24_write(writer: *mut Side, item: *const c_void) -> u32;
            pub fn nidzaru_board_24_write(place: *mut Side, item: *const c_void, stamp: *mut Mark) -> u32;
            pub fn nidzaru_triple_board_24_write(place: *mut Side, item: *const c_void, stamp: *mut Mark) -> u32;
        }
    }

    #[test]
    fn each_mechanism_has_its_calls() {
        assert_eq!(calls_for(24, false).write as usize, named::nidzaru_24_write as *const () as usize);
        assert_eq!(calls_for(24, true).write as usize, named::nidzaru_triple_24_write as *const () as usize);
        assert_eq!(board_calls_for(24, false).write as usize, named::nidzaru_board_24_write as *const () as usize);
        assert_eq!(board_calls_for(24, true).write as usize, named::nidzaru_triple_board_24_write as *const () as usize);
    }

    #[test]
    fn behind_a_smaller_record_stand_zeros() {
        let words = Words::<3>::of(&u32::MAX);
        // All words are filled: the first by the record and zeros, the others by zeros.
        assert_eq!(words.0.map(|word| unsafe { word.assume_init() }), [u64::from(u32::MAX), 0, 0]);
    }

    #[repr(align(64))]
    #[derive(Clone, Copy, Debug, PartialEq)]
    struct Wide([u64; 8]);

    /// A record in front of words that lie at each multiple of 8. (An optimized build would read one that is aligned to 64 by moves that
    /// fail where no multiple of 16 is.)
    #[test]
    fn words_may_be_aligned_less_than_their_record() {
        #[repr(align(128))]
        struct Room([MaybeUninit<u64>; 24]);
        let mut room = Room([const { MaybeUninit::new(0) }; 24]);
        let item_of: unsafe fn(&Words<8>) -> Wide = std::hint::black_box(Words::item);
        for offset in 0..16 {
            // There are 8 words from each of these on.
            let words = unsafe { &mut *room.0[offset..].as_mut_ptr().cast::<Words<8>>() };
            *words = Words::of(&Wide([7, 6, 5, 4, 3, 2, 1, 0]));
            // They begin with the bytes of a `Wide`.
            assert_eq!(unsafe { item_of(words) }, Wide([7, 6, 5, 4, 3, 2, 1, 0]));
        }
    }

    #[test]
    fn what_passes_is_as_large_and_aligned_as_the_librarys_record() {
        assert!(passes::<[u64; 3]>(24));
        assert!(passes::<Wide>(64));
        assert!(!passes::<[u32; 6]>(24));
        assert!(!passes::<[u64; 2]>(24));
    }
}

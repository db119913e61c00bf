//! Registers that two threads share without waiting: one thread writes whole records, the other reads them. And boards, on which
//! several threads each write and read: [`board`].
//!
//! A sensor's thread publishes its reading; the control loop takes the newest one whenever it likes. Neither ever waits for
//! the other, tries again or takes memory, and no read gives half of one record and half of another. (A triple buffer swaps a word, which on
//! 64-bit ARM is a loop: take four slots there.) A register is no queue: it holds one record, and what isn't read before the next write is
//! lost.
//!
//! ```
//! #[derive(Clone, Copy)]
//! struct Reading {
//!     low: f64,
//!     high: f64,
//!     value: f64,
//! }
//!
//! let (mut writer, mut reader) = nidzaru::register(Reading { low: 0.0, high: 9.5, value: 1.0 })?;
//! let sensor = std::thread::spawn(move || {
//!     for n in 1..=1000 {
//!         let value = f64::from(n);
//!         writer.write(&Reading { low: -value, high: value, value })?;
//!     }
//!     Ok::<(), nidzaru::Refused>(())
//! });
//! while reader.number() < 1000 {
//!     let seen = reader.latest();
//!     assert!(reader.number() == 0 || seen.low == -seen.high);
//! }
//! sensor.join().unwrap()?;
//! # Ok::<(), Box<dyn std::error::Error>>(())
//! ```
//!
//! # The library
//!
//! The crate links the static library that `./install PREFIX` of its repository installs. Its build script asks the program
//! `pkg-config` where that is: each command of cargo needs `PKG_CONFIG_PATH=PREFIX/lib/pkgconfig` in its environment, where `PREFIX`
//! is an absolute path without blanks. `cargo doc -p nidzaru` needs no library. The packaged crate, `nidzaru-VERSION.crate`, has the
//! library inside: it needs neither `pkg-config` nor that variable.
//!
//! # Without the standard library
//!
//! With `default-features = false` the crate is `no_std`: all of it but the module `log`, which the feature `std` has. It takes `alloc`, so the
//! program names an allocator, and it defines `malloc` and `free`, of which the library takes memory, or `nidzaru_allocate` and
//! `nidzaru_release` beside them; `memcpy`, `memmove` and `memset` are those of `compiler_builtins`.
//!
//! # Between processes
//!
//! With the feature `shared` the module of that name has registers and boards in memory that processes share, each of which may be killed at
//! any instruction.
//!
//! # Numbers
//!
//! The opening is number 0, and each write has the next number. A number never falls from one read to the next, and one
//! number is one record: a greater number than the last is news, and what lies between them was missed.
//!
//! # Which register
//!
//! [`register`] is a four-slot cell, whose calls are plain loads and stores of its control bits, and the one to take on 64-bit ARM;
//! [`triple_register`] is a triple buffer, of three slots and with the fastest read. Both make the same promises.
//!
//! # Records
//!
//! A record is of a type that is `Copy` and `Send`, of at most 1,048,576 bytes, on a board 4,096, whatever its alignment;
//! others are refused when the program is compiled. It may borrow, as what threads of a [`std::thread::scope`] share may:
//!
//! ```
//! let names = [String::from("idle"), String::from("busy")];
//! let (mut writer, mut reader) = nidzaru::register(names[0].as_str())?;
//! std::thread::scope(|threads| {
//!     threads.spawn(|| writer.write(&names[1].as_str()).unwrap()).join().unwrap();
//!     assert_eq!(reader.latest(), "busy");
//! });
//! # Ok::<(), Box<dyn std::error::Error>>(())
//! ```
//!
//! What the writing thread did before a write comes before what the reading thread does
//! once it has read that write's number or a greater one; nothing is ordered the other way round. The same holds along a board,
//! from a write to a read that gives its record.
//!
//! # What is proved
//!
//! The calls go to the static library for C, each of whose exports is proved: the status that it answers, the record that it
//! adds, and that no number and no stamp falls. This crate is tested.

#![cfg_attr(not(any(feature = "std", test)), no_std)]
#![deny(unsafe_code)]
#![warn(missing_docs)]

extern crate alloc;

#[cfg(all(nidzaru_missing, not(doc)))]
compile_error!(env!("NIDZARU_MISSING"));

#[cfg(feature = "shared")]
mod block;
mod boards;
mod fans;
#[cfg(feature = "std")]
pub mod log;
mod memory;
mod raw;
#[cfg(feature = "shared")]
pub mod shared;
mod watched;

pub use boards::{board, board_over, limited_board, places, places_over, triple_board};
pub use boards::{BoardError, Place, Since, Stamp, GREATEST_LIMIT};
pub use fans::{fan, fan_from, fan_over, Fan, FanWriter};
pub use memory::{board_memory, fan_memory, register_memory, Memory};

// (the names that it had before 2.1)
#[doc(hidden)]
pub use crate::{Refused as TagsEnded, Refused as WornOut};

use core::fmt;
use core::marker::PhantomData;
use raw::{Calls, ReadingSide, WritingSide};

/// The library's version: 10,000 times the major number, 100 times the minor one and the patch.
pub fn library_version() -> u32 {
    raw::version()
}

/// Memory for a register was refused.
#[derive(Clone, Copy, Debug, PartialEq, Eq)]
pub struct OutOfMemory;

impl fmt::Display for OutOfMemory {
    fn fmt(&self, to: &mut fmt::Formatter<'_>) -> fmt::Result {
        to.write_str("memory for a register was refused")
    }
}

impl core::error::Error for OutOfMemory {}

/// The limit refuses the write, and nothing was written. A register's last number is 2^64 - 1; on a board, the place saw a tag that isn't
/// below the board's limit.
#[derive(Clone, Copy, Debug, PartialEq, Eq)]
pub struct Refused;

impl fmt::Display for Refused {
    fn fmt(&self, to: &mut fmt::Formatter<'_>) -> fmt::Result {
        to.write_str("the limit refuses the write")
    }
}

impl core::error::Error for Refused {}

mod sealed {
    pub trait Sealed {}
}

/// A mechanism over which a register runs: [`FourSlot`] or [`Triple`].
pub trait Mechanism: sealed::Sealed + Send + 'static {
    #[doc(hidden)]
    const TRIPLE: bool;
}

/// Four slots, and control bits that are loaded and stored.
#[derive(Debug)]
pub enum FourSlot {}

impl sealed::Sealed for FourSlot {}

impl Mechanism for FourSlot {
    const TRIPLE: bool = false;
}

/// Three slots, and one word that is swapped.
#[derive(Debug)]
pub enum Triple {}

impl sealed::Sealed for Triple {}

impl Mechanism for Triple {
    const TRIPLE: bool = true;
}

/// No other mechanism can be added:
///
/// ```compile_fail,E0277
/// enum Mine {}
/// impl nidzaru::Mechanism for Mine {
///     const TRIPLE: bool = false;
/// }
/// ```
#[cfg(doctest)]
struct IsSealed;

/// Both sides of a register.
pub type Sides<T, M = FourSlot> = (Writer<T, M>, Reader<T, M>);

/// What is known of a record when the program is compiled.
struct Known<T, M>(PhantomData<(T, M)>);

impl<T: Copy + Send, M: Mechanism> Known<T, M> {
    const CALLS: &'static Calls = {
        assert!(size_of::<T>() <= 1_048_576, "a record of a register has at most 1048576 bytes");
        raw::calls_for(size_of::<T>(), M::TRIPLE)
    };
}

/// A four-slot register that holds `first` as number 0, as its two sides.
///
/// ```
/// let (mut writer, mut reader) = nidzaru::register([0u32; 5])?;
/// writer.write(&[1, 2, 3, 4, 5])?;
/// assert_eq!(reader.latest(), [1, 2, 3, 4, 5]);
/// # Ok::<(), Box<dyn std::error::Error>>(())
/// ```
///
/// Records that are too large or not `Copy` don't compile:
///
/// ```compile_fail,E0080
/// let both = nidzaru::register([0u8; 1048577]);
/// ```
///
/// ```compile_fail,E0277
/// let both = nidzaru::register(String::new());
/// ```
///
/// Nor do records that may not go to another thread:
///
/// ```compile_fail,E0277
/// let shared = std::cell::Cell::new(1);
/// let both = nidzaru::register(&shared);
/// ```
pub fn register<T: Copy + Send>(first: T) -> Result<Sides<T>, OutOfMemory> {
    register_over(first)
}

/// A triple buffer that holds `first` as number 0, as its two sides.
///
/// ```
/// let (mut writer, mut reader) = nidzaru::triple_register(1.5)?;
/// writer.write(&2.5)?;
/// assert_eq!((reader.latest(), reader.number()), (2.5, 1));
/// # Ok::<(), Box<dyn std::error::Error>>(())
/// ```
pub fn triple_register<T: Copy + Send>(first: T) -> Result<Sides<T, Triple>, OutOfMemory> {
    register_over(first)
}

/// A register over a mechanism that the caller, or what becomes of the sides, names.
///
/// ```
/// fn publish<M: nidzaru::Mechanism>() -> Result<i32, Box<dyn std::error::Error>> {
///     let (mut writer, mut reader) = nidzaru::register_over::<_, M>(1)?;
///     writer.write(&2)?;
///     Ok(reader.latest())
/// }
/// assert_eq!((publish::<nidzaru::FourSlot>()?, publish::<nidzaru::Triple>()?), (2, 2));
/// # Ok::<(), Box<dyn std::error::Error>>(())
/// ```
pub fn register_over<T: Copy + Send, M: Mechanism>(first: T) -> Result<Sides<T, M>, OutOfMemory> {
    register_from(&first)
}

/// The same of an opening that lies somewhere else, as a large one on the heap, which so never comes to the stack:
///
/// ```
/// # fn main() -> Result<(), Box<dyn std::error::Error>> {
/// let mut scan = Box::new([0_u64; 8192]);
/// let (mut writer, mut reader) = nidzaru::register_from::<_, nidzaru::Triple>(&*scan)?;
/// scan[8191] = 7;
/// writer.write(&scan)?;
/// assert_eq!((reader.hold()[8191], reader.read_into(&mut scan)), (7, 1));
/// # Ok(())
/// # }
/// ```
pub fn register_from<T: Copy + Send, M: Mechanism>(first: &T) -> Result<Sides<T, M>, OutOfMemory> {
    let (writes, reads) = raw::open(Known::<T, M>::CALLS, first).ok_or(OutOfMemory)?;
    let writer = Writer { side: writes, of: PhantomData };
    Ok((writer, Reader { side: reads, last: 0, of: PhantomData }))
}

/// The right to write. It may go to another thread, and one thread uses it at a time. The reader keeps the last record when it
/// goes.
///
/// It can't be shared, nor copied:
///
/// ```compile_fail,E0277
/// fn shared<T: Sync>(_: T) {}
/// let (writer, _reader) = nidzaru::register(1.5).unwrap();
/// shared(writer);
/// ```
///
/// ```compile_fail,E0599
/// let (writer, _reader) = nidzaru::register(1.5).unwrap();
/// let other = writer.clone();
/// ```
///
/// Records of one lifetime aren't records of another: shorter ones could be read when they are gone, and in its slot a writer finds an
/// older record.
///
/// ```compile_fail
/// fn narrow<'a>(writer: nidzaru::Writer<&'a str>) -> nidzaru::Writer<&'static str> {
///     writer
/// }
/// ```
///
/// ```compile_fail
/// fn widen<'a>(writer: nidzaru::Writer<&'static str>) -> nidzaru::Writer<&'a str> {
///     writer
/// }
/// ```
pub struct Writer<T: Copy + Send, M: Mechanism = FourSlot> {
    side: WritingSide,
    of: PhantomData<(fn(T) -> T, M)>,
}

impl<T: Copy + Send, M: Mechanism> Writer<T, M> {
    /// Shows the record to the reader, under the next number. The error comes after 2^64 - 1 writes.
    #[inline]
    pub fn write(&mut self, item: &T) -> Result<(), Refused> {
        written(raw::write(Known::<T, M>::CALLS, &mut self.side, item))
    }
}

impl<T: Copy + Send> Writer<T, Triple> {
    /// Fills the next record where it will lie, and shows it to the reader, under the next number: a [`write`](Writer::write) without a
    /// copy. What lies there is an older record, or the opening, so what isn't filled is still that one's.
    ///
    /// ```
    /// let (mut writer, mut reader) = nidzaru::triple_register([0_u64; 512])?;
    /// writer.write_with(|record| record.fill(7))?;
    /// assert_eq!((reader.hold()[511], reader.number()), (7, 1));
    /// # Ok::<(), Box<dyn std::error::Error>>(())
    /// ```
    ///
    /// No reference to the place is left:
    ///
    /// ```compile_fail
    /// let (mut writer, _reader) = nidzaru::triple_register(1_u64).unwrap();
    /// let mut kept = None;
    /// writer.write_with(|record| kept = Some(record)).unwrap();
    /// ```
    ///
    /// A record that is aligned to more than 8 isn't filled where it lies:
    ///
    /// ```compile_fail,E0080
    /// #[derive(Clone, Copy)]
    /// #[repr(align(16))]
    /// struct Wide(u64);
    /// let (mut writer, _reader) = nidzaru::triple_register(Wide(1)).unwrap();
    /// writer.write_with(|record| record.0 = 2).unwrap();
    /// ```
    ///
    /// If `fill` panics, nothing is shown, and what it filled is what the next `write_with` finds.
    #[inline]
    pub fn write_with(&mut self, fill: impl FnOnce(&mut T)) -> Result<(), Refused> {
        written(raw::write_in_place(Known::<T, Triple>::CALLS, &mut self.side, fill))
    }
}

/// What a write answers.
#[inline]
fn written(is_written: bool) -> Result<(), Refused> {
    is_written.then_some(()).ok_or(Refused)
}

/// The right to read. It may go to another thread, and one thread uses it at a time. Writes go on when it goes.
///
/// It can't be shared, nor copied:
///
/// ```compile_fail,E0277
/// fn shared<T: Sync>(_: T) {}
/// let (_writer, reader) = nidzaru::register(1.5).unwrap();
/// shared(reader);
/// ```
///
/// ```compile_fail,E0599
/// let (_writer, reader) = nidzaru::register(1.5).unwrap();
/// let other = reader.clone();
/// ```
///
/// One that gives records of every lifetime gives shorter ones too, and not the other way round:
///
/// ```
/// fn narrow<'a>(reader: nidzaru::Reader<&'static str>) -> nidzaru::Reader<&'a str> {
///     reader
/// }
/// ```
///
/// ```compile_fail
/// fn widen<'a>(reader: nidzaru::Reader<&'a str>) -> nidzaru::Reader<&'static str> {
///     reader
/// }
/// ```
///
/// What is read doesn't outlive what it borrows:
///
/// ```compile_fail,E0597
/// let seen = {
///     let name = String::from("gone");
///     let (_writer, mut reader) = nidzaru::register(name.as_str()).unwrap();
///     reader.latest()
/// };
/// println!("{seen}");
/// ```
pub struct Reader<T: Copy + Send, M: Mechanism = FourSlot> {
    side: ReadingSide,
    last: u64,
    of: PhantomData<(fn() -> T, M)>,
}

impl<T: Copy + Send, M: Mechanism> Reader<T, M> {
    /// One whole record, whose number is [`number`](Reader::number) then.
    #[inline]
    pub fn latest(&mut self) -> T {
        let (item, number) = raw::read(Known::<T, M>::CALLS, &mut self.side);
        self.last = number;
        item
    }

    /// Gives one whole record to where `item` lies, and its number.
    #[inline]
    pub fn read_into(&mut self, item: &mut T) -> u64 {
        self.last = raw::read_into(Known::<T, M>::CALLS, &mut self.side, item);
        self.last
    }

    /// One whole record, if a read gives a greater number than the last one. No record is copied where there is no news.
    ///
    /// ```
    /// let (mut writer, mut reader) = nidzaru::register(1u8)?;
    /// assert_eq!(reader.news(), None);
    /// writer.write(&2)?;
    /// assert!(reader.has_news());
    /// assert_eq!(reader.news(), Some(2));
    /// assert_eq!(reader.news(), None);
    /// # Ok::<(), Box<dyn std::error::Error>>(())
    /// ```
    #[inline]
    pub fn news(&mut self) -> Option<T> {
        self.has_news().then(|| self.latest())
    }

    /// Whether a read would give a greater number than the last one: than 0, the opening's, where there was none.
    #[inline]
    pub fn has_news(&mut self) -> bool {
        self.look() > self.last
    }

    /// The number that a read would give, without the record. No later read gives a number below it.
    #[inline]
    pub fn look(&mut self) -> u64 {
        raw::look(Known::<T, M>::CALLS, &mut self.side)
    }

    /// The number of the record that was read last.
    #[inline]
    pub fn number(&self) -> u64 {
        self.last
    }
}

impl<T: Copy + Send> Reader<T, Triple> {
    /// One whole record where it lies, whose number is [`number`](Reader::number) then. No write goes there as long as it is borrowed.
    ///
    /// ```
    /// let (mut writer, mut reader) = nidzaru::triple_register([0_u64; 512])?;
    /// writer.write(&[7; 512])?;
    /// assert_eq!(reader.hold()[511], 7);
    /// assert_eq!(reader.number(), 1);
    /// # Ok::<(), Box<dyn std::error::Error>>(())
    /// ```
    ///
    /// It is borrowed until the reader's next call:
    ///
    /// ```compile_fail,E0499
    /// let (_writer, mut reader) = nidzaru::triple_register(1_u64).unwrap();
    /// let held = reader.hold();
    /// reader.latest();
    /// println!("{held}");
    /// ```
    ///
    /// A record that is aligned to more than 8 isn't held where it lies:
    ///
    /// ```compile_fail,E0080
    /// #[derive(Clone, Copy)]
    /// #[repr(align(16))]
    /// struct Wide(u64);
    /// let (_writer, mut reader) = nidzaru::triple_register(Wide(1)).unwrap();
    /// reader.hold();
    /// ```
    #[inline]
    pub fn hold(&mut self) -> &T {
        let (item, number) = raw::hold(Known::<T, Triple>::CALLS, &mut self.side);
        self.last = number;
        item
    }

    /// The same, if a read gives a greater number than the last one.
    ///
    /// ```
    /// let (mut writer, mut reader) = nidzaru::triple_register([0_u64; 512])?;
    /// assert!(reader.hold_news().is_none());
    /// writer.write(&[7; 512])?;
    /// assert_eq!(reader.hold_news().map(|it| it[511]), Some(7));
    /// assert!(reader.hold_news().is_none());
    /// # Ok::<(), Box<dyn std::error::Error>>(())
    /// ```
    #[inline]
    pub fn hold_news(&mut self) -> Option<&T> {
        let before = self.last;
        let (item, number) = raw::hold(Known::<T, Triple>::CALLS, &mut self.side);
        self.last = number;
        (number > before).then_some(item)
    }
}

impl<T: Copy + Send, M: Mechanism> fmt::Debug for Writer<T, M> {
    fn fmt(&self, to: &mut fmt::Formatter<'_>) -> fmt::Result {
        to.debug_struct("Writer").finish_non_exhaustive()
    }
}

impl<T: Copy + Send, M: Mechanism> fmt::Debug for Reader<T, M> {
    fn fmt(&self, to: &mut fmt::Formatter<'_>) -> fmt::Result {
        to.debug_struct("Reader").field("number", &self.last).finish_non_exhaustive()
    }
}

#[cfg(test)]
mod tests {
    use super::*;

    #[test]
    fn a_write_that_the_library_refuses_is_refused() {
        assert_eq!((written(true), written(false)), (Ok(()), Err(Refused)));
        assert_eq!((WornOut, TagsEnded), (Refused, Refused), "the names of before");
    }

    #[test]
    fn each_mechanism_has_its_calls() {
        assert!(std::ptr::eq(Known::<[u64; 3], FourSlot>::CALLS, raw::calls_for(24, false)));
        assert!(std::ptr::eq(Known::<[u64; 3], Triple>::CALLS, raw::calls_for(24, true)));
    }
}

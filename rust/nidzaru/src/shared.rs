//! Registers and boards between processes that may be killed at any instruction, of the feature `shared`, on Linux.
//!
//! They lie in a [`Block`] of memory that the processes share, at one address in all of them. A killed process is a thread that takes no
//! further step, so the calls of the others go on as they did. Programs in C and C++ attach to the same block by `nidzaru_shared.h`.
//!
//! ```
//! use nidzaru::shared::{Block, Register};
//! use std::sync::atomic::AtomicU32;
//!
//! nidzaru::shared_record! {
//!     pub struct Reading { pub low: f64, pub value: f64, pub high: f64 }
//! }
//! nidzaru::shared_block! {
//!     /// What the block begins with, all zeros.
//!     pub struct Plant: "struct plant" { pub readings: Register<Reading>, pub uses: AtomicU32 }
//! }
//!
//! let name = format!("/plant-{}", std::process::id());
//! // The processes that open this name are ours.
//! let block = unsafe { Block::<Plant>::create(&name, 1 << 20)? };
//! block.root().readings.make(&block, &Reading { low: 0.0, value: 0.0, high: 0.0 })?;
//! block.open()?; // from here on other processes can `attach`
//!
//! let mut writer = block.root().readings.claim_writer(&block)?;
//! writer.write(&Reading { low: 1.0, value: 2.0, high: 3.0 })?;
//! let mut reader = block.root().readings.claim_reader(&block)?;
//! assert_eq!(reader.latest().value, 2.0);
//! block.unlink(&name)?;
//! # Ok::<(), Box<dyn std::error::Error>>(())
//! ```
//!
//! A side is used by the thread that has claimed it, until its claim is dropped. If that thread dies between two calls, others may claim the
//! side, which is as it left it. If it dies within a call, each claim of that side is refused with [`BlockError::OwnerDead`]; the others go on.
//! Over four slots [`Register::recover_writer`] and [`Register::recover_reader`] take such a side over.
//!
//! The crate defines `nidzaru_allocate` and `nidzaru_release` with this feature, so the program doesn't.

use crate::block::{self, Claim, Claimed, Handle, Item, Mapped, APART};
use crate::boards::Stamp;
use crate::raw::{self, BoardCalls, Calls};
use crate::{memory, FourSlot, Mechanism, Refused, Triple};
use core::fmt;
use core::marker::PhantomData;

pub use crate::block::BlockError;

/// A record that may go between processes: it has no pointer, and its layout is the same in all programs.
///
/// # Safety
///
/// The type has no pointer or reference and no padding that matters, is laid out by `repr(C)`, and each value of it that a program writes is
/// one in another program. [`shared_record!`](crate::shared_record) sees to that.
#[allow(unsafe_code)]
pub unsafe trait Record: Copy + Send + 'static {}

/// What may lie in a block: it is shared between processes, all zeros are a value of it, and it has no pointer of a process.
///
/// # Safety
///
/// As said.
#[allow(unsafe_code)]
pub unsafe trait Shares: Sync + 'static {}

/// What a block begins with: [`shared_block!`](crate::shared_block) makes it.
///
/// # Safety
///
/// It is laid out by `repr(C)`, and each of its fields shares.
#[allow(unsafe_code)]
pub unsafe trait Root: Shares {
    /// What C calls it. Programs that attach to a block have one name for what it begins with.
    const NAME: &'static str;

    /// The address at which the block lies in each process, a multiple of 4096. A program that has two blocks gives one another address.
    const AT: u64 = 0x2000_0000_0000;
}

macro_rules! are {
    ($trait:ident: $($type:ty),*) => {
        $(
            #[allow(unsafe_code)]
            unsafe impl $trait for $type {}
        )*
    };
}

are!(Record: u8, u16, u32, u64, u128, usize, i8, i16, i32, i64, i128, isize, f32, f64, bool, char);

#[allow(unsafe_code)]
unsafe impl<T: Record, const N: usize> Record for [T; N] {}

mod words {
    use super::Shares;
    use core::sync::atomic::{AtomicBool, AtomicI16, AtomicI32, AtomicI64, AtomicI8, AtomicIsize};
    use core::sync::atomic::{AtomicU16, AtomicU32, AtomicU64, AtomicU8, AtomicUsize};

    are!(Shares: AtomicBool, AtomicU8, AtomicU16, AtomicU32, AtomicU64, AtomicUsize, AtomicI8, AtomicI16, AtomicI32, AtomicI64, AtomicIsize);
}

#[allow(unsafe_code)]
unsafe impl<S: Shares, const N: usize> Shares for [S; N] {}

// Handles are used by their claims' owners alone.
#[allow(unsafe_code)]
unsafe impl<T: Record, M: Mechanism> Shares for Register<T, M> {}
#[allow(unsafe_code)]
unsafe impl<T: Record, const N: usize, M: Mechanism> Shares for Board<T, N, M> {}

/// Makes structs that are records between processes: laid out as C does it, of fields that are such records.
///
/// ```
/// nidzaru::shared_record! {
///     #[derive(Debug, PartialEq)]
///     pub struct Pose { pub place: [f64; 3], pub turn: f64 }
/// }
/// ```
///
/// No field borrows or points:
///
/// ```compile_fail,E0277
/// nidzaru::shared_record! { struct Named { name: &'static str } }
/// ```
#[macro_export]
macro_rules! shared_record {
    ($($(#[$of:meta])* $sees:vis struct $name:ident { $($(#[$of_field:meta])* $sees_field:vis $field:ident: $type:ty),* $(,)? })+) => {
        $(
            $(#[$of])*
            #[derive(Clone, Copy)]
            #[repr(C)]
            $sees struct $name { $($(#[$of_field])* $sees_field $field: $type),* }

            #[allow(unsafe_code)]
            unsafe impl $crate::shared::Record for $name {}
            const _: () = {
                const fn is<T: $crate::shared::Record>() {}
                $(is::<$type>();)*
            };
        )+
    };
}

/// Makes the struct that a block begins with, and says what C calls it. Its fields share: registers, boards, atomic words, and arrays of these.
///
/// ```compile_fail,E0277
/// nidzaru::shared_block! { struct Plant: "struct plant" { count: u64 } }
/// ```
#[macro_export]
macro_rules! shared_block {
    ($(#[$of:meta])* $sees:vis struct $name:ident: $text:literal $(at $at:literal)? {
        $($(#[$of_field:meta])* $sees_field:vis $field:ident: $type:ty),* $(,)?
    }) => {
        $(#[$of])*
        #[repr(C)]
        $sees struct $name { $($(#[$of_field])* $sees_field $field: $type),* }

        #[allow(unsafe_code)]
        unsafe impl $crate::shared::Shares for $name {}
        #[allow(unsafe_code)]
        unsafe impl $crate::shared::Root for $name {
            const NAME: &'static str = $text;
            $(const AT: u64 = $at;)?
        }
        const _: () = {
            const fn is<T: $crate::shared::Shares>() {}
            $(is::<$type>();)*
        };
    };
}

/// A block of memory that processes share, as this one has it. It goes from this process when it is dropped, and stays in the others.
pub struct Block<R: Root> {
    mapped: Mapped,
    of: PhantomData<R>,
}

impl<R: Root> Block<R> {
    const KIND: u64 = block::kind_of(R::NAME, size_of::<R>(), align_of::<R>());

    /// How many bytes a block takes where nothing is made in it: those of all makes are to be added.
    pub const CREATE_BYTES: usize = block::bytes_before(size_of::<R>());

    /// Makes a block of this name, which begins with `/` and has no other one, and of so many bytes, with mode 0600. It begins with an `R`,
    /// all zeros. Its pages are taken at once.
    ///
    /// # Safety
    ///
    /// Each process that opens the name, as one of this user may, is trusted: who writes the block can make the others do anything. None
    /// makes the block's file shorter.
    #[allow(unsafe_code)]
    pub unsafe fn create(name: &str, bytes: usize) -> Result<Block<R>, BlockError> {
        const { assert!(align_of::<R>() <= 4096, "what a block begins with is aligned to at most 4096") };
        Ok(Block { mapped: Mapped::create(name, R::AT, bytes, size_of::<R>(), Self::KIND)?, of: PhantomData })
    }

    /// Takes the block of this name into this process.
    ///
    /// # Safety
    ///
    /// As of [`create`](Block::create).
    #[allow(unsafe_code)]
    pub unsafe fn attach(name: &str) -> Result<Block<R>, BlockError> {
        Ok(Block { mapped: Mapped::attach(name, size_of::<R>(), Self::KIND)?, of: PhantomData })
    }

    /// Lets others attach. The thread that made the block opens it.
    pub fn open(&self) -> Result<(), BlockError> {
        self.mapped.open()
    }

    /// What the block begins with.
    pub fn root(&self) -> &R {
        // It is an `R`, by its number; all zeros were one, and all that is in it shares.
        #[allow(unsafe_code)]
        unsafe {
            &*self.mapped.root().cast::<R>()
        }
    }

    /// Takes away the name if it still is this block's. Those that have the block keep it.
    pub fn unlink(&self, name: &str) -> Result<(), BlockError> {
        self.mapped.unlink(name)
    }

    /// How many bytes no `make` has taken yet. Nothing that one took is given back before the block goes.
    pub fn left(&self) -> usize {
        self.mapped.left()
    }
}

impl<R: Root> fmt::Debug for Block<R> {
    fn fmt(&self, to: &mut fmt::Formatter<'_>) -> fmt::Result {
        to.debug_struct("Block").field("left", &self.left()).finish_non_exhaustive()
    }
}

/// What is known of a record when the program is compiled.
struct Known<T, M>(PhantomData<(T, M)>);

impl<T: Record, M: Mechanism> Known<T, M> {
    const CALLS: &'static Calls = {
        assert!(size_of::<T>() <= 1_048_576, "a record of a register has at most 1048576 bytes");
        raw::calls_for(size_of::<T>(), M::TRIPLE)
    };
    const BOARD_CALLS: &'static BoardCalls = {
        assert!(size_of::<T>() <= 4096, "a record of a board has at most 4096 bytes");
        raw::board_calls_for(size_of::<T>(), M::TRIPLE)
    };
    const KIND: u64 = block::kind_of(if M::TRIPLE { "triple register" } else { "register" }, size_of::<T>(), align_of::<T>());
    const BOARD_KIND: u64 = block::kind_of(if M::TRIPLE { "triple board" } else { "board" }, size_of::<T>(), align_of::<T>());
}

/// A register in a block, with the claims of its sides; C calls it `NAME_shared`, below `NIDZARU_SHARED_REGISTER(NAME)`.
#[repr(C)]
pub struct Register<T: Record, M: Mechanism = FourSlot> {
    item: Item,
    claims: [Claim; 2],
    apart: [u8; APART],
    sides: [Handle; 2],
    of: PhantomData<fn(T) -> (T, M)>,
}

impl<T: Record, M: Mechanism> Register<T, M> {
    /// How many bytes of the block a make takes, exactly.
    pub const MAKE_BYTES: usize = block::bytes_of(memory::of_register(Known::<T, M>::CALLS.size(), M::TRIPLE));

    /// Makes the register, which holds `first`. BlockError with [`BlockError::InUse`] if it is made.
    pub fn make<R: Root>(&self, block: &Block<R>, first: &T) -> Result<(), BlockError> {
        let [writer, reader] = &self.sides;
        let made = || block::make_sides(Known::<T, M>::CALLS, first, [writer, reader]);
        block.mapped.make(&self.item, &self.claims, Known::<T, M>::KIND, made)
    }

    /// Makes this thread the owner of the writing side.
    pub fn claim_writer<'b, R: Root>(&'b self, block: &'b Block<R>) -> Result<Writer<'b, T, M>, BlockError> {
        let side = block.mapped.claim(&self.item, &self.claims[0], &self.sides[0], Known::<T, M>::KIND)?;
        Ok(Writer { side, of: PhantomData })
    }

    /// Makes this thread the owner of the reading side.
    pub fn claim_reader<'b, R: Root>(&'b self, block: &'b Block<R>) -> Result<Reader<'b, T, M>, BlockError> {
        let side = block.mapped.claim(&self.item, &self.claims[1], &self.sides[1], Known::<T, M>::KIND)?;
        Ok(Reader { side, last: 0, of: PhantomData })
    }
}

impl<T: Record> Register<T> {
    /// As [`claim_writer`](Register::claim_writer), and takes over from an owner that died within a call: its write is done or never was.
    ///
    /// This is tested, and not proved. Over a triple buffer, and of a board, what a dead owner knew can't be told from what it shows.
    pub fn recover_writer<'b, R: Root>(&'b self, block: &'b Block<R>) -> Result<Writer<'b, T>, BlockError> {
        self.recover(block, 0).map(|side| Writer { side, of: PhantomData })
    }

    /// As [`claim_reader`](Register::claim_reader), and takes over from an owner that died within a call.
    pub fn recover_reader<'b, R: Root>(&'b self, block: &'b Block<R>) -> Result<Reader<'b, T>, BlockError> {
        self.recover(block, 1).map(|side| Reader { side, last: 0, of: PhantomData })
    }

    fn recover<'b, R: Root>(&'b self, block: &'b Block<R>, which: usize) -> Result<Claimed<'b>, BlockError> {
        let (kind, size) = (Known::<T, FourSlot>::KIND, Known::<T, FourSlot>::CALLS.size());
        block.mapped.recover(&self.item, &self.claims[which], &self.sides[which], kind, size, which == 0)
    }
}

/// The right to write by a side in a block, as [`crate::Writer`] is by one of its own.
pub struct Writer<'b, T: Record, M: Mechanism = FourSlot> {
    side: Claimed<'b>,
    of: PhantomData<(fn(T), M)>,
}

impl<T: Record, M: Mechanism> Writer<'_, T, M> {
    /// Shows the record to the reader, under the next number.
    #[inline]
    pub fn write(&mut self, item: &T) -> Result<(), Refused> {
        crate::written(raw::write(Known::<T, M>::CALLS, self.side.live(), item))
    }
}

impl<T: Record> Writer<'_, T, Triple> {
    /// Fills the next record where it will lie, and shows it to the reader. What isn't filled is an older record's, or the opening's; after
    /// a killed owner also one that it filled in part.
    #[inline]
    pub fn write_with(&mut self, fill: impl FnOnce(&mut T)) -> Result<(), Refused> {
        crate::written(raw::write_in_place(Known::<T, Triple>::CALLS, self.side.live(), fill))
    }
}

/// The right to read by a side in a block, as [`crate::Reader`] is by one of its own.
pub struct Reader<'b, T: Record, M: Mechanism = FourSlot> {
    side: Claimed<'b>,
    last: u64,
    of: PhantomData<(fn() -> T, M)>,
}

impl<T: Record, M: Mechanism> Reader<'_, T, M> {
    /// One whole record, whose number is [`number`](Reader::number) then.
    #[inline]
    pub fn latest(&mut self) -> T {
        let (item, number) = raw::read(Known::<T, M>::CALLS, self.side.live());
        self.last = number;
        item
    }

    /// Gives one whole record to where `item` lies, and its number.
    #[inline]
    pub fn read_into(&mut self, item: &mut T) -> u64 {
        self.last = raw::read_into(Known::<T, M>::CALLS, self.side.live(), item);
        self.last
    }

    /// One whole record, if a read gives a greater number than the last one of this claim.
    #[inline]
    pub fn news(&mut self) -> Option<T> {
        self.has_news().then(|| self.latest())
    }

    /// Whether a read would give a greater number than the last one of this claim.
    #[inline]
    pub fn has_news(&mut self) -> bool {
        self.look() > self.last
    }

    /// The number that a read would give, without the record.
    #[inline]
    pub fn look(&mut self) -> u64 {
        raw::look(Known::<T, M>::CALLS, self.side.live())
    }

    /// The number of the record that was read last by this claim.
    #[inline]
    pub fn number(&self) -> u64 {
        self.last
    }
}

impl<T: Record> Reader<'_, T, Triple> {
    /// One whole record where it lies, whose number is [`number`](Reader::number) then. No write goes there as long as it is borrowed.
    #[inline]
    pub fn hold(&mut self) -> &T {
        let (item, number) = raw::hold(Known::<T, Triple>::CALLS, self.side.live());
        self.last = number;
        item
    }
}

/// A board of `N` places in a block, with their claims; C calls it `NAME_shared`, below `NIDZARU_SHARED_BOARD(NAME, N)`. It has 2 to 16:
///
/// ```compile_fail,E0080
/// use nidzaru::shared::{Block, Board, BlockError};
/// nidzaru::shared_record! { struct One { word: u64 } }
/// nidzaru::shared_block! { struct Root: "struct root" { alone: Board<One, 1> } }
/// fn make(block: &Block<Root>) -> Result<(), BlockError> {
///     block.root().alone.make(block, &One { word: 0 })
/// }
/// # let _: fn(&Block<Root>) -> Result<(), BlockError> = make;
/// ```
#[repr(C)]
pub struct Board<T: Record, const N: usize, M: Mechanism = FourSlot> {
    item: Item,
    claims: [Claim; N],
    apart: [u8; APART],
    places: [Handle; N],
    of: PhantomData<fn(T) -> (T, M)>,
}

impl<T: Record, const N: usize, M: Mechanism> Board<T, N, M> {
    const KIND: u64 = Known::<T, M>::BOARD_KIND.wrapping_add(N as u64);

    /// How many bytes of the block a make takes, exactly.
    pub const MAKE_BYTES: usize = block::bytes_of(memory::of_board(Known::<T, M>::BOARD_CALLS.size(), M::TRIPLE, N));

    /// Makes the board, which holds `first`. BlockError with [`BlockError::InUse`] if it is made.
    pub fn make<R: Root>(&self, block: &Block<R>, first: &T) -> Result<(), BlockError> {
        const { assert!(2 <= N && N <= 16, "a board has 2 to 16 places") };
        let made = || block::make_places(Known::<T, M>::BOARD_CALLS, first, &self.places);
        block.mapped.make(&self.item, &self.claims, Self::KIND, made)
    }

    /// Makes this thread the owner of the place with this number, from 0.
    pub fn claim<'b, R: Root>(&'b self, block: &'b Block<R>, number: usize) -> Result<Place<'b, T, M>, BlockError> {
        let (claim, place) = self.claims.get(number).zip(self.places.get(number)).ok_or(BlockError::NoSuch)?;
        let side = block.mapped.claim(&self.item, claim, place, Self::KIND)?;
        Ok(Place { side, last: Stamp::default(), of: PhantomData })
    }
}

/// The right to write and to read by a place in a block, as [`crate::Place`] is by one of its own.
pub struct Place<'b, T: Record, M: Mechanism = FourSlot> {
    side: Claimed<'b>,
    last: Stamp,
    of: PhantomData<(fn(T) -> T, M)>,
}

impl<T: Record, M: Mechanism> Place<'_, T, M> {
    /// Puts the record under the next stamp above all that this place sees, and gives the stamp.
    #[inline]
    pub fn write(&mut self, item: &T) -> Result<Stamp, Refused> {
        let mark = raw::write_place(Known::<T, M>::BOARD_CALLS, self.side.live(), item).ok_or(Refused)?;
        self.last = Stamp::new(mark.tag, mark.writer);
        Ok(self.last)
    }

    /// One whole record, whose stamp is [`stamp`](Place::stamp) then.
    #[inline]
    pub fn read(&mut self) -> T {
        let (item, mark) = raw::read_place(Known::<T, M>::BOARD_CALLS, self.side.live());
        self.last = Stamp::new(mark.tag, mark.writer);
        item
    }

    /// One whole record, if its stamp is greater than the last one of this claim. This is a call of the board.
    #[inline]
    pub fn news(&mut self) -> Option<T> {
        let before = self.last;
        let item = self.read();
        (self.last > before).then_some(item)
    }

    /// The stamp of the record that this claim wrote or read last.
    #[inline]
    pub fn stamp(&self) -> Stamp {
        self.last
    }
}

macro_rules! print_as {
    ($($name:ident),*) => {
        $(
            impl<T: Record, M: Mechanism> fmt::Debug for $name<'_, T, M> {
                fn fmt(&self, to: &mut fmt::Formatter<'_>) -> fmt::Result {
                    to.debug_struct(stringify!($name)).finish_non_exhaustive()
                }
            }
        )*
    };
}

print_as!(Writer, Reader, Place);

//! One writer and several readers.

use crate::raw::{self, EachSide};
use crate::{FourSlot, Known, Mechanism, OutOfMemory, Reader, Refused};
use core::fmt;
use core::marker::PhantomData;

/// The writer and the readers of a fan.
pub type Fan<T, const N: usize, M = FourSlot> = (FanWriter<T, N, M>, [Reader<T, M>; N]);

/// One writer and `N` readers over four-slot cells: a register for each reader, all of which hold `first` as number 0.
///
/// ```
/// let (mut sensor, [mut control, mut logger]) = nidzaru::fan([0.0, 1.0])?;
/// sensor.write(&[2.0, 3.0])?;
/// assert_eq!((control.latest(), control.number()), ([2.0, 3.0], 1));
/// assert_eq!((logger.latest(), logger.number()), ([2.0, 3.0], 1));
/// # Ok::<(), Box<dyn std::error::Error>>(())
/// ```
///
/// A write puts the record into each reader's register under one number, into the first one's first. To each reader this is a register of its
/// own: it waits for nobody, no number falls, and the record of a number is the same to all. **Between readers there is no order**: while a write
/// runs, one may have the record and tell another one, which then still reads the one before. Where that matters, take a [`board`](crate::board),
/// whose [`read_since`](crate::Place::read_since) gives what the other one had, or says that it doesn't.
///
/// A write takes as long as a register's write for each reader, also for those that went.
///
/// A fan has at least one reader:
///
/// ```compile_fail,E0080
/// let (writer, []) = nidzaru::fan(1.5).unwrap();
/// ```
pub fn fan<T: Copy + Send, const N: usize>(first: T) -> Result<Fan<T, N>, OutOfMemory> {
    fan_over(first)
}

/// The same over a mechanism that the caller, or what becomes of the sides, names.
///
/// ```
/// let (mut sensor, [mut control, logger]) = nidzaru::fan_over::<_, nidzaru::Triple, 2>([0_u64; 512])?;
/// sensor.write(&[7; 512])?;
/// assert_eq!(control.hold()[511], 7);
/// # Ok::<(), Box<dyn std::error::Error>>(())
/// ```
pub fn fan_over<T: Copy + Send, M: Mechanism, const N: usize>(first: T) -> Result<Fan<T, N, M>, OutOfMemory> {
    fan_from(&first)
}

/// The same of an opening that lies somewhere else, as a large one on the heap.
pub fn fan_from<T: Copy + Send, M: Mechanism, const N: usize>(first: &T) -> Result<Fan<T, N, M>, OutOfMemory> {
    const { assert!(N >= 1, "a fan has at least one reader") };
    let (sides, reads) = raw::open_each(Known::<T, M>::CALLS, first).ok_or(OutOfMemory)?;
    let readers = reads.map(|side| Reader { side, last: 0, of: PhantomData });
    Ok((FanWriter { sides, of: PhantomData }, readers))
}

/// The right to write to `N` readers. It may go to another thread, and one thread uses it at a time. Each reader keeps the last record when it goes.
pub struct FanWriter<T: Copy + Send, const N: usize, M: Mechanism = FourSlot> {
    sides: EachSide<N>,
    of: PhantomData<(fn(T) -> T, M)>,
}

impl<T: Copy + Send, const N: usize, M: Mechanism> FanWriter<T, N, M> {
    /// Shows the record to each reader, under the next number. The error comes after 2^64 - 1 writes.
    #[inline]
    pub fn write(&mut self, item: &T) -> Result<(), Refused> {
        crate::written(raw::write_each(Known::<T, M>::CALLS, &mut self.sides, item))
    }
}

impl<T: Copy + Send, const N: usize, M: Mechanism> fmt::Debug for FanWriter<T, N, M> {
    fn fmt(&self, to: &mut fmt::Formatter<'_>) -> fmt::Result {
        to.debug_struct("FanWriter").finish_non_exhaustive()
    }
}

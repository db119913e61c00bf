//! Boards: one record that several threads share.

use crate::raw::{self, BoardCalls, BoardPlace, Mark, NoBoard};
use crate::{FourSlot, Mechanism, Refused, Triple};
use alloc::vec::Vec;
use core::fmt;
use core::marker::PhantomData;

/// The greatest limit of a board's tags, which no program gets to.
pub const GREATEST_LIMIT: u64 = u64::MAX - 1;

/// The stamp of a record of a board: one stamp is one record, and the opening has 0.0. Of two stamps the one with the greater tag is
/// the later one, of equal tags the one with the greater writer.
#[derive(Clone, Copy, Debug, Default, PartialEq, Eq, PartialOrd, Ord, Hash)]
pub struct Stamp {
    /// Each write has a greater tag than all that its place saw.
    pub tag: u64,
    /// The place that wrote, by its number in the board.
    pub writer: u64,
}

impl Stamp {
    /// The stamp with this tag and writer.
    pub const fn new(tag: u64, writer: u64) -> Stamp {
        Stamp { tag, writer }
    }

    fn of(mark: Mark) -> Stamp {
        Stamp { tag: mark.tag, writer: mark.writer }
    }
}

/// The tag and the writer, as `12.3`.
impl fmt::Display for Stamp {
    fn fmt(&self, to: &mut fmt::Formatter<'_>) -> fmt::Result {
        write!(to, "{}.{}", self.tag, self.writer)
    }
}

/// Why no board was made.
#[derive(Clone, Copy, Debug, PartialEq, Eq)]
#[non_exhaustive]
pub enum BoardError {
    /// A board has 2 to 16 places.
    Places,
    /// A limit is at least 1 and at most [`GREATEST_LIMIT`].
    Limit,
    /// Memory was refused.
    OutOfMemory,
}

impl fmt::Display for BoardError {
    fn fmt(&self, to: &mut fmt::Formatter<'_>) -> fmt::Result {
        to.write_str(match self {
            BoardError::Places => "a board has 2 to 16 places",
            BoardError::Limit => "a board's limit is at least 1 and below 2^64 - 1",
            BoardError::OutOfMemory => "memory for a board was refused",
        })
    }
}

impl core::error::Error for BoardError {}

/// What is known of a record of a board when the program is compiled.
pub(crate) struct Known<T, M>(PhantomData<(T, M)>);

impl<T: Copy + Send, M: Mechanism> Known<T, M> {
    pub(crate) const CALLS: &'static BoardCalls = {
        assert!(size_of::<T>() <= 4096, "a record of a board has at most 4096 bytes");
        raw::board_calls_for(size_of::<T>(), M::TRIPLE)
    };
}

/// A board over four-slot cells that holds `first`, as its `n` places, of which there are 2 to 16.
///
/// Each thread has a place, by which it writes and reads. No call waits for another thread, tries again or takes memory. (Over triple buffers
/// a word is swapped, which on 64-bit ARM is a loop.)
///
/// ```
/// #[derive(Clone, Copy)]
/// struct Setpoint {
///     low: f64,
///     high: f64,
/// }
///
/// let mut places = nidzaru::board(3, Setpoint { low: 0.0, high: 1.0 })?;
/// let mut control = places.pop().unwrap();
/// let planners: Vec<_> = places
///     .into_iter()
///     .enumerate()
///     .map(|(me, mut place)| {
///         std::thread::spawn(move || {
///             for n in 1..=1000 {
///                 let high = f64::from(n) + me as f64;
///                 place.write(&Setpoint { low: -high, high })?;
///             }
///             Ok::<_, nidzaru::Refused>(place.stamp())
///         })
///     })
///     .collect();
/// while control.stamp().tag < 1000 {
///     let seen = control.read();
///     assert!(control.stamp().tag == 0 || seen.low == -seen.high);
/// }
/// for planner in planners {
///     planner.join().unwrap()?;
/// }
/// # Ok::<(), Box<dyn std::error::Error>>(())
/// ```
///
/// Records that are too large or not `Copy` don't compile:
///
/// ```compile_fail,E0080
/// let places = nidzaru::board(2, [0u8; 4097]);
/// ```
///
/// ```compile_fail,E0277
/// let places = nidzaru::board(2, String::new());
/// ```
///
/// Nor do records that may not go to another thread:
///
/// ```compile_fail,E0277
/// let shared = std::cell::Cell::new(1);
/// let places = nidzaru::board(2, &shared);
/// ```
pub fn board<T: Copy + Send>(n: usize, first: T) -> Result<Vec<Place<T>>, BoardError> {
    board_over(n, first)
}

/// A board over triple buffers that holds `first`, as its `n` places.
///
/// ```
/// let mut places = nidzaru::triple_board(2, 1.5)?;
/// let stamp = places[0].write(&2.5)?;
/// assert_eq!((places[1].read(), places[1].stamp()), (2.5, stamp));
/// # Ok::<(), Box<dyn std::error::Error>>(())
/// ```
pub fn triple_board<T: Copy + Send>(n: usize, first: T) -> Result<Vec<Place<T, Triple>>, BoardError> {
    board_over(n, first)
}

/// A board over a mechanism that the caller, or what becomes of the places, names.
///
/// ```
/// let mut places = nidzaru::board_over::<_, nidzaru::Triple>(2, 'a')?;
/// places[0].write(&'b')?;
/// assert_eq!(places[1].read(), 'b');
/// # Ok::<(), Box<dyn std::error::Error>>(())
/// ```
pub fn board_over<T: Copy + Send, M: Mechanism>(n: usize, first: T) -> Result<Vec<Place<T, M>>, BoardError> {
    limited_board(n, GREATEST_LIMIT, first)
}

/// A board over four-slot cells that holds `first`, as an array of its places.
///
/// ```
/// let [mut control, mut planner] = nidzaru::places(1.5)?;
/// planner.write(&2.5)?;
/// assert_eq!(control.read(), 2.5);
/// # Ok::<(), Box<dyn std::error::Error>>(())
/// ```
///
/// There are 2 to 16 of them:
///
/// ```
/// let most: [nidzaru::Place<f64>; 16] = nidzaru::places(1.5)?;
/// # Ok::<(), nidzaru::BoardError>(())
/// ```
///
/// ```compile_fail,E0080
/// let [only] = nidzaru::places(1.5).unwrap();
/// ```
///
/// ```compile_fail,E0080
/// let more: [nidzaru::Place<f64>; 17] = nidzaru::places(1.5).unwrap();
/// ```
pub fn places<T: Copy + Send, const N: usize>(first: T) -> Result<[Place<T>; N], BoardError> {
    places_over(first)
}

/// The same over a mechanism that the caller, or what becomes of the places, names.
///
/// ```
/// let [mut control, mut planner] = nidzaru::places_over::<_, nidzaru::Triple, 2>(1.5)?;
/// planner.write(&2.5)?;
/// assert_eq!(control.read(), 2.5);
/// # Ok::<(), Box<dyn std::error::Error>>(())
/// ```
pub fn places_over<T: Copy + Send, M: Mechanism, const N: usize>(first: T) -> Result<[Place<T, M>; N], BoardError> {
    const { assert!(2 <= N && N <= 16, "a board has 2 to 16 places") };
    let places = board_over(N, first)?;
    Ok(places.try_into().expect("as many places as were asked for"))
}

/// A board in whichever mechanism, whose tags end at a limit: of one place's writes so many are done, and the next is refused.
///
/// ```
/// let mut places = nidzaru::limited_board::<_, nidzaru::FourSlot>(2, 1, 'a')?;
/// places[0].write(&'b')?;
/// assert_eq!(places[1].write(&'c'), Err(nidzaru::Refused));
/// assert_eq!(places[1].read(), 'b');
/// # Ok::<(), Box<dyn std::error::Error>>(())
/// ```
pub fn limited_board<T: Copy + Send, M: Mechanism>(n: usize, limit: u64, first: T) -> Result<Vec<Place<T, M>>, BoardError> {
    let raws = raw::open_board(Known::<T, M>::CALLS, n, limit, &first).map_err(|why| match why {
        NoBoard::Places => BoardError::Places,
        NoBoard::Limit => BoardError::Limit,
        NoBoard::Memory => BoardError::OutOfMemory,
    })?;
    let mut places = Vec::new();
    places.try_reserve_exact(n).map_err(|_| BoardError::OutOfMemory)?;
    places.extend(raws.into_iter().map(|raw| Place { raw, last: Stamp::default(), of: PhantomData }));
    Ok(places)
}

/// What [`Place::read_since`] gives: a record, by whether its stamp is at least the one that was asked for.
#[derive(Clone, Copy, Debug, PartialEq, Eq)]
pub enum Since<T> {
    /// Its stamp is at least that one.
    Fresh(T),
    /// Its stamp is smaller.
    Older(T),
}

/// The right to write and to read as one of a board's tasks. It may go to another thread, and one thread uses it at a time. The others
/// go on, and keep the last record, when it goes.
///
/// It can't be shared, nor copied:
///
/// ```compile_fail,E0277
/// fn shared<T: Sync>(_: T) {}
/// shared(nidzaru::board(2, 1.5).unwrap().pop());
/// ```
///
/// ```compile_fail,E0599
/// let places = nidzaru::board(2, 1.5).unwrap();
/// let other = places[0].clone();
/// ```
///
/// It takes and gives records of just one lifetime:
///
/// ```compile_fail
/// fn narrow<'a>(place: nidzaru::Place<&'static str>) -> nidzaru::Place<&'a str> {
///     place
/// }
/// ```
///
/// ```compile_fail
/// fn widen<'a>(place: nidzaru::Place<&'a str>) -> nidzaru::Place<&'static str> {
///     place
/// }
/// ```
pub struct Place<T: Copy + Send, M: Mechanism = FourSlot> {
    raw: BoardPlace,
    last: Stamp,
    of: PhantomData<(fn(T) -> T, M)>,
}

impl<T: Copy + Send, M: Mechanism> Place<T, M> {
    /// Puts the record under the next stamp above all that this place sees, and gives the stamp.
    #[inline]
    pub fn write(&mut self, item: &T) -> Result<Stamp, Refused> {
        let mark = raw::write_place(Known::<T, M>::CALLS, &mut self.raw, item).ok_or(Refused)?;
        self.last = Stamp::of(mark);
        Ok(self.last)
    }

    /// One whole record, whose stamp is [`stamp`](Place::stamp) then. It is never older than what this place wrote or read before.
    #[inline]
    pub fn read(&mut self) -> T {
        let (item, mark) = raw::read_place(Known::<T, M>::CALLS, &mut self.raw);
        self.last = Stamp::of(mark);
        item
    }

    /// The same into place; gives the stamp.
    #[inline]
    pub fn read_into(&mut self, item: &mut T) -> Stamp {
        self.last = Stamp::of(raw::read_place_into(Known::<T, M>::CALLS, &mut self.raw, item));
        self.last
    }

    /// One whole record, if its stamp is greater than that of the record that was written or read last. This is a call of the board.
    ///
    /// ```
    /// let mut places = nidzaru::board(2, 1)?;
    /// assert_eq!(places[1].news(), None);
    /// places[0].write(&2)?;
    /// assert_eq!((places[0].news(), places[1].news(), places[1].news()), (None, Some(2), None));
    /// # Ok::<(), Box<dyn std::error::Error>>(())
    /// ```
    #[inline]
    pub fn news(&mut self) -> Option<T> {
        let before = self.last;
        let item = self.read();
        (self.last > before).then_some(item)
    }

    /// Whether [`news`](Place::news) would give a record. This is a call of the board, too.
    #[inline]
    pub fn has_news(&mut self) -> bool {
        Stamp::of(raw::read_place::<T>(Known::<T, M>::CALLS, &mut self.raw).1) > self.last
    }

    /// The same as [`read`](Place::read), and whether its stamp is at least this one, which another task may have told.
    ///
    /// ```
    /// use nidzaru::Since;
    /// let mut places = nidzaru::board(2, 1)?;
    /// let told = places[0].write(&2)?;
    /// assert_eq!(places[1].read_since(told), Since::Fresh(2));
    /// # Ok::<(), Box<dyn std::error::Error>>(())
    /// ```
    #[inline]
    pub fn read_since(&mut self, least: Stamp) -> Since<T> {
        let least = Mark { tag: least.tag, writer: least.writer };
        let (item, mark, fresh) = raw::read_place_since(Known::<T, M>::CALLS, &mut self.raw, least);
        self.last = Stamp::of(mark);
        if fresh {
            Since::Fresh(item)
        } else {
            Since::Older(item)
        }
    }

    /// The stamp of the record that was written or read last.
    #[inline]
    pub fn stamp(&self) -> Stamp {
        self.last
    }
}

impl<T: Copy + Send, M: Mechanism> fmt::Debug for Place<T, M> {
    fn fmt(&self, to: &mut fmt::Formatter<'_>) -> fmt::Result {
        to.debug_struct("Place").field("stamp", &self.last).finish_non_exhaustive()
    }
}

#[cfg(test)]
mod tests {
    use super::*;

    #[test]
    fn each_mechanism_has_its_calls() {
        assert!(std::ptr::eq(Known::<[u64; 3], FourSlot>::CALLS, raw::board_calls_for(24, false)));
        assert!(std::ptr::eq(Known::<[u64; 3], Triple>::CALLS, raw::board_calls_for(24, true)));
    }
}

//! Memory that processes share, its claims, and what takes the library's memory from it: what is unsafe of the module `shared`, but for its
//! traits, `create`, `attach` and `root`.
//!
//! The layout and what each call does are those of `nidzaru_shared.h`, so that programs in C, C++ and Rust attach to one block.
#![allow(unsafe_code)]

use crate::memory::Memory;
use crate::raw::{self, Live};
use core::cell::{Cell, UnsafeCell};
use core::ffi::{c_int, c_void};
use core::marker::PhantomData;
use core::mem::MaybeUninit;
use core::ptr::{self, NonNull};
use core::sync::atomic::{AtomicBool, AtomicU16, AtomicU32, AtomicU64, Ordering};
use std::fs::{File, Metadata, OpenOptions};
use std::io::{Error, Read};
use std::os::fd::AsRawFd;
use std::os::unix::fs::{MetadataExt, OpenOptionsExt};

#[cfg(not(target_os = "linux"))]
compile_error!("the feature `shared` is for Linux");
#[cfg(nidzaru_watched)]
compile_error!("ThreadSanitizer knows a register by memory of one process");

// (as the C libraries of Linux have it)
#[cfg(all(target_arch = "aarch64", target_env = "gnu"))]
type MutexWords = [u64; 6];
#[cfg(not(all(target_arch = "aarch64", target_env = "gnu")))]
type MutexWords = [u64; 5];

extern "C" {
    fn mmap(at: *mut c_void, bytes: usize, protection: c_int, how: c_int, file: c_int, from: i64) -> *mut c_void;
    fn munmap(at: *mut c_void, bytes: usize) -> c_int;
    fn posix_fallocate(file: c_int, from: i64, bytes: i64) -> c_int;
    fn geteuid() -> u32;
    fn malloc(bytes: usize) -> *mut c_void;
    fn free(at: *mut c_void);
    fn pthread_mutexattr_init(kind: *mut c_void) -> c_int;
    fn pthread_mutexattr_setpshared(kind: *mut c_void, shared: c_int) -> c_int;
    fn pthread_mutexattr_setrobust(kind: *mut c_void, robust: c_int) -> c_int;
    fn pthread_mutex_init(mutex: *mut c_void, kind: *const c_void) -> c_int;
    fn pthread_mutex_trylock(mutex: *mut c_void) -> c_int;
    fn pthread_mutex_lock(mutex: *mut c_void) -> c_int;
    fn pthread_mutex_consistent(mutex: *mut c_void) -> c_int;
    fn pthread_mutex_unlock(mutex: *mut c_void) -> c_int;
}

const SHARED: c_int = 1;
const ROBUST: c_int = 1;
const READ_WRITE: c_int = 3;
const MAP: c_int = 1 | 0x8000 | 0x10_0000; // MAP_SHARED, MAP_POPULATE, MAP_FIXED_NOREPLACE
const NO_MEMORY: i32 = 12;
const TAKEN: i32 = 17;
const NO_ROOM: i32 = 28;
const OWNER_DEAD: c_int = 130;
const NOT_RECOVERABLE: c_int = 131;
const PAGE: u64 = 4096;
const LINE: u64 = 64;
const MARK: u64 = 0x6465_7261_6873_6e7a;

/// Why a call on a block was refused.
#[derive(Debug)]
#[non_exhaustive]
pub enum BlockError {
    /// There is a block of this name.
    NameTaken,
    /// This process has other memory where the block lies.
    AddressTaken,
    /// There is no block of this name, or another one.
    NoBlock,
    /// The maker hasn't opened the block, or the register or board isn't made.
    NotReady,
    /// The block is of another build of the library or of this crate, or it is no block.
    OtherBuild,
    /// It was made for another type.
    OtherType,
    /// Another user owns the block, or may open it.
    OtherUser,
    /// A living thread has the side.
    Claimed,
    /// The owner died within a call, or the maker before it opened the block.
    OwnerDead,
    /// The claim is another thread's.
    NotOwner,
    /// The register or board doesn't lie in this block.
    Elsewhere,
    /// The register or board is made, or another thread makes it.
    InUse,
    /// The side was ended.
    Ended,
    /// The place or the block's name isn't one.
    NoSuch,
    /// Memory of the block, or of the system, was refused.
    OutOfMemory,
    /// The system refused it.
    System(Error),
}

impl core::fmt::Display for BlockError {
    fn fmt(&self, to: &mut core::fmt::Formatter<'_>) -> core::fmt::Result {
        to.write_str(match self {
            BlockError::NameTaken => "there is a block of this name",
            BlockError::AddressTaken => "the process has other memory where the block lies",
            BlockError::NoBlock => "there is no such block of this name",
            BlockError::NotReady => "it isn't made yet",
            BlockError::OtherBuild => "the block is of another library or header",
            BlockError::OtherType => "it was made for another type",
            BlockError::OtherUser => "another user owns the block or may open it",
            BlockError::Claimed => "it has an owner",
            BlockError::OwnerDead => "its owner died within a call",
            BlockError::NotOwner => "this thread isn't its owner",
            BlockError::Elsewhere => "it doesn't lie in this block",
            BlockError::InUse => "it is made already",
            BlockError::Ended => "the side was ended",
            BlockError::NoSuch => "there is no place or block of this name or number",
            BlockError::OutOfMemory => "memory was refused",
            BlockError::System(why) => return write!(to, "the system refused it: {why}"),
        })
    }
}

impl core::error::Error for BlockError {}

fn by_system(why: Error) -> BlockError {
    match why.raw_os_error() {
        Some(NO_MEMORY | NO_ROOM) => BlockError::OutOfMemory,
        _ => BlockError::System(why),
    }
}

/// A side's claim: a mutex that the system takes from a thread that dies, and the process of its owner.
#[repr(C)]
pub struct Claim {
    mutex: UnsafeCell<MutexWords>,
    process: AtomicU32,
}

impl Claim {
    fn at(&self) -> *mut c_void {
        self.mutex.get().cast()
    }

    /// Makes it anew: nobody has it.
    fn begin(&self) -> c_int {
        let mut kind = MaybeUninit::<[u64; 8]>::zeroed();
        let kind = kind.as_mut_ptr().cast::<c_void>();
        // Both lead to room for what they are, and nobody uses the mutex before its register is made.
        unsafe {
            let mut why = pthread_mutexattr_init(kind);
            if why == 0 {
                why = pthread_mutexattr_setpshared(kind, SHARED);
            }
            if why == 0 {
                why = pthread_mutexattr_setrobust(kind, ROBUST);
            }
            if why == 0 {
                why = pthread_mutex_init(self.at(), kind);
            }
            why
        }
    }

    /// Takes it, also from a thread that is dead.
    fn take(&self) -> Result<(), BlockError> {
        // The mutex is made, since its register is.
        let mut why = unsafe { pthread_mutex_trylock(self.at()) };
        if why == OWNER_DEAD {
            why = unsafe { pthread_mutex_consistent(self.at()) };
        }
        if why != 0 {
            return Err(BlockError::Claimed);
        }
        self.process.store(std::process::id(), Ordering::Relaxed);
        Ok(())
    }

    /// Gives it back; 0 where it is this thread's.
    fn give(&self) -> c_int {
        // The mutex is made.
        unsafe { pthread_mutex_unlock(self.at()) }
    }
}

/// What a block begins with, before its first object.
#[repr(C)]
struct Head {
    mark: AtomicU64,
    build: u64,
    at: u64,
    bytes: u64,
    kind: u64,
    root_bytes: u64,
    used: AtomicU64,
    ready: AtomicU32,
    maker: Claim,
}

/// What stands before a register or board: whether it is made, the numbers of its sides, and of which type it is.
#[repr(C)]
pub struct Item {
    state: AtomicU32,
    codes: [AtomicU16; 2],
    kind: AtomicU64,
}

const EMPTY: u32 = 0;
const BEGUN: u32 = 1;
const MADE: u32 = 2;

/// What keeps two handles in different lines of the cache.
pub const APART: usize = 64;

/// A handle, as C has it.
#[repr(C)]
pub struct Handle {
    live: UnsafeCell<Live>,
    home: UnsafeCell<*const Handle>,
    order: UnsafeCell<*mut c_void>,
    apart: [u8; APART],
}

// The first is used by its claim's owner alone, and the others are stored by who makes the register.
unsafe impl Sync for Claim {}
unsafe impl Sync for Handle {}

impl Handle {
    /// Puts a side here; the register isn't made yet, and this thread alone makes it.
    fn put(&self, live: Live) {
        // Nobody else reads or writes there before the register is made.
        unsafe {
            *self.live.get() = live;
            *self.home.get() = self;
        }
    }

    /// What the side says of itself. The claim is this thread's.
    fn look(&self) -> Result<(), BlockError> {
        // The claim is this thread's, so no call of another one runs.
        match unsafe { (*self.live.get()).state() } {
            0 => Err(BlockError::Ended),
            raw::BUSY => Err(BlockError::OwnerDead),
            _ => Ok(()),
        }
    }
}

/// What stands before each part of memory that the library gets: the block that it is from, if any.
#[repr(C)]
struct Part {
    from: *const Head,
    unused: u64,
}

thread_local! {
    /// The block in which this thread makes a register or board.
    static MAKING: Cell<*const Head> = const { Cell::new(ptr::null()) };
}

/// How many bytes of a block parts for all that a make asks for take.
pub const fn bytes_of(made: Memory) -> usize {
    made.bytes + made.requests * size_of::<Part>()
}

/// How many bytes a block takes that begins with an object of so many, before anything is made in it.
pub const fn bytes_before(root_bytes: usize) -> usize {
    (ROOT_AT as usize + root_bytes).next_multiple_of(LINE as usize)
}

/// A part of the block; null where so much isn't left.
fn take_part(head: &Head, bytes: usize) -> *mut c_void {
    let whole = (bytes as u64).checked_next_multiple_of(16).and_then(|it| it.checked_add(size_of::<Part>() as u64));
    let taken = whole.and_then(|whole| {
        let fits = |used: u64| used.checked_add(whole).filter(|&end| end <= head.bytes);
        head.used.fetch_update(Ordering::Relaxed, Ordering::Relaxed, fits).ok()
    });
    match taken {
        // So many bytes of the block are left there.
        Some(used) => unsafe { ptr::from_ref(head).cast::<u8>().add(used as usize).cast_mut().cast() },
        None => ptr::null_mut(),
    }
}

/// The library's memory: from the block where this thread makes a register in one, else from `malloc`.
#[no_mangle]
extern "C" fn nidzaru_allocate(bytes: usize) -> *mut c_void {
    let from = MAKING.get();
    let part: *mut c_void = if from.is_null() {
        match bytes.checked_add(size_of::<Part>()) {
            // It may be null.
            Some(whole) => unsafe { malloc(whole) },
            None => ptr::null_mut(),
        }
    } else {
        // The block stays while something is made in it.
        take_part(unsafe { &*from }, bytes)
    };
    if part.is_null() {
        return part;
    }
    // There is room for a part, aligned to 16, and for the bytes behind it.
    unsafe {
        part.cast::<Part>().write(Part { from, unused: 0 });
        part.cast::<Part>().add(1).cast()
    }
}

/// Gives `malloc`'s memory back; a block's goes with the block.
#[no_mangle]
extern "C" fn nidzaru_release(block: *mut c_void) {
    // It came from the function above, or from that of another process that has the block.
    unsafe {
        let part = block.cast::<Part>().sub(1);
        if (*part).from.is_null() {
            free(part.cast());
        }
    }
}

const fn mix(sum: u64, more: u64) -> u64 {
    (sum ^ more).wrapping_mul(1_099_511_628_211)
}

/// The version of this crate, as the header counts its own.
const VERSION: u64 = {
    let (words, mut version, mut part, mut k) = (env!("CARGO_PKG_VERSION").as_bytes(), 0, 0, 0);
    while k < words.len() {
        match words[k] {
            b'.' => (version, part) = (version * 100 + part, 0),
            digit => part = part * 10 + (digit - b'0') as u64,
        }
        k += 1;
    }
    version * 100 + part
};

/// What all programs must have alike: the build of the library, the version of the crate or header, and the sizes of what lies in a block.
fn build() -> u64 {
    let sizes = [size_of::<Handle>() - APART, APART, size_of::<Item>(), size_of::<Claim>(), size_of::<Head>()];
    sizes.into_iter().fold(mix(VERSION, raw::fingerprint()), |sum, size| mix(sum, size as u64))
}

/// A number for a type: its name, size and alignment.
pub const fn kind_of(name: &str, size: usize, alignment: usize) -> u64 {
    let (name, mut sum, mut k) = (name.as_bytes(), 14_695_981_039_346_656_037, 0);
    while k < name.len() {
        sum = mix(sum, name[k] as u64);
        k += 1;
    }
    mix(mix(sum, size as u64), alignment as u64)
}

const ROOT_AT: u64 = (size_of::<Head>() as u64).next_multiple_of(PAGE);

/// What the file is called that has a block's name.
fn path_of(name: &str) -> Result<String, BlockError> {
    let rest = name.strip_prefix('/').filter(|rest| !rest.is_empty() && !rest.contains(['/', '\0']) && *rest != "." && *rest != "..");
    rest.map(|rest| format!("/dev/shm/{rest}")).ok_or(BlockError::NoSuch)
}

/// A block as this process has it.
pub struct Mapped {
    head: NonNull<Head>,
    device: u64,
    file: u64,
    process: u32,
    held: AtomicU32,
    unopened: AtomicBool,
}

// What is mapped is shared, and stays as long as this value.
unsafe impl Send for Mapped {}
unsafe impl Sync for Mapped {}

/// Maps the file's bytes at this address, which has to be free.
fn map(file: &File, at: u64, bytes: u64) -> Result<NonNull<Head>, BlockError> {
    let wanted = at as usize as *mut c_void;
    // No other memory is there, or nothing is mapped.
    let mapped = unsafe { mmap(wanted, bytes as usize, READ_WRITE, MAP, file.as_raw_fd(), 0) };
    if mapped as isize == -1 {
        let why = Error::last_os_error();
        return Err(if why.raw_os_error() == Some(TAKEN) { BlockError::AddressTaken } else { by_system(why) });
    }
    if mapped != wanted {
        // (a kernel before 4.17 takes the address as a wish)
        unsafe { munmap(mapped, bytes as usize) };
        return Err(BlockError::AddressTaken);
    }
    NonNull::new(mapped.cast()).ok_or(BlockError::AddressTaken)
}

/// Takes away the name if it is this file's.
fn unlink_own(path: &str, device: u64, file: u64) -> Result<(), BlockError> {
    match std::fs::metadata(path) {
        Ok(seen) if (seen.dev(), seen.ino()) == (device, file) => std::fs::remove_file(path).map_err(by_system),
        Ok(_) => Err(BlockError::NoBlock),
        Err(why) if why.kind() == std::io::ErrorKind::NotFound => Err(BlockError::NoBlock),
        Err(why) => Err(by_system(why)),
    }
}

impl Mapped {
    fn head(&self) -> &Head {
        // It is mapped as long as this value lives, and its maker filled it.
        unsafe { self.head.as_ref() }
    }

    /// The first object, of a type that is all zeros at first, shared and of this size.
    pub fn root(&self) -> *const c_void {
        // It lies in the block.
        unsafe { self.head.as_ptr().cast::<u8>().add(ROOT_AT as usize).cast() }
    }

    fn new(head: NonNull<Head>, file: &Metadata, is_maker: bool) -> Mapped {
        Mapped {
            head,
            device: file.dev(),
            file: file.ino(),
            process: std::process::id(),
            held: AtomicU32::new(0),
            unopened: AtomicBool::new(is_maker),
        }
    }

    pub fn create(name: &str, at: u64, bytes: usize, root_bytes: usize, kind: u64) -> Result<Mapped, BlockError> {
        let path = path_of(name)?;
        let bytes = (bytes as u64).checked_next_multiple_of(PAGE).filter(|&it| it <= i64::MAX as u64).ok_or(BlockError::OutOfMemory)?;
        if bytes < ROOT_AT + root_bytes as u64 {
            return Err(BlockError::OutOfMemory);
        }
        let file = OpenOptions::new().read(true).write(true).create_new(true).mode(0o600).open(&path);
        let file = file.map_err(|why| if why.raw_os_error() == Some(TAKEN) { BlockError::NameTaken } else { by_system(why) })?;
        let seen = file.metadata().map_err(by_system)?;
        let made = Mapped::fill(&file, &seen, at, bytes, root_bytes as u64, kind);
        if made.is_err() {
            // (what is told is why there is no block)
            let _ = unlink_own(&path, seen.dev(), seen.ino());
        }
        made
    }

    /// Gives the file its bytes, and fills the head.
    fn fill(file: &File, seen: &Metadata, at: u64, bytes: u64, root_bytes: u64, kind: u64) -> Result<Mapped, BlockError> {
        // The file is open.
        let why = unsafe { posix_fallocate(file.as_raw_fd(), 0, bytes as i64) };
        if why != 0 {
            return Err(by_system(Error::from_raw_os_error(why)));
        }
        let mut head = map(file, at, bytes)?;
        {
            // It is all zeros, which a head may be, and no other process looks at it before it has its mark.
            let head = unsafe { head.as_mut() };
            let mut why = head.maker.begin();
            if why == 0 {
                why = unsafe { pthread_mutex_lock(head.maker.at()) };
            }
            if why != 0 {
                unsafe { munmap(ptr::from_mut(head).cast(), bytes as usize) };
                return Err(by_system(Error::from_raw_os_error(why)));
            }
            (head.build, head.at, head.bytes, head.kind, head.root_bytes) = (build(), at, bytes, kind, root_bytes);
            head.used = AtomicU64::new((ROOT_AT + root_bytes).next_multiple_of(LINE));
            head.mark.store(MARK, Ordering::Release);
        }
        Ok(Mapped::new(head, seen, true))
    }

    pub fn attach(name: &str, root_bytes: usize, kind: u64) -> Result<Mapped, BlockError> {
        let mut file = OpenOptions::new().read(true).write(true).open(path_of(name)?).map_err(|why| match why.kind() {
            std::io::ErrorKind::NotFound => BlockError::NoBlock,
            std::io::ErrorKind::PermissionDenied => BlockError::OtherUser,
            _ => by_system(why),
        })?;
        let seen = file.metadata().map_err(by_system)?;
        // (it takes nothing)
        if seen.uid() != unsafe { geteuid() } || seen.mode() & 0o77 != 0 {
            return Err(BlockError::OtherUser);
        }
        let (at, bytes) = look_at(&mut file, seen.size(), root_bytes as u64, kind)?;
        let head = map(&file, at, bytes)?;
        let is_open = is_open(unsafe { head.as_ref() });
        if is_open.is_err() {
            // Nothing of this process leads there.
            unsafe { munmap(head.as_ptr().cast(), bytes as usize) };
        }
        is_open.map(|()| Mapped::new(head, &seen, false))
    }

    pub fn open(&self) -> Result<(), BlockError> {
        if !self.unopened.load(Ordering::Relaxed) || self.head().maker.give() != 0 {
            return Err(BlockError::NotOwner);
        }
        self.unopened.store(false, Ordering::Relaxed);
        self.head().ready.store(1, Ordering::Release);
        Ok(())
    }

    pub fn unlink(&self, name: &str) -> Result<(), BlockError> {
        unlink_own(&path_of(name)?, self.device, self.file)
    }

    pub fn left(&self) -> usize {
        (self.head().bytes - self.head().used.load(Ordering::Relaxed)) as usize
    }

    fn has<S>(&self, it: &S) -> Result<(), BlockError> {
        let from = self.head.as_ptr() as u64;
        let to = ptr::from_ref(it) as u64;
        if to >= from && to - from < self.head().bytes {
            Ok(())
        } else {
            Err(BlockError::Elsewhere)
        }
    }

    /// Makes what an item stands before, by a call that takes the library's memory from this block and answers its status.
    pub fn make(&self, item: &Item, claims: &[Claim], kind: u64, codes: impl FnOnce() -> Result<[u64; 2], u32>) -> Result<(), BlockError> {
        self.has(item)?;
        item.state.compare_exchange(EMPTY, BEGUN, Ordering::Acquire, Ordering::Relaxed).map_err(|_| BlockError::InUse)?;
        if let Some(why) = claims.iter().map(Claim::begin).find(|&why| why != 0) {
            item.state.store(EMPTY, Ordering::Release);
            return Err(by_system(Error::from_raw_os_error(why)));
        }
        item.kind.store(kind, Ordering::Relaxed);
        MAKING.set(self.head.as_ptr());
        let made = codes();
        MAKING.set(ptr::null());
        if let Ok(codes) = made {
            item.codes.iter().zip(codes).for_each(|(to, code)| to.store(code as u16, Ordering::Relaxed));
        }
        item.state.store(if made.is_ok() { MADE } else { EMPTY }, Ordering::Release);
        made.map(|_| ()).map_err(|_| BlockError::OutOfMemory)
    }

    /// Makes this thread the owner of a side.
    pub fn claim<'b>(&'b self, item: &Item, claim: &'b Claim, handle: &'b Handle, kind: u64) -> Result<Claimed<'b>, BlockError> {
        self.has(item)?;
        if item.state.load(Ordering::Acquire) != MADE {
            return Err(BlockError::NotReady);
        }
        if item.kind.load(Ordering::Relaxed) != kind {
            return Err(BlockError::OtherType);
        }
        claim.take()?;
        if let Err(why) = handle.look() {
            claim.give();
            return Err(why);
        }
        self.held.fetch_add(1, Ordering::Relaxed);
        Ok(Claimed { block: self, claim, live: handle.live.get(), of: PhantomData })
    }
}

/// Where a register over four slots has what a side knows and what it shows, counted in words: no promise of the library. A side lies in a box,
/// with a pointer to the cell; that has one to its 32 words and one to its four slots, whose records begin with their number, and these counts.
mod lies {
    /// Of a box: the cell; what a reader stored in `reading`, 2 at first; the bits of the pairs that a writer stored, the pair in `latest`
    /// and the number of its last write.
    pub const CELL: usize = 0;
    pub const SAID: usize = 1;
    pub const BITS: usize = 1;
    pub const LATEST: usize = 3;
    pub const NUMBER: usize = 4;
    /// Of a cell: its words, its slots, and how many there are of each.
    pub const WORDS: usize = 1;
    pub const SLOTS: usize = 2;
    pub const COUNTS: usize = 3;
    /// Of the words: `latest`, the pairs' bits and `reading`.
    pub const SHOWN: usize = 8;
    pub const PAIRS: usize = 10;
    pub const READING: usize = 24;
}

/// Some words of a block.
struct Words<'b>(&'b [AtomicU64]);

impl<'b> Words<'b> {
    /// The words to which this address leads, if they lie in the block.
    fn at(block: &'b Mapped, at: u64, count: usize) -> Option<Words<'b>> {
        let before = at.checked_sub(block.head.as_ptr() as u64)?;
        let is_inside = at % 8 == 0 && before.checked_add(8 * count as u64).is_some_and(|end| end <= block.head().bytes);
        // They lie in the block, and nobody else uses what isn't atomic of them while this thread has the claim.
        is_inside.then(|| Words(unsafe { core::slice::from_raw_parts(at as *const AtomicU64, count) }))
    }

    fn get(&self, k: usize) -> u64 {
        self.0[k].load(Ordering::SeqCst)
    }

    fn set(&self, k: usize, word: u64) {
        self.0[k].store(word, Ordering::SeqCst);
    }

    fn bit(&self, k: usize) -> Option<usize> {
        Some(self.get(k) as usize).filter(|&it| it < 2)
    }

    /// What is at the end of the pointer in this word.
    fn follow(&self, block: &'b Mapped, k: usize, count: usize) -> Option<Words<'b>> {
        Words::at(block, self.get(k), count)
    }
}

impl Mapped {
    /// A claim, also of a side whose owner died within a call, of a register over four slots with records of this size of the library's.
    pub fn recover<'b>(
        &'b self,
        item: &Item,
        claim: &'b Claim,
        handle: &'b Handle,
        kind: u64,
        size: usize,
        is_writer: bool,
    ) -> Result<Claimed<'b>, BlockError> {
        match self.claim(item, claim, handle, kind) {
            Err(BlockError::OwnerDead) => {}
            claimed => return claimed,
        }
        claim.take()?;
        let mended = match handle.look() {
            Err(BlockError::OwnerDead) => self.mend(handle, size, is_writer).ok_or(BlockError::OwnerDead),
            looked => looked.map(|()| 0),
        };
        if let Err(why) = mended {
            claim.give();
            return Err(why);
        }
        // The claim is this thread's.
        unsafe { (*handle.live.get()).mark(u64::from(item.codes[usize::from(!is_writer)].load(Ordering::Relaxed))) };
        self.held.fetch_add(1, Ordering::Relaxed);
        Ok(Claimed { block: self, claim, live: handle.live.get(), of: PhantomData })
    }

    /// Makes the box of a side, whose owner died within a call, know what the cell shows. (Why that is enough stands in `nidzaru_shared.h`.)
    fn mend(&self, handle: &Handle, size: usize, is_writer: bool) -> Option<u64> {
        let record = size / 8 + 1;
        // The claim is this thread's.
        let side = Words::at(self, unsafe { (*handle.live.get()).at() }, lies::NUMBER + 1)?;
        let cell = side.follow(self, lies::CELL, lies::COUNTS + 2)?;
        ((cell.get(lies::COUNTS), cell.get(lies::COUNTS + 1)) == (32, 4)).then_some(())?;
        let (words, slots) = (cell.follow(self, lies::WORDS, 32)?, cell.follow(self, lies::SLOTS, 4 * record)?);
        let (shown, bits) = (words.bit(lies::SHOWN)?, [words.bit(lies::PAIRS)?, words.bit(lies::PAIRS + 1)?]);
        words.bit(lies::READING)?;
        if !is_writer {
            (side.get(lies::SAID) <= 2).then_some(())?;
            side.set(lies::SAID, 2);
            return Some(0);
        }
        let numbers = [slots.get(bits[0] * record), slots.get((2 + bits[1]) * record)];
        let newest = match numbers[0].cmp(&numbers[1]) {
            core::cmp::Ordering::Greater => 0,
            core::cmp::Ordering::Less => 1,
            core::cmp::Ordering::Equal => shown,
        };
        for known in [lies::BITS, lies::BITS + 1, lies::LATEST] {
            side.bit(known)?;
        }
        if shown != newest {
            words.set(lies::SHOWN, newest as u64);
        }
        side.set(lies::BITS, bits[0] as u64);
        side.set(lies::BITS + 1, bits[1] as u64);
        side.set(lies::LATEST, newest as u64);
        side.set(lies::NUMBER, numbers[newest]);
        Some(numbers[newest])
    }
}

impl Drop for Mapped {
    fn drop(&mut self) {
        // A block that this process was forked with, or whose claims it has forgotten, stays: a list of the system's leads there.
        let is_held = self.held.load(Ordering::Relaxed) != 0 || (self.unopened.load(Ordering::Relaxed) && self.head().maker.give() != 0);
        if !is_held && self.process == std::process::id() {
            let bytes = self.head().bytes as usize;
            // No reference leads there: what gives one borrows this value.
            unsafe { munmap(self.head.as_ptr().cast(), bytes) };
        }
    }
}

/// Whether a file that was opened by its name may be attached, by what stands in its head: where it lies and how long it is.
fn look_at(file: &mut File, size: u64, root_bytes: u64, kind: u64) -> Result<(u64, u64), BlockError> {
    let mut words = [0_u64; 6];
    for word in &mut words {
        let mut bytes = [0; 8];
        file.read_exact(&mut bytes).map_err(|_| BlockError::NotReady)?;
        *word = u64::from_ne_bytes(bytes);
    }
    let [mark, its_build, at, bytes, its_kind, its_root_bytes] = words;
    match mark {
        0 => Err(BlockError::NotReady),
        MARK if its_build == build() && bytes == size => {
            if (its_kind, its_root_bytes) == (kind, root_bytes) {
                Ok((at, bytes))
            } else {
                Err(BlockError::OtherType)
            }
        }
        _ => Err(BlockError::OtherBuild),
    }
}

/// Whether the block is open; if it isn't, whether its maker lives.
fn is_open(head: &Head) -> Result<(), BlockError> {
    if head.ready.load(Ordering::Acquire) != 0 {
        return Ok(());
    }
    // The mutex is made, since the head has its mark.
    let why = unsafe { pthread_mutex_trylock(head.maker.at()) };
    if why == 0 || why == OWNER_DEAD {
        // (without `consistent`: all others are refused the mutex, and see by that that the maker is dead)
        head.maker.give();
    }
    match why {
        _ if head.ready.load(Ordering::Acquire) != 0 => Ok(()),
        OWNER_DEAD | NOT_RECOVERABLE => Err(BlockError::OwnerDead),
        _ => Err(BlockError::NotReady),
    }
}

/// A side that this thread has claimed. It goes to no other thread, as its claim doesn't.
pub struct Claimed<'b> {
    block: &'b Mapped,
    claim: &'b Claim,
    live: *mut Live,
    of: PhantomData<*mut ()>,
}

impl Claimed<'_> {
    #[inline]
    pub fn live(&mut self) -> &mut Live {
        // The claim is this thread's, and this value is borrowed.
        unsafe { &mut *self.live }
    }
}

impl Drop for Claimed<'_> {
    fn drop(&mut self) {
        // (in a forked child, which has no claim, nothing is given back)
        if self.claim.give() == 0 {
            self.block.held.fetch_sub(1, Ordering::Relaxed);
        }
    }
}

/// Puts the sides of a new register into these handles. Gives the numbers of their types.
pub fn make_sides<T: Copy>(calls: &'static raw::Calls, first: &T, handles: [&Handle; 2]) -> Result<[u64; 2], u32> {
    // The register isn't made, and this thread alone makes it.
    let (writer, reader) = unsafe { (&mut *handles[0].live.get(), &mut *handles[1].live.get()) };
    match raw::open_here(calls, first, writer, reader) {
        0 => {
            // As above.
            handles.iter().for_each(|it| unsafe { *it.home.get() = *it });
            Ok([writer.state(), reader.state()])
        }
        status => Err(status),
    }
}

/// Puts the places of a new board into these handles.
pub fn make_places<T: Copy>(calls: &'static raw::BoardCalls, first: &T, handles: &[Handle]) -> Result<[u64; 2], u32> {
    match raw::open_board_here(calls, handles.len(), first, |k, live| handles[k].put(live)) {
        0 => Ok([0, 0]),
        status => Err(status),
    }
}

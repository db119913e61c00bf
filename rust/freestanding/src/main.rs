//! A program without the standard library and without a C library: it has the five functions that the library asks for, and says `passed` by
//! the system's own call.
#![no_std]
#![no_main]

use core::alloc::{GlobalAlloc, Layout};
use core::arch::{asm, global_asm};
use core::sync::atomic::{AtomicUsize, Ordering::SeqCst};

#[repr(align(64))]
struct Memory(core::cell::UnsafeCell<[u8; 1 << 20]>);
// SAFETY: each block of it is given to one caller.
unsafe impl Sync for Memory {}
static MEMORY: Memory = Memory(core::cell::UnsafeCell::new([0; 1 << 20]));
static TAKEN: AtomicUsize = AtomicUsize::new(0);
static BLOCKS: AtomicUsize = AtomicUsize::new(0);

#[no_mangle]
extern "C" fn malloc(size: usize) -> *mut u8 {
    let at = TAKEN.fetch_add(size.next_multiple_of(64), SeqCst);
    if at + size > 1 << 20 {
        return core::ptr::null_mut();
    }
    BLOCKS.fetch_add(1, SeqCst);
    MEMORY.0.get().cast::<u8>().wrapping_add(at)
}

#[no_mangle]
extern "C" fn free(block: *mut u8) {
    BLOCKS.fetch_sub(usize::from(!block.is_null()), SeqCst);
}

/// # Safety
/// As C's.
#[no_mangle]
unsafe extern "C" fn memmove(to: *mut u8, from: *const u8, size: usize) -> *mut u8 {
    if to.cast_const() < from {
        for k in 0..size {
            to.add(k).write_volatile(*from.add(k));
        }
    } else {
        for k in (0..size).rev() {
            to.add(k).write_volatile(*from.add(k));
        }
    }
    to
}

/// # Safety
/// As C's.
#[no_mangle]
unsafe extern "C" fn memcpy(to: *mut u8, from: *const u8, size: usize) -> *mut u8 {
    memmove(to, from, size)
}

/// # Safety
/// As C's.
#[no_mangle]
unsafe extern "C" fn memset(at: *mut u8, byte: i32, size: usize) -> *mut u8 {
    for k in 0..size {
        at.add(k).write_volatile(byte as u8);
    }
    at
}

/// What Rust's own libraries ask for beside: this, and a name that nothing calls, as no panic unwinds.
///
/// # Safety
/// As C's.
#[no_mangle]
unsafe extern "C" fn bcmp(a: *const u8, b: *const u8, size: usize) -> i32 {
    for k in 0..size {
        if a.add(k).read_volatile() != b.add(k).read_volatile() {
            return 1;
        }
    }
    0
}

#[no_mangle]
extern "C" fn rust_eh_personality() {}

struct OfTheLibrary;
// SAFETY: blocks are aligned to 64, and no two overlap.
unsafe impl GlobalAlloc for OfTheLibrary {
    unsafe fn alloc(&self, layout: Layout) -> *mut u8 {
        malloc(layout.size())
    }
    unsafe fn dealloc(&self, block: *mut u8, _: Layout) {
        free(block);
    }
}
#[global_allocator]
static ALLOCATOR: OfTheLibrary = OfTheLibrary;

#[panic_handler]
fn panic(_: &core::panic::PanicInfo) -> ! {
    exit(1)
}

fn try_all() -> Option<()> {
    let (mut writer, mut reader) = nidzaru::register([0_u64; 3]).ok()?;
    let (mut filler, mut holder) = nidzaru::triple_register([0_u64; 300]).ok()?;
    for n in 1..=5 {
        writer.write(&[n; 3]).ok()?;
        filler.write(&[n; 300]).ok()?;
        (reader.latest() == [n; 3] && reader.number() == n).then_some(())?;
        (holder.latest() == [n; 300] && holder.number() == n).then_some(())?;
    }
    let mut places = nidzaru::board(3, 1_u64).ok()?;
    let stamp = places[2].write(&9).ok()?;
    (places[0].read() == 9 && places[0].stamp() == stamp).then_some(())
}

#[cfg(target_arch = "x86_64")]
global_asm!(".globl _start", "_start: xor ebp, ebp", "and rsp, -16", "call run");
#[cfg(target_arch = "aarch64")]
global_asm!(".globl _start", "_start: mov x29, #0", "mov x30, #0", "bl run");

/// # Safety
/// The call has what Linux asks of it.
#[cfg(target_arch = "x86_64")]
unsafe fn call(number: usize, a: usize, b: usize, c: usize) {
    asm!("syscall", inout("rax") number => _, in("rdi") a, in("rsi") b, in("rdx") c, out("rcx") _, out("r11") _);
}
/// # Safety
/// The call has what Linux asks of it.
#[cfg(target_arch = "aarch64")]
unsafe fn call(number: usize, a: usize, b: usize, c: usize) {
    asm!("svc #0", in("x8") number, inout("x0") a => _, in("x1") b, in("x2") c);
}
const WRITE: usize = if cfg!(target_arch = "x86_64") { 1 } else { 64 };
const EXIT: usize = if cfg!(target_arch = "x86_64") { 60 } else { 93 };

fn exit(status: usize) -> ! {
    loop {
        // SAFETY: it takes a number alone.
        unsafe { call(EXIT, status, 0, 0) };
    }
}

#[no_mangle]
extern "C" fn run() -> ! {
    if try_all().is_none() || BLOCKS.load(SeqCst) != 0 {
        exit(1);
    }
    let said = b"passed\n";
    // SAFETY: the bytes are there.
    unsafe { call(WRITE, 1, said.as_ptr() as usize, said.len()) };
    exit(0)
}

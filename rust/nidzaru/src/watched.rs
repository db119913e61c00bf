//! What ThreadSanitizer is told, in a program that is built with it: it is to ignore what the library does, and what was done before a write
//! comes before what is done after a call that gives its record or its number. Elsewhere nothing is told and nothing is kept.

#[cfg(nidzaru_watched)]
#[allow(unsafe_code)]
mod told {
    use core::ffi::{c_char, c_int, c_void};
    use core::sync::atomic::{AtomicPtr, AtomicUsize, Ordering};

    extern "C" {
        fn AnnotateIgnoreReadsBegin(file: *const c_char, line: c_int);
        fn AnnotateIgnoreReadsEnd(file: *const c_char, line: c_int);
        fn AnnotateIgnoreWritesBegin(file: *const c_char, line: c_int);
        fn AnnotateIgnoreWritesEnd(file: *const c_char, line: c_int);
        fn __tsan_acquire(at: *mut c_void);
        fn __tsan_release(at: *mut c_void);
    }

    static BYTES: [u8; 1 << 16] = [0; 1 << 16];
    static MADE: AtomicUsize = AtomicUsize::new(0);
    /// By each register's byte, where its reader holds a record.
    static HELD: [AtomicPtr<c_void>; 1 << 16] = [const { AtomicPtr::new(core::ptr::null_mut()) }; 1 << 16];
    const FILE: *const c_char = c"nidzaru".as_ptr();

    /// The byte by which a register or a board is known. From the 65,537th on some share one.
    #[derive(Clone, Copy)]
    pub struct Order(&'static u8);

    impl Order {
        pub fn new() -> Order {
            Order(&BYTES[MADE.fetch_add(1, Ordering::Relaxed) % BYTES.len()])
        }

        fn at(self) -> *mut c_void {
            core::ptr::from_ref(self.0).cast_mut().cast()
        }

        /// A call that writes: what went before it is shown.
        pub fn show<R>(self, call: impl FnOnce() -> R) -> R {
            // The address stands for the register; nothing is stored there.
            unsafe { __tsan_release(self.at()) };
            ignore(call)
        }

        fn held(self) -> &'static AtomicPtr<c_void> {
            &HELD[self.at() as usize - BYTES.as_ptr() as usize]
        }

        /// The reader holds the record there.
        pub fn keep(self, at: *const c_void) {
            self.held().store(at.cast_mut(), Ordering::Relaxed);
        }

        /// What the reader did with the record that it holds comes before what the writer does once that very slot is lent to it.
        pub fn let_go(self) {
            let at = self.held().load(Ordering::Relaxed);
            if !at.is_null() {
                // The address stands for the slot; nothing is stored there.
                unsafe { __tsan_release(at) };
            }
        }

        /// The slot there was lent to the writer.
        pub fn take(self, at: *mut c_void) {
            // As above.
            unsafe { __tsan_acquire(at) };
        }

        /// A call that reads or looks: what was shown comes before what follows it.
        pub fn see<R>(self, call: impl FnOnce() -> R) -> R {
            self.let_go();
            let given = ignore(call);
            // As above.
            unsafe { __tsan_acquire(self.at()) };
            given
        }
    }

    /// A call of the library.
    pub fn ignore<R>(call: impl FnOnce() -> R) -> R {
        // Each begins and ends what this thread is not watched for.
        unsafe {
            AnnotateIgnoreReadsBegin(FILE, 0);
            AnnotateIgnoreWritesBegin(FILE, 0);
        }
        let given = call();
        unsafe {
            AnnotateIgnoreWritesEnd(FILE, 0);
            AnnotateIgnoreReadsEnd(FILE, 0);
        }
        given
    }
}

#[cfg(not(nidzaru_watched))]
mod told {
    use core::ffi::c_void;

    #[derive(Clone, Copy)]
    pub struct Order;

    impl Order {
        pub fn new() -> Order {
            Order
        }

        #[inline(always)]
        pub fn show<R>(self, call: impl FnOnce() -> R) -> R {
            call()
        }

        #[inline(always)]
        pub fn see<R>(self, call: impl FnOnce() -> R) -> R {
            call()
        }

        #[inline(always)]
        pub fn keep(self, _at: *const c_void) {}

        #[inline(always)]
        pub fn let_go(self) {}

        #[inline(always)]
        pub fn take(self, _at: *mut c_void) {}
    }

    #[inline(always)]
    pub fn ignore<R>(call: impl FnOnce() -> R) -> R {
        call()
    }
}

pub use told::{ignore, Order};

//! The processor time of this thread, so that other work on the machine counts little, and the core
//! that it runs on.

use std::ffi::{c_int, c_ulong};

#[repr(C)]
struct Timespec {
    seconds: i64,
    nanoseconds: i64,
}

extern "C" {
    fn clock_gettime(clock: c_int, time: *mut Timespec) -> c_int;
    fn sched_getcpu() -> c_int;
    fn sched_setaffinity(process: c_int, size: usize, cores: *const c_ulong) -> c_int;
}

/// Linux's CLOCK_THREAD_CPUTIME_ID.
const THREAD_TIME: c_int = 3;

/// In nanoseconds, from some beginning.
pub fn now() -> f64 {
    let mut time = Timespec { seconds: 0, nanoseconds: 0 };
    // SAFETY: the structure is Linux's on 64-bit systems, and a local.
    let status = unsafe { clock_gettime(THREAD_TIME, &mut time) };
    assert_eq!(status, 0, "the clock is there");
    time.seconds as f64 * 1e9 + time.nanoseconds as f64
}

/// The time of this work, in nanoseconds.
pub fn time(work: impl FnOnce()) -> f64 {
    let start = now();
    work();
    now() - start
}

/// Keeps this thread on the core that it is on, where the system allows it.
pub fn stay_on_core() {
    let mut cores: [c_ulong; 16] = [0; 16];
    // SAFETY: the call has no arguments.
    let core = unsafe { sched_getcpu() };
    let digits = c_ulong::BITS as usize;
    let Ok(core) = usize::try_from(core) else { return };
    let Some(word) = cores.get_mut(core / digits) else { return };
    *word = 1 << (core % digits);
    // SAFETY: the mask is a local of so many bytes. Where the call fails, the thread may move.
    unsafe { sched_setaffinity(0, size_of_val(&cores), cores.as_ptr()) };
}

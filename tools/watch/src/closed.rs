//! Whether standard input and output were closed when the command began. Before `main` Rust opens
//! /dev/null in their place, where a log would be empty and every line be lost, so this looks first.

use std::sync::atomic::{AtomicBool, Ordering};

static INPUT: AtomicBool = AtomicBool::new(false);
static OUTPUT: AtomicBool = AtomicBool::new(false);

extern "C" {
    fn fcntl(descriptor: i32, command: i32, ...) -> i32;
}

/// Asks for a descriptor's flags, which fails if it is closed.
const F_GETFD: i32 = 1;

/// Called by the C library when the process begins.
#[used]
#[link_section = ".init_array"]
static LOOK: extern "C" fn() = look;

extern "C" fn look() {
    // Sound, since the question reads and writes no memory of the process.
    let closed = |descriptor| unsafe { fcntl(descriptor, F_GETFD) } == -1;
    INPUT.store(closed(0), Ordering::Relaxed);
    OUTPUT.store(closed(1), Ordering::Relaxed);
}

pub fn input() -> bool {
    INPUT.load(Ordering::Relaxed)
}

pub fn output() -> bool {
    OUTPUT.load(Ordering::Relaxed)
}

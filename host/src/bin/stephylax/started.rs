//! Whether standard output was closed when the command was started. Before `main` the runtime of Rust opens /dev/null in place
//! of a closed stream, which cannot be told from output that is thrown away on purpose; so it is asked before that.

use std::sync::atomic::{AtomicBool, Ordering};

const STANDARD_OUTPUT: i32 = 1;
/// Asks for the flags of a descriptor; only a closed one has none.
const F_GETFD: i32 = 1;

static CLOSED: AtomicBool = AtomicBool::new(false);

extern "C" {
    fn fcntl(descriptor: i32, asked: i32, ...) -> i32;
}

extern "C" fn look() {
    // SAFETY: F_GETFD takes any number for a descriptor, and changes nothing.
    let flags = unsafe { fcntl(STANDARD_OUTPUT, F_GETFD) };
    CLOSED.store(flags == -1, Ordering::Relaxed);
}

/// The system calls what stands in this section before `main`.
#[used]
#[link_section = ".init_array"]
static BEFORE_MAIN: extern "C" fn() = look;

pub fn without_output() -> bool {
    CLOSED.load(Ordering::Relaxed)
}

//! Whether standard output was closed when the command began. Rust opens
//! /dev/null in its place before `main`, so this is tested even before that.

#[cfg(target_os = "linux")]
mod linux {
    use std::sync::atomic::{AtomicBool, Ordering};

    extern "C" {
        fn fcntl(file: i32, command: i32, ...) -> i32;
    }

    const STANDARD_OUTPUT: i32 = 1;
    const GET_FLAGS: i32 = 1;

    static WAS_CLOSED: AtomicBool = AtomicBool::new(false);

    extern "C" fn look() {
        // SAFETY: the call reads the flags of a file, and takes no pointer.
        let flags = unsafe { fcntl(STANDARD_OUTPUT, GET_FLAGS) };
        WAS_CLOSED.store(flags < 0, Ordering::Relaxed);
    }

    // The system calls the functions of this section before `main`.
    #[used]
    #[link_section = ".init_array"]
    static LOOK: extern "C" fn() = look;

    pub fn was_closed() -> bool {
        WAS_CLOSED.load(Ordering::Relaxed)
    }
}

#[cfg(target_os = "linux")]
pub use linux::was_closed;

/// On other systems it is not known.
#[cfg(not(target_os = "linux"))]
pub fn was_closed() -> bool {
    false
}

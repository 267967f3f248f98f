//! A terminal that gives each key as it is pressed. It works on systems whose
//! terminal settings are known here.

#[cfg(all(
    target_os = "linux",
    any(target_arch = "x86_64", target_arch = "aarch64")
))]
mod linux {
    /// The settings of a terminal, as the C library lays them out on Linux.
    #[repr(C)]
    #[derive(Clone, Copy, Default)]
    struct Settings {
        input: u32,
        output: u32,
        control: u32,
        local: u32,
        discipline: u8,
        characters: [u8; 32],
        speeds: [u32; 2],
    }

    /// The rows, columns, width and height of a terminal.
    type Size = [u16; 4];

    extern "C" {
        fn tcgetattr(file: i32, settings: *mut Settings) -> i32;
        fn tcsetattr(file: i32, action: i32, settings: *const Settings) -> i32;
        fn ioctl(file: i32, request: u64, ...) -> i32;
    }

    const STANDARD_INPUT: i32 = 0;
    const NOW: i32 = 0;
    /// The request for a terminal's size.
    const GET_SIZE: u64 = 0x5413;
    /// Signals of keys, whole lines, and the echo of keys.
    const BY_LINES: u32 = 0x1 | 0x2 | 0x8;
    const LEAST_WAIT: usize = 5;
    const LEAST_BYTES: usize = 6;

    /// A terminal that gives keys; it is as before when this is dropped.
    pub struct Keys {
        before: Settings,
    }

    impl Keys {
        /// Keys of standard input, if it is a terminal.
        pub fn new() -> Option<Keys> {
            let mut before = Settings::default();
            // SAFETY: the pointer is to a live struct of the C library's layout, which the call fills.
            if unsafe { tcgetattr(STANDARD_INPUT, &mut before) } != 0 {
                return None;
            }
            let mut by_keys = before;
            by_keys.local &= !BY_LINES;
            by_keys.characters[LEAST_WAIT] = 0;
            by_keys.characters[LEAST_BYTES] = 1;
            set(&by_keys).then_some(Keys { before })
        }

        /// The terminal's columns, if it says so.
        pub fn columns(&self) -> Option<usize> {
            let mut size = Size::default();
            // SAFETY: the pointer is to a live array of the size that the request fills.
            let is_known = unsafe { ioctl(STANDARD_INPUT, GET_SIZE, &raw mut size) } == 0;
            (is_known && size[1] > 0).then_some(size[1].into())
        }
    }

    impl Drop for Keys {
        fn drop(&mut self) {
            set(&self.before);
        }
    }

    fn set(settings: &Settings) -> bool {
        // SAFETY: the pointer is to a live struct of the C library's layout, which the call only reads.
        unsafe { tcsetattr(STANDARD_INPUT, NOW, settings) == 0 }
    }
}

#[cfg(not(all(
    target_os = "linux",
    any(target_arch = "x86_64", target_arch = "aarch64")
)))]
mod linux {
    /// Keys that no terminal gives here: lines are read as they come.
    pub struct Keys;

    impl Keys {
        pub fn new() -> Option<Keys> {
            None
        }

        pub fn columns(&self) -> Option<usize> {
            None
        }
    }
}

pub use linux::Keys;

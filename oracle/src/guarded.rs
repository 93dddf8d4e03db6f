//! Buffers between pages that nobody may touch: a read or a write past an end of one stops the program, and what lies
//! beside it in its own pages is looked at afterwards. Those that are only to be read lie in pages that nobody may write:
//! any write to one stops the program. (Linux, pages of 4,096 bytes.)

use std::ffi::{c_int, c_void};
use std::{ptr, slice};

const PAGE: usize = 4096;

const PROT_NONE: c_int = 0;
const PROT_READ: c_int = 0x1;
const PROT_READ_WRITE: c_int = 0x1 | 0x2;
const MAP_PRIVATE_ANONYMOUS: c_int = 0x02 | 0x20;

unsafe extern "C" {
    fn mmap(
        address: *mut c_void,
        length: usize,
        protection: c_int,
        flags: c_int,
        file: c_int,
        offset: i64,
    ) -> *mut c_void;
    fn mprotect(address: *mut c_void, length: usize, protection: c_int) -> c_int;
    fn munmap(address: *mut c_void, length: usize) -> c_int;
}

/// Against which of the two pages a buffer lies.
#[derive(Clone, Copy, Debug, PartialEq, Eq)]
pub enum Side {
    First,
    Last,
}

/// A buffer in pages of its own, with a page before and one behind that cannot be touched.
pub struct Guarded {
    pages: *mut u8,
    /// The bytes between the two pages.
    room: usize,
    /// Where the buffer lies in them.
    start: usize,
    length: usize,
}

/// The byte beside a buffer at a place; neighbours differ, so that a copied or shifted one is seen as well.
fn guard(place: usize) -> u8 {
    0xA5 ^ (place as u8).wrapping_mul(0x1D)
}

impl Guarded {
    pub fn new(content: &[u8], side: Side) -> Self {
        let length = content.len();
        let room = length.div_ceil(PAGE).max(1) * PAGE;
        // SAFETY: new pages are asked for.
        let pages = unsafe { mmap(ptr::null_mut(), room + 2 * PAGE, PROT_NONE, MAP_PRIVATE_ANONYMOUS, -1, 0) };
        assert!(pages as isize != -1, "no pages");
        let start = match side {
            Side::First => 0,
            Side::Last => room - length,
        };
        let mut guarded = Guarded { pages: pages.cast(), room, start, length };
        guarded.protect(PROT_READ_WRITE);
        for (place, byte) in guarded.room_mut().iter_mut().enumerate() {
            *byte = guard(place);
        }
        guarded.content_mut().copy_from_slice(content);
        guarded
    }

    /// What may be done with the pages between the first and the last.
    fn protect(&mut self, protection: c_int) {
        // SAFETY: the pages are this buffer's own, and nobody is lent them while `self` is.
        let done = unsafe { mprotect(self.pages.add(PAGE).cast(), self.room, protection) };
        assert_eq!(done, 0, "the pages cannot be protected");
    }

    fn room(&self) -> &[u8] {
        // SAFETY: these pages are readable as long as the buffer lives, and lent with it.
        unsafe { slice::from_raw_parts(self.pages.add(PAGE), self.room) }
    }

    fn room_mut(&mut self) -> &mut [u8] {
        // SAFETY: as above, and writable.
        unsafe { slice::from_raw_parts_mut(self.pages.add(PAGE), self.room) }
    }

    pub fn content(&self) -> &[u8] {
        &self.room()[self.start..][..self.length]
    }

    /// Its pointer is never NULL, also where the length is 0.
    pub fn content_mut(&mut self) -> &mut [u8] {
        let (start, length) = (self.start, self.length);
        &mut self.room_mut()[start..][..length]
    }

    /// Whether all that lies beside the buffer is as it was.
    pub fn check(&self, name: &str) -> Result<(), String> {
        let whole = |range: std::ops::Range<usize>| range.clone().map(guard).eq(self.room()[range].iter().copied());
        if !whole(0..self.start) {
            return Err(format!("bytes before the {name} were changed"));
        }
        if !whole(self.start + self.length..self.room) {
            return Err(format!("bytes behind the {name} were changed"));
        }
        Ok(())
    }
}

impl Drop for Guarded {
    fn drop(&mut self) {
        // SAFETY: the pages are this buffer's own, and not used any more.
        unsafe {
            munmap(self.pages.cast(), self.room + 2 * PAGE);
        }
    }
}

/// Such a buffer in pages that nobody may write, so that it stays as it is, and all beside it too.
pub struct ReadOnly(Guarded);

impl ReadOnly {
    pub fn new(content: &[u8], side: Side) -> Self {
        let mut guarded = Guarded::new(content, side);
        guarded.protect(PROT_READ);
        ReadOnly(guarded)
    }

    /// Its pointer is never NULL, also where the length is 0.
    pub fn content(&self) -> &[u8] {
        self.0.content()
    }
}

#[cfg(test)]
mod tests {
    use std::os::unix::process::ExitStatusExt;
    use std::process::{Command, Stdio};
    use std::{env, hint};

    use super::*;

    #[test]
    fn a_changed_byte_beside_it_is_seen() {
        for side in [Side::First, Side::Last] {
            for length in [0, 1, 100, PAGE - 1] {
                let buffer = Guarded::new(&vec![0x11; length], side);
                let beside = (0..buffer.room).filter(|place| !(buffer.start..buffer.start + length).contains(place));
                for place in beside {
                    let mut buffer = Guarded::new(&vec![0x11; length], side);
                    assert_eq!(buffer.check("buffer"), Ok(()));
                    buffer.room_mut()[place] ^= 0x01;
                    assert!(buffer.check("buffer").is_err());
                }
            }
        }
    }

    #[test]
    fn it_lies_against_a_page() {
        for length in [0, 1, PAGE - 1, PAGE, PAGE + 1] {
            let content = vec![0x11; length];
            let first = Guarded::new(&content, Side::First);
            assert_eq!(first.content().as_ptr() as usize, first.pages as usize + PAGE);
            let last = Guarded::new(&content, Side::Last);
            assert_eq!(last.content().as_ptr() as usize + length, last.pages as usize + PAGE + last.room);
            assert!(first.content() == content && last.content() == content);
        }
    }
    const SIGSEGV: i32 = 11;

    /// What is done to a buffer of a hundred bytes, by the name that the environment gives.
    const TRIALS: &str = "GUARDED_TRIAL";

    fn read(buffer: &[u8], place: isize) {
        // SAFETY: the place is in the pages of a buffer, or in one of the two beside them, which stops the program.
        hint::black_box(unsafe { buffer.as_ptr().offset(place).read_volatile() });
    }

    fn write(buffer: &[u8], place: isize) {
        // SAFETY: as above, and pages that are only read stop the program too.
        unsafe { buffer.as_ptr().cast_mut().offset(place).write_volatile(0x22) };
    }

    fn carry_out(trial: &str) {
        let content = [0x11; 100];
        let [first, last] = [Side::First, Side::Last].map(|side| Guarded::new(&content, side));
        let [sealed_first, sealed_last] = [Side::First, Side::Last].map(|side| ReadOnly::new(&content, side));
        let empty = ReadOnly::new(&[], Side::First);
        match trial {
            "write in a buffer" => write(first.content(), 99),
            "read in a buffer that is only read" => read(sealed_last.content(), 0),
            "read before a buffer" => read(first.content(), -1),
            "read behind a buffer" => read(last.content(), 100),
            "write behind a buffer" => write(last.content(), 100),
            "write to the first byte of one that is only read" => write(sealed_first.content(), 0),
            "write to the last byte of one that is only read" => write(sealed_last.content(), 99),
            "write beside one that is only read" => write(sealed_first.content(), 100),
            "write to an empty one that is only read" => write(empty.content(), 0),
            _ => panic!("no such trial: {trial}"),
        }
    }

    #[test]
    fn what_may_not_be_done_stops_the_program() {
        if let Ok(trial) = env::var(TRIALS) {
            return carry_out(&trial);
        }
        let signal = |trial: &str| {
            let mut program = Command::new(env::current_exe().expect("the test program has a name"));
            program.args(["--exact", "guarded::tests::what_may_not_be_done_stops_the_program"]);
            let program = program.env(TRIALS, trial).stdout(Stdio::null()).stderr(Stdio::null());
            let status = program.status().expect("the test program runs");
            assert!(status.success() || status.signal().is_some(), "{trial}: {status}");
            status.signal()
        };
        for trial in ["write in a buffer", "read in a buffer that is only read"] {
            assert_eq!(signal(trial), None, "{trial}");
        }
        for trial in [
            "read before a buffer",
            "read behind a buffer",
            "write behind a buffer",
            "write to the first byte of one that is only read",
            "write to the last byte of one that is only read",
            "write beside one that is only read",
            "write to an empty one that is only read",
        ] {
            assert_eq!(signal(trial), Some(SIGSEGV), "{trial}");
        }
    }
}

//! Signals and the file that has to go with the process: the few functions of the C library that are needed for it.

use std::ffi::{CString, c_char, c_int};
use std::os::unix::ffi::OsStrExt;
use std::path::Path;
use std::ptr::null_mut;
use std::sync::atomic::{AtomicPtr, Ordering};

unsafe extern "C" {
    fn signal(number: c_int, handler: usize) -> usize;
    fn raise(number: c_int) -> c_int;
    fn unlink(path: *const c_char) -> c_int;
}

const HUP: c_int = 1;
const INT: c_int = 2;
const TERM: c_int = 15;
const XFSZ: c_int = 25;

const DEFAULT: usize = 0;
const IGNORED: usize = 1;

/// The path of the file that goes with the process, or null.
static DOOMED: AtomicPtr<c_char> = AtomicPtr::new(null_mut());

/// Removes the file and ends by the same signal.
extern "C" fn end(number: c_int) {
    let path = DOOMED.swap(null_mut(), Ordering::SeqCst);
    // SAFETY: these three may be called by a handler; a path that is not null is a C string until its guard is dropped.
    unsafe {
        if !path.is_null() {
            unlink(path);
        }
        signal(number, DEFAULT);
        raise(number);
    }
}

/// A file beyond the size that this process may write is an error of its write, not the end of the process.
pub fn report_file_size() {
    // SAFETY: an ignored signal runs no code.
    unsafe { signal(XFSZ, IGNORED) };
}

/// While this lives, its file is removed if HUP, INT or TERM end the process.
pub struct Doomed {
    path: *mut c_char,
}

impl Doomed {
    pub fn new(path: &Path) -> Doomed {
        let path = CString::new(path.as_os_str().as_bytes()).unwrap_or_default().into_raw();
        DOOMED.store(path, Ordering::SeqCst);
        for number in [HUP, INT, TERM] {
            // SAFETY: the handler does only what a handler may; a signal that was ignored stays so.
            unsafe {
                if signal(number, end as *const () as usize) == IGNORED {
                    signal(number, IGNORED);
                }
            }
        }
        Doomed { path }
    }
}

impl Drop for Doomed {
    fn drop(&mut self) {
        DOOMED.store(null_mut(), Ordering::SeqCst);
        // SAFETY: it came from into_raw, and no handler finds it any more.
        drop(unsafe { CString::from_raw(self.path) });
    }
}

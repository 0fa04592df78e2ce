// A library that is loaded before a program, by LD_PRELOAD, and lets each sync of a file take a millisecond more: as on a disk
// that really writes. Nothing here is proved.

use std::os::raw::{c_char, c_int, c_void};
use std::thread::sleep;
use std::time::Duration;

extern "C" {
    fn dlsym(handle: *mut c_void, name: *const c_char) -> *mut c_void;
}

// The next one of this name, behind this library.
const NEXT: *mut c_void = -1isize as *mut c_void;

unsafe fn slowly(name: &[u8], file: c_int) -> c_int {
    sleep(Duration::from_millis(1));
    let sync: extern "C" fn(c_int) -> c_int = std::mem::transmute(dlsym(NEXT, name.as_ptr().cast()));
    sync(file)
}

#[no_mangle]
pub unsafe extern "C" fn fsync(file: c_int) -> c_int {
    slowly(b"fsync\0", file)
}

#[no_mangle]
pub unsafe extern "C" fn fdatasync(file: c_int) -> c_int {
    slowly(b"fdatasync\0", file)
}

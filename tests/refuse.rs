//! A library to be loaded before a program (LD_PRELOAD): it refuses one growth of memory, or fails one call on a file.
//!
//! REFUSE_GROWTH=N refuses the N-th call of malloc, calloc or realloc; REFUSE_CALL=N fails the N-th of read, write, lseek, open,
//! fsync, fdatasync and ftruncate, and every later one too where REFUSE_REST is set. Where it has done that, the file `refused` stands in the working folder.
#![no_std]
#![crate_type = "cdylib"]

use core::ffi::{c_char, c_int, c_void};
use core::sync::atomic::{AtomicU64, Ordering};

#[panic_handler]
fn panic(_: &core::panic::PanicInfo) -> ! {
    loop {}
}

unsafe extern "C" {
    fn __libc_malloc(size: usize) -> *mut c_void;
    fn __libc_calloc(count: usize, size: usize) -> *mut c_void;
    fn __libc_realloc(block: *mut c_void, size: usize) -> *mut c_void;
    fn getenv(name: *const c_char) -> *const c_char;
    fn syscall(number: i64, ...) -> i64;
    fn __errno_location() -> *mut c_int;
}

static GROWTHS: AtomicU64 = AtomicU64::new(0);
static CALLS: AtomicU64 = AtomicU64::new(0);

unsafe fn number_in(name: &core::ffi::CStr) -> u64 {
    unsafe {
        let mut at = getenv(name.as_ptr());
        let mut number = 0;
        while !at.is_null() && *at != 0 {
            number = number * 10 + (*at as u64 - 48);
            at = at.add(1);
        }
        number
    }
}

unsafe fn mark() {
    unsafe {
        // open("refused", O_CREAT | O_WRONLY, 0600), and close.
        let file = syscall(2, c"refused".as_ptr(), 0o101, 0o600);
        syscall(3, file);
    }
}

unsafe fn is_refused(count: &AtomicU64, name: &core::ffi::CStr) -> bool {
    unsafe {
        let wanted = number_in(name);
        let now = count.fetch_add(1, Ordering::SeqCst) + 1;
        let is = wanted != 0 && (now == wanted || now > wanted && !getenv(c"REFUSE_REST".as_ptr()).is_null());
        if is {
            mark();
        }
        is
    }
}

unsafe fn refuses() -> bool {
    unsafe {
        let is = is_refused(&GROWTHS, c"REFUSE_GROWTH");
        if is {
            *__errno_location() = 12;
        }
        is
    }
}

unsafe fn fails(error: c_int) -> bool {
    unsafe {
        let is = is_refused(&CALLS, c"REFUSE_CALL");
        if is {
            *__errno_location() = error;
        }
        is
    }
}

#[unsafe(no_mangle)]
pub unsafe extern "C" fn malloc(size: usize) -> *mut c_void {
    unsafe { if refuses() { core::ptr::null_mut() } else { __libc_malloc(size) } }
}

#[unsafe(no_mangle)]
pub unsafe extern "C" fn calloc(count: usize, size: usize) -> *mut c_void {
    unsafe { if refuses() { core::ptr::null_mut() } else { __libc_calloc(count, size) } }
}

#[unsafe(no_mangle)]
pub unsafe extern "C" fn realloc(block: *mut c_void, size: usize) -> *mut c_void {
    unsafe { if refuses() { core::ptr::null_mut() } else { __libc_realloc(block, size) } }
}

#[unsafe(no_mangle)]
pub unsafe extern "C" fn read(file: c_int, into: *mut c_void, size: usize) -> isize {
    unsafe { if fails(5) { -1 } else { syscall(0, file, into, size) as isize } }
}

#[unsafe(no_mangle)]
pub unsafe extern "C" fn write(file: c_int, from: *const c_void, size: usize) -> isize {
    unsafe { if fails(5) { -1 } else { syscall(1, file, from, size) as isize } }
}

#[unsafe(no_mangle)]
pub unsafe extern "C" fn lseek(file: c_int, place: i64, from: c_int) -> i64 {
    unsafe { if fails(5) { -1 } else { syscall(8, file, place, from) } }
}

#[unsafe(no_mangle)]
pub unsafe extern "C" fn open(path: *const c_char, how: c_int, mode: u32) -> c_int {
    unsafe { if fails(13) { -1 } else { syscall(2, path, how, mode) as c_int } }
}

#[unsafe(no_mangle)]
pub unsafe extern "C" fn fsync(file: c_int) -> c_int {
    unsafe { if fails(5) { -1 } else { syscall(74, file) as c_int } }
}

#[unsafe(no_mangle)]
pub unsafe extern "C" fn fdatasync(file: c_int) -> c_int {
    unsafe { if fails(5) { -1 } else { syscall(75, file) as c_int } }
}

#[unsafe(no_mangle)]
pub unsafe extern "C" fn ftruncate(file: c_int, size: i64) -> c_int {
    unsafe { if fails(5) { -1 } else { syscall(77, file, size) as c_int } }
}

//! Debian's libsixel, loaded at run time; without it that column is empty.
use std::ffi::{c_char, c_int, c_uchar, c_void};

type Decode = unsafe extern "C" fn(
    *mut c_uchar,
    c_int,
    *mut *mut c_uchar,
    *mut c_int,
    *mut c_int,
    *mut *mut c_uchar,
    *mut c_int,
    *mut c_void,
) -> c_int;

extern "C" {
    fn dlopen(name: *const c_char, flags: c_int) -> *mut c_void;
    fn dlsym(library: *mut c_void, name: *const c_char) -> *mut c_void;
    fn free(memory: *mut c_void);
}

pub fn load() -> Option<Decode> {
    const NOW: c_int = 2;
    // SAFETY: both names are NUL-terminated; the symbol has the type that libsixel's header gives it.
    unsafe {
        let library = dlopen(c"libsixel.so.1".as_ptr(), NOW);
        if library.is_null() {
            return None;
        }
        let symbol = dlsym(library, c"sixel_decode_raw".as_ptr());
        if symbol.is_null() {
            return None;
        }
        Some(std::mem::transmute::<*mut c_void, Decode>(symbol))
    }
}

/// Reads a whole sequence. The answer is palette indices and not pixels: libsixel leaves the colour lookup to its caller.
pub fn decode(decode: Decode, sequence: &mut [u8]) {
    let (mut pixels, mut palette) = (std::ptr::null_mut(), std::ptr::null_mut());
    let (mut width, mut height, mut colours) = (0, 0, 0);
    // SAFETY: the sequence and the five out parameters live through the call; what it hands out is from malloc.
    unsafe {
        decode(
            sequence.as_mut_ptr(),
            sequence.len() as c_int,
            &mut pixels,
            &mut width,
            &mut height,
            &mut palette,
            &mut colours,
            std::ptr::null_mut(),
        );
        free(pixels.cast());
        free(palette.cast());
    }
}

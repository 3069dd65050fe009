//! The calls as `c/nalfipode.h` has them, on Rust's slices: each returns the paper's number, 0 where it is
//! accepted, and writes its values in their order. They are safe for any arguments: the proved functions ask
//! nothing of their callers, and references are what the header asks of pointers.
//!
//! ```
//! let mut values = [0; 5];
//! assert_eq!(nalfipode::raw::cell(0, 0, &mut values), 0);
//! assert_eq!(values, [0xC000_0000, 0, 0, 0, 64]);
//! ```

mod linked {
    // A slice is two arguments, its pointer and its number of elements.
    extern "C" {
        pub fn nalfipode_cell(longitude: i32, latitude: i32, values: *mut u32) -> u32;
        pub fn nalfipode_fresh(table: *mut u32, words: usize) -> u32;
        pub fn nalfipode_store(
            table: *mut u32,
            words: usize,
            width: u32,
            key: *const u32,
            zone: u32,
            trail: *mut u8,
            bytes: usize,
            values: *mut u32,
        ) -> u32;
        pub fn nalfipode_remove(
            table: *mut u32,
            words: usize,
            width: u32,
            key: *const u32,
            trail: *mut u8,
            bytes: usize,
            values: *mut u32,
        ) -> u32;
        pub fn nalfipode_fetch(
            table: *const u32,
            words: usize,
            width: u32,
            key: *const u32,
            trail: *mut u8,
            bytes: usize,
            values: *mut u32,
        ) -> u32;
        pub fn nalfipode_longest_match(
            table: *const u32,
            words: usize,
            width: u32,
            key: *const u32,
            trail: *mut u8,
            bytes: usize,
            values: *mut u32,
        ) -> u32;
        pub fn nalfipode_slice(
            table: *const u32,
            words: usize,
            resume: u32,
            width: u32,
            key: *const u32,
            size: u32,
            out: *mut u32,
            out_words: usize,
            values: *mut u32,
        ) -> u32;
        pub fn nalfipode_audit(table: *const u32, words: usize, values: *mut u32) -> u32;
        pub fn nalfipode_image_write(
            table: *const u32,
            words: usize,
            epoch: u64,
            out: *mut u8,
            bytes: usize,
            values: *mut u64,
        ) -> u32;
        pub fn nalfipode_image_verify(image: *const u8, bytes: usize) -> u32;
        pub fn nalfipode_image_describe(image: *const u8, bytes: usize, values: *mut u64) -> u32;
        pub fn nalfipode_image_look(image: *const u8, bytes: usize, key: *const u32, values: *mut u32) -> u32;
    }
}

// SAFETY, for each call below: pointer and length come from one reference, and Rust's references are not null,
// aligned, and, where they are lent for writing, apart from all others. The library keeps no pointer.

/// Values: the four key words, the width.
pub fn cell(longitude: i32, latitude: i32, values: &mut [u32; 5]) -> u32 {
    unsafe { linked::nalfipode_cell(longitude, latitude, values.as_mut_ptr()) }
}

/// No values.
pub fn fresh(table: &mut [u32]) -> u32 {
    unsafe { linked::nalfipode_fresh(table.as_mut_ptr(), table.len()) }
}

/// Values: the path's nodes, 1 where a number was replaced, the old number.
pub fn store(
    table: &mut [u32],
    width: u32,
    key: &[u32; 4],
    zone: u32,
    trail: &mut [u8],
    values: &mut [u32; 3],
) -> u32 {
    unsafe {
        linked::nalfipode_store(
            table.as_mut_ptr(),
            table.len(),
            width,
            key.as_ptr(),
            zone,
            trail.as_mut_ptr(),
            trail.len(),
            values.as_mut_ptr(),
        )
    }
}

/// Values: the path's nodes, the number taken out.
pub fn remove(table: &mut [u32], width: u32, key: &[u32; 4], trail: &mut [u8], values: &mut [u32; 2]) -> u32 {
    unsafe {
        linked::nalfipode_remove(
            table.as_mut_ptr(),
            table.len(),
            width,
            key.as_ptr(),
            trail.as_mut_ptr(),
            trail.len(),
            values.as_mut_ptr(),
        )
    }
}

/// Values: the path's nodes, the stored number.
pub fn fetch(table: &[u32], width: u32, key: &[u32; 4], trail: &mut [u8], values: &mut [u32; 2]) -> u32 {
    unsafe {
        linked::nalfipode_fetch(
            table.as_ptr(),
            table.len(),
            width,
            key.as_ptr(),
            trail.as_mut_ptr(),
            trail.len(),
            values.as_mut_ptr(),
        )
    }
}

/// Values: the path's nodes, 1 for a match, its width, its number.
pub fn longest_match(table: &[u32], width: u32, key: &[u32; 4], trail: &mut [u8], values: &mut [u32; 4]) -> u32 {
    unsafe {
        linked::nalfipode_longest_match(
            table.as_ptr(),
            table.len(),
            width,
            key.as_ptr(),
            trail.as_mut_ptr(),
            trail.len(),
            values.as_mut_ptr(),
        )
    }
}

/// Values: how many were given, 1 if more remain, the count. Starts at the first prefix where `resume` is 0.
pub fn slice(
    table: &[u32],
    resume: u32,
    width: u32,
    key: &[u32; 4],
    size: u32,
    out: &mut [u32],
    values: &mut [u32; 3],
) -> u32 {
    unsafe {
        linked::nalfipode_slice(
            table.as_ptr(),
            table.len(),
            resume,
            width,
            key.as_ptr(),
            size,
            out.as_mut_ptr(),
            out.len(),
            values.as_mut_ptr(),
        )
    }
}

/// Value: 1 for yes.
pub fn audit(table: &[u32], values: &mut [u32; 1]) -> u32 {
    unsafe { linked::nalfipode_audit(table.as_ptr(), table.len(), values.as_mut_ptr()) }
}

/// Value: the image's length, for ShortOut the length needed.
pub fn image_write(table: &[u32], epoch: u64, out: &mut [u8], values: &mut [u64; 1]) -> u32 {
    unsafe {
        linked::nalfipode_image_write(
            table.as_ptr(),
            table.len(),
            epoch,
            out.as_mut_ptr(),
            out.len(),
            values.as_mut_ptr(),
        )
    }
}

/// No values.
pub fn image_verify(image: &[u8]) -> u32 {
    unsafe { linked::nalfipode_image_verify(image.as_ptr(), image.len()) }
}

/// Values: nodes, data entries, epoch.
pub fn image_describe(image: &[u8], values: &mut [u64; 3]) -> u32 {
    unsafe { linked::nalfipode_image_describe(image.as_ptr(), image.len(), values.as_mut_ptr()) }
}

/// Values: 1 for a zone number, it.
pub fn image_look(image: &[u8], key: &[u32; 4], values: &mut [u32; 2]) -> u32 {
    unsafe { linked::nalfipode_image_look(image.as_ptr(), image.len(), key.as_ptr(), values.as_mut_ptr()) }
}

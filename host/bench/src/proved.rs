//! The C face of the proved library.

extern "C" {
    fn sinkerpost_check(bytes: *const u8, length: usize, n: u64) -> u64;
    fn sinkerpost_normalise(
        bytes: *const u8,
        length: usize,
        n: u64,
        out: *mut u8,
        room: usize,
    ) -> u64;
    fn sinkerpost_group(
        bytes: *const u8,
        length: usize,
        sizes: *const u64,
        telegrams: usize,
        pigs: *mut u8,
        pigs_room: usize,
        numbers: *mut u8,
        numbers_room: usize,
    ) -> u64;
}

pub fn check(bytes: &[u8], n: u64) -> u64 {
    // Sound: the pointer and the length are a slice's.
    unsafe { sinkerpost_check(bytes.as_ptr(), bytes.len(), n) }
}

pub fn normalise(bytes: &[u8], n: u64, out: &mut [u8]) -> u64 {
    // Sound: both are slices', and a borrowed slice that can be written overlaps no other.
    unsafe { sinkerpost_normalise(bytes.as_ptr(), bytes.len(), n, out.as_mut_ptr(), out.len()) }
}

pub fn group(bytes: &[u8], sizes: &[u64], pigs: &mut [u8], numbers: &mut [u8]) -> u64 {
    // Sound: all four are slices', of the types that the face has, and those that can be written overlap no other.
    unsafe {
        sinkerpost_group(
            bytes.as_ptr(),
            bytes.len(),
            sizes.as_ptr(),
            sizes.len(),
            pigs.as_mut_ptr(),
            pigs.len(),
            numbers.as_mut_ptr(),
            numbers.len(),
        )
    }
}

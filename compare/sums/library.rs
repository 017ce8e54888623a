//! The two proved sums, of the static library `sums`.

mod declared {
    extern "C" {
        pub fn sum_by_groups(octets: *const u8, length: usize) -> u32;
        pub fn sum_by_words(octets: *const u8, length: usize) -> u32;
    }
}

/// By 32-bit groups, as the packet reader takes it; 65,536 of more than 65,535 octets.
pub fn sum_by_groups(octets: &[u8]) -> u32 {
    // The slice is valid for its length.
    unsafe { declared::sum_by_groups(octets.as_ptr(), octets.len()) }
}

/// By a plain loop over 16-bit words.
pub fn sum_by_words(octets: &[u8]) -> u32 {
    // As above.
    unsafe { declared::sum_by_words(octets.as_ptr(), octets.len()) }
}

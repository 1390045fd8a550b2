//! The archive's entry.

unsafe extern "C" {
    fn lbfgsb_entry(record: *const u8, record_len: usize, out: *mut u8, out_len: usize) -> u64;
}

/// The entry on a record's bytes: its number, and the point in `out`.
pub fn entry(record: &[u8], out: &mut [u8]) -> u64 {
    // SAFETY: both slices are lent for the call, with their lengths.
    unsafe { lbfgsb_entry(record.as_ptr(), record.len(), out.as_mut_ptr(), out.len()) }
}

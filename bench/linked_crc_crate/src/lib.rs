//! The Rust crate `crc` for the benchmark.

#[no_mangle]
pub unsafe extern "C" fn linked_crc_crate(message: *const u8, n: usize) -> u32 {
    crc::crc32::checksum_ieee(std::slice::from_raw_parts(message, n))
}

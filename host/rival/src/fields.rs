//! Numbers at a place of a record whose length is known, so that no read is tested twice.

pub fn u16_at<const N: usize>(record: &[u8; N], place: usize) -> u16 {
    u16::from_le_bytes(bytes_at(record, place))
}

pub fn u32_at<const N: usize>(record: &[u8; N], place: usize) -> u32 {
    u32::from_le_bytes(bytes_at(record, place))
}

pub fn u64_at<const N: usize>(record: &[u8; N], place: usize) -> u64 {
    u64::from_le_bytes(bytes_at(record, place))
}

/// As a whole: of bytes that are read one by one aarch64 does not always get one load.
fn bytes_at<const N: usize, const LENGTH: usize>(record: &[u8; N], place: usize) -> [u8; LENGTH] {
    *record[place..].first_chunk().expect("a field stands within its record")
}

pub fn put_u64<const N: usize>(record: &mut [u8; N], place: usize, number: u64) {
    record[place..place + 8].copy_from_slice(&number.to_le_bytes());
}

//! A mark by which an archive is known again: its length and a hash of its bytes (FNV-1a).

pub fn of(bytes: &[u8]) -> String {
    let hash = bytes
        .iter()
        .fold(0xcbf2_9ce4_8422_2325, |hash: u64, &byte| {
            (hash ^ u64::from(byte)).wrapping_mul(0x0000_0100_0000_01b3)
        });
    format!("{} bytes, FNV-1a {hash:016x}", bytes.len())
}

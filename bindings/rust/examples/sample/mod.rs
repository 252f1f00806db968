//! The files of samples/ at the repository's root, for the example and the tests.

use std::path::Path;

pub fn bytes(name: &str) -> Vec<u8> {
    std::fs::read(
        Path::new(env!("CARGO_MANIFEST_DIR"))
            .join("../../samples")
            .join(name),
    )
    .unwrap()
}

/// The kernel's words, each with its most significant byte first in the file.
pub fn kernel() -> Vec<u32> {
    bytes("correction.bin")
        .chunks_exact(4)
        .map(|b| u32::from_be_bytes(b.try_into().unwrap()))
        .collect()
}

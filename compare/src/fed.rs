//! The bytes that a value feeds a hasher.

use std::hash::{Hash, Hasher};

/// A hasher that keeps its input.
#[derive(Default)]
struct Recorder {
    bytes: Vec<u8>,
}

impl Hasher for Recorder {
    fn write(&mut self, bytes: &[u8]) {
        self.bytes.extend_from_slice(bytes);
    }

    fn finish(&self) -> u64 {
        0
    }
}

/// The bytes that a value feeds a hasher, in order.
pub fn fed_by<T: Hash + ?Sized>(value: &T) -> Vec<u8> {
    let mut recorder = Recorder::default();
    value.hash(&mut recorder);
    recorder.bytes
}

//! A slice in the middle of guard bytes, at any address: after a call every byte is known.

use std::ops::Range;

/// What each byte holds before a call.
const GUARD: u8 = 0xa5;

/// Bytes in front of the slice and behind it.
const MARGIN: usize = 64;

pub struct Guarded {
    all: Vec<u8>,
    place: Range<usize>,
}

impl Guarded {
    /// A slice of so many bytes, so far off an address that 16 divides.
    pub fn new(len: usize, off: usize) -> Guarded {
        let all = vec![GUARD; len + off + 2 * MARGIN + 16];
        let from = MARGIN + all[MARGIN..].as_ptr().align_offset(16) + off;
        Guarded {
            all,
            place: from..from + len,
        }
    }

    pub fn slice(&mut self) -> &mut [u8] {
        &mut self.all[self.place.clone()]
    }

    /// Fails unless the slice begins with the bytes and all else is as it was.
    pub fn expect(&self, bytes: &[u8]) {
        let mut want = vec![GUARD; self.all.len()];
        want[self.place.start..][..bytes.len()].copy_from_slice(bytes);
        assert!(
            bytes.len() <= self.place.len() && self.all == want,
            "other bytes than {bytes:?} were written"
        );
    }
}

//! Bytes that are lent dirty and looked at afterwards.

// Each test uses a part of this.
#![allow(dead_code)]

use foq_generator::Random;

/// Lengths at and about the shortest workspace that is enough.
pub const LENGTHS: [usize; 5] = [0, 1, 32_767, 32_768, 40_000];

/// Bytes on either side of what is lent.
const MARGIN: usize = 101;
/// As many different kinds of dirt.
const SHIFTS: usize = 4_099;

/// Bytes to lend from.
pub struct Lender {
    bytes: Vec<u8>,
    dirt: Vec<u8>,
    shift: usize,
}

impl Lender {
    /// For lengths up to this one.
    pub fn up_to(most: usize) -> Lender {
        let mut random = Random::from_seed(most as u64);
        let whole = MARGIN + most + MARGIN;
        Lender {
            bytes: vec![0; whole],
            dirt: (0..whole + SHIFTS).map(|_| random.byte() | 1).collect(),
            shift: 0,
        }
    }

    /// Lends this many bytes, none of them zero, out of the midst of others.
    /// Asserts that the others stay as they were, and looks at what was lent
    /// as it was before and as it comes back.
    pub fn lend<T>(
        &mut self,
        length: usize,
        call: impl FnOnce(&mut [u8]) -> T,
        look: impl FnOnce(&[u8], &[u8]),
    ) -> T {
        self.shift = (self.shift + 1) % SHIFTS;
        let whole = MARGIN + length + MARGIN;
        let dirt = &self.dirt[self.shift..][..whole];
        let bytes = &mut self.bytes[..whole];
        bytes.copy_from_slice(dirt);
        let answer = call(&mut bytes[MARGIN..][..length]);
        assert!(bytes[..MARGIN] == dirt[..MARGIN]);
        assert!(bytes[MARGIN + length..] == dirt[MARGIN + length..]);
        look(&dirt[MARGIN..][..length], &bytes[MARGIN..][..length]);
        answer
    }
}

/// A workspace to lend.
pub struct Workspace {
    lender: Lender,
    zeros: Vec<u8>,
}

impl Workspace {
    /// For lengths up to this one.
    pub fn up_to(most: usize) -> Workspace {
        Workspace {
            lender: Lender::up_to(most),
            zeros: vec![0; most],
        }
    }

    /// Lends a workspace of this length. Asserts that it comes back as zeros.
    pub fn lend<T>(&mut self, length: usize, call: impl FnOnce(&mut [u8]) -> T) -> T {
        let zeros = &self.zeros[..length];
        let look = |_: &[u8], after: &[u8]| assert!(after == zeros);
        self.lender.lend(length, call, look)
    }
}

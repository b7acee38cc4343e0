//! A buffer with guard bytes on both sides, for a callee that might write
//! outside of it.

/// Odd, so that the buffers begin at addresses of no special alignment.
const GUARD: usize = 61;
const MARK: u8 = 0xA5;

pub struct Guarded {
    bytes: Vec<u8>,
}

impl Guarded {
    pub fn new(contents: &[u8]) -> Guarded {
        let mut buffer = Guarded::zeroed(contents.len());
        buffer.bytes[GUARD..GUARD + contents.len()].copy_from_slice(contents);
        buffer
    }

    /// A buffer of zeros, whose pages are not touched but at both ends.
    pub fn zeroed(len: usize) -> Guarded {
        let mut bytes = vec![0; len + 2 * GUARD];
        bytes[..GUARD].fill(MARK);
        bytes[GUARD + len..].fill(MARK);
        Guarded { bytes }
    }

    pub fn len(&self) -> usize {
        self.bytes.len() - 2 * GUARD
    }

    pub fn contents(&self) -> &[u8] {
        &self.bytes[GUARD..GUARD + self.len()]
    }

    /// The first byte between the guards; valid also for a length of 0.
    pub fn start(&mut self) -> *mut u8 {
        self.bytes[GUARD..].as_mut_ptr()
    }

    pub fn intact(&self) -> bool {
        let after = GUARD + self.len();
        self.bytes[..GUARD]
            .iter()
            .chain(&self.bytes[after..])
            .all(|&byte| byte == MARK)
    }
}

/// The first of some things that a call may not change and yet has changed;
/// each comes with whether it was kept.
pub fn spilt<const N: usize>(kept: [(bool, &'static str); N]) -> Option<&'static str> {
    kept.into_iter()
        .find(|(kept, _)| !kept)
        .map(|(_, what)| what)
}

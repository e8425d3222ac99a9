//! A buffer to lend to the library, with known bytes before and after it.

use super::random::Random;

const FENCE: usize = 40;

#[derive(Clone)]
pub struct Fenced {
    bytes: Vec<u8>,
    start: usize,
    length: usize,
    null: bool,
}

impl Fenced {
    /// Puts a fence around a buffer. By turns its bytes are any bytes, or small numbers, with which a table or a script
    /// would go on for a program that reads too far. An empty buffer may be lent as a null pointer.
    pub fn around(content: &[u8], random: &mut Random) -> Fenced {
        let most = random.pick(&[4, 256]);
        let mut fence = |length| (0..length).map(|_| random.below(most) as u8).collect::<Vec<u8>>();
        let before = fence(FENCE);
        let after = fence(FENCE);
        let start = random.within(FENCE as u64 / 2, FENCE as u64) as usize;
        let null = content.is_empty() && random.one_in(2);
        Fenced { bytes: [&before[..start], content, &after].concat(), start, length: content.len(), null }
    }

    /// Puts a fence of any bytes around a buffer at an address that 8 divides, but by turns not 16.
    pub fn aligned(content: &[u8], random: &mut Random) -> Fenced {
        let mut bytes = vec![0; content.len() + 2 * FENCE];
        let past_16 = random.pick(&[0, 8]);
        let right = |start: &usize| (bytes.as_ptr() as usize + start) % 16 == past_16;
        let start = (FENCE / 2..FENCE).find(right).unwrap();
        bytes[..start].copy_from_slice(&random.bytes(start));
        bytes[start..start + content.len()].copy_from_slice(content);
        bytes[start + content.len()..].copy_from_slice(&random.bytes(2 * FENCE - start));
        Fenced { bytes, start, length: content.len(), null: false }
    }

    /// The pointer is mutable even where the library may only read, since the comparison checks that it doesn't write
    /// there.
    pub fn pointer(&mut self) -> *mut u8 {
        if self.null {
            std::ptr::null_mut()
        } else {
            self.bytes[self.start..].as_mut_ptr()
        }
    }

    pub fn len(&self) -> usize {
        self.length
    }

    pub fn content(&self) -> Vec<u8> {
        self.lent().to_vec()
    }

    pub fn lent(&self) -> &[u8] {
        &self.bytes[self.start..self.start + self.length]
    }

    pub fn lent_mut(&mut self) -> &mut [u8] {
        &mut self.bytes[self.start..self.start + self.length]
    }

    pub fn same_whole_as(&self, earlier: &Fenced) -> bool {
        self.bytes == earlier.bytes
    }

    pub fn same_fence_as(&self, earlier: &Fenced) -> bool {
        let fence = |of: &Fenced| [&of.bytes[..of.start], &of.bytes[of.start + of.length..]].concat();
        fence(self) == fence(earlier)
    }
}

//! The bounded response of document 01 under the crate's own trait: what has no room writes nothing and is OOB.
use rmodbus::{ErrorKind, VectorTrait};

pub struct Bounded<'a> {
    lent: &'a mut [u8],
    len: usize,
    /// Whether anything had no room.
    pub lacked: bool,
}

impl<'a> Bounded<'a> {
    pub fn over(lent: &'a mut [u8]) -> Self {
        Bounded::holding(lent, 0)
    }

    /// A response that already holds so many bytes, at most as many as are lent.
    pub fn holding(lent: &'a mut [u8], len: usize) -> Self {
        assert!(len <= lent.len());
        Bounded { lent, len, lacked: false }
    }

    /// The bytes lent from the response's end up to `end`.
    fn room(&mut self, end: usize) -> Result<&mut [u8], ErrorKind> {
        self.lacked |= end > self.lent.len();
        self.lent.get_mut(self.len..end).ok_or(ErrorKind::OOB)
    }
}

impl VectorTrait<u8> for Bounded<'_> {
    fn push(&mut self, value: u8) -> Result<(), ErrorKind> {
        self.extend(&[value])
    }

    fn extend(&mut self, other: &[u8]) -> Result<(), ErrorKind> {
        let end = self.len + other.len();
        self.room(end)?.copy_from_slice(other);
        self.len = end;
        Ok(())
    }

    fn len(&self) -> usize {
        self.len
    }

    fn is_empty(&self) -> bool {
        self.len == 0
    }

    fn clear(&mut self) {
        self.len = 0;
    }

    fn cut_end(&mut self, len_to_cut: usize, _: u8) {
        self.len = self.len.saturating_sub(len_to_cut);
    }

    fn as_slice(&self) -> &[u8] {
        &self.lent[..self.len]
    }

    fn as_mut_slice(&mut self) -> &mut [u8] {
        &mut self.lent[..self.len]
    }

    fn resize(&mut self, new_len: usize, value: u8) -> Result<(), ErrorKind> {
        if new_len > self.len {
            self.room(new_len)?.fill(value);
        }
        self.len = new_len;
        Ok(())
    }

    fn replace(&mut self, index: usize, value: u8) {
        self.as_mut_slice()[index] = value;
    }
}

//! XDR items as 01 reads them: "A body is read front to back and the first
//! fault met decides. At one item the order is: enough bytes (its padding
//! counted), then its value, then its padding."

use crate::refusal::Refusal;
use std::ops::RangeInclusive;

/// Where the content bytes of an opaque item are in its body.
#[derive(Clone, Copy, Debug, Default, PartialEq, Eq)]
pub struct Extent {
    pub start: usize,
    pub length: usize,
}

impl Extent {
    /// The content bytes themselves.
    pub fn of<'a>(&self, body: &'a [u8]) -> &'a [u8] {
        &body[self.start..self.start + self.length]
    }
}

/// A place in a body, moved forward by each item that is read.
#[derive(Clone, Debug)]
pub struct Cursor<'a> {
    bytes: &'a [u8],
    at: usize,
}

impl<'a> Cursor<'a> {
    /// A cursor at the body's first byte.
    pub fn new(bytes: &'a [u8]) -> Self {
        Self::starting_at(bytes, 0)
    }

    /// A cursor at a given byte of the body, or at its end where that is less.
    pub fn starting_at(bytes: &'a [u8], at: usize) -> Self {
        Cursor { bytes, at: at.min(bytes.len()) }
    }

    /// How many bytes of the body are before the cursor.
    pub fn offset(&self) -> usize {
        self.at
    }

    /// The next `length` bytes, or 1 where there are fewer.
    #[inline]
    pub fn take(&mut self, length: usize) -> Result<&'a [u8], Refusal> {
        // Compared with what is left, so that no length can wrap the sum.
        if length > self.bytes.len() - self.at {
            return Err(Refusal::BytesRunOut);
        }
        let taken = &self.bytes[self.at..self.at + length];
        self.at += length;
        Ok(taken)
    }

    /// Fixed-length opaque data.
    #[inline]
    pub fn fixed<const N: usize>(&mut self) -> Result<[u8; N], Refusal> {
        let mut value = [0; N];
        value.copy_from_slice(self.take(N)?);
        Ok(value)
    }

    /// An unsigned number of 4 bytes: "All wire numbers are big-endian".
    #[inline]
    pub fn uint(&mut self) -> Result<u32, Refusal> {
        Ok(u32::from_be_bytes(self.fixed()?))
    }

    /// An unsigned number of 8 bytes.
    #[inline]
    pub fn uhyper(&mut self) -> Result<u64, Refusal> {
        Ok(u64::from_be_bytes(self.fixed()?))
    }

    /// A signed number of 8 bytes, in two's complement.
    #[inline]
    pub fn hyper(&mut self) -> Result<i64, Refusal> {
        Ok(i64::from_be_bytes(self.fixed()?))
    }

    /// "A boolean is 4 bytes, 0 or 1."
    pub fn boolean(&mut self) -> Result<bool, Refusal> {
        match self.uint()? {
            0 => Ok(false),
            1 => Ok(true),
            _ => Err(Refusal::BadBoolean),
        }
    }

    /// "A length or count in front is an item of its own", so it is judged
    /// before anything after it is looked at.
    #[inline]
    pub fn count(&mut self, limit: RangeInclusive<u32>) -> Result<u32, Refusal> {
        let value = self.uint()?;
        if limit.contains(&value) {
            Ok(value)
        } else {
            Err(Refusal::OutsideLimit)
        }
    }

    /// "Variable opaque and string data have a 4-byte length, the bytes, then
    /// 0 to 3 zero bytes up to a multiple of 4."
    #[inline]
    pub fn opaque(&mut self, limit: RangeInclusive<u32>) -> Result<Extent, Refusal> {
        let length = self.count(limit)? as usize;
        let start = self.at;
        let item = self.take(length.next_multiple_of(4))?;
        require_zero_padding(&item[length..])?;
        Ok(Extent { start, length })
    }

    /// The content bytes of variable opaque data.
    pub fn opaque_content(&mut self, limit: RangeInclusive<u32>) -> Result<&'a [u8], Refusal> {
        Ok(self.opaque(limit)?.of(self.bytes))
    }

    /// The end of a body, where nothing may follow.
    pub fn finish(self) -> Result<(), Refusal> {
        if self.at == self.bytes.len() {
            Ok(())
        } else {
            Err(Refusal::BytesLeftOver)
        }
    }
}

/// 6 "a padding byte is not 0".
#[inline]
pub fn require_zero_padding(padding: &[u8]) -> Result<(), Refusal> {
    if padding.iter().all(|&byte| byte == 0) {
        Ok(())
    } else {
        Err(Refusal::PaddingNotZero)
    }
}

/// Writes an item to the front of `rest` and moves on behind it.
#[inline]
pub fn put(rest: &mut &mut [u8], item: &[u8]) {
    let (front, behind) = std::mem::take(rest).split_at_mut(item.len());
    front.copy_from_slice(item);
    *rest = behind;
}

#[cfg(test)]
mod tests {
    use super::*;

    #[test]
    fn numbers_are_big_endian() {
        let mut cursor = Cursor::new(&[0, 0, 1, 2, 1, 0, 0, 0, 0, 0, 0, 3]);
        assert_eq!(cursor.uint(), Ok(258));
        assert_eq!(cursor.uhyper(), Ok((1 << 56) + 3));
        assert_eq!(cursor.finish(), Ok(()));
    }

    #[test]
    fn signed_numbers_are_in_twos_complement() {
        assert_eq!(Cursor::new(&[127, 255, 255, 255, 255, 255, 255, 255]).hyper(), Ok(i64::MAX));
        assert_eq!(Cursor::new(&[128, 0, 0, 0, 0, 0, 0, 0]).hyper(), Ok(i64::MIN));
        assert_eq!(Cursor::new(&[255; 8]).hyper(), Ok(-1));
    }

    #[test]
    fn a_cut_number_runs_out() {
        assert_eq!(Cursor::new(&[0; 3]).uint(), Err(Refusal::BytesRunOut));
        assert_eq!(Cursor::new(&[0; 7]).uhyper(), Err(Refusal::BytesRunOut));
        assert_eq!(Cursor::new(&[0; 7]).hyper(), Err(Refusal::BytesRunOut));
        assert_eq!(Cursor::new(&[0; 15]).fixed::<16>(), Err(Refusal::BytesRunOut));
    }

    #[test]
    fn a_start_beyond_the_body_runs_out() {
        assert_eq!(Cursor::starting_at(&[0; 4], 9).uint(), Err(Refusal::BytesRunOut));
        assert_eq!(Cursor::starting_at(&[0; 4], 0).uint(), Ok(0));
    }

    #[test]
    fn booleans_are_zero_or_one() {
        assert_eq!(Cursor::new(&[0, 0, 0, 0]).boolean(), Ok(false));
        assert_eq!(Cursor::new(&[0, 0, 0, 1]).boolean(), Ok(true));
        assert_eq!(Cursor::new(&[0, 0, 0, 2]).boolean(), Err(Refusal::BadBoolean));
        assert_eq!(Cursor::new(&[1, 0, 0, 0]).boolean(), Err(Refusal::BadBoolean));
        assert_eq!(Cursor::new(&[0, 0, 2]).boolean(), Err(Refusal::BytesRunOut));
    }

    #[test]
    fn a_length_is_judged_before_its_bytes_are_looked_for() {
        let too_long = [0, 0, 0, 9];
        assert_eq!(Cursor::new(&too_long).opaque(0..=8), Err(Refusal::OutsideLimit));
        let allowed = [0, 0, 0, 8];
        assert_eq!(Cursor::new(&allowed).opaque(0..=8), Err(Refusal::BytesRunOut));
    }

    #[test]
    fn padding_is_counted_and_then_judged() {
        let short = [0, 0, 0, 5, 1, 2, 3, 4, 5, 0, 0];
        assert_eq!(Cursor::new(&short).opaque(0..=8), Err(Refusal::BytesRunOut));
        let whole = [0, 0, 0, 5, 1, 2, 3, 4, 5, 0, 0, 0];
        assert_eq!(Cursor::new(&whole).opaque(0..=8), Ok(Extent { start: 4, length: 5 }));
        for place in 9..12 {
            let mut wrong = whole;
            wrong[place] = 1;
            assert_eq!(Cursor::new(&wrong).opaque(0..=8), Err(Refusal::PaddingNotZero));
        }
    }

    #[test]
    fn bytes_behind_the_last_item_are_left_over() {
        let mut cursor = Cursor::new(&[0; 5]);
        assert_eq!(cursor.uint(), Ok(0));
        assert_eq!(cursor.finish(), Err(Refusal::BytesLeftOver));
    }
}

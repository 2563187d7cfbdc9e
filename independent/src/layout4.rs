//! The `layout4` structure of RFC 5661 with a flexible file body.

use crate::iomode::{IOMODE_READ, IOMODE_RW};
use crate::layout::{read_layout_body, LayoutSummary, BODY_LIMIT};
use crate::range::check_range;
use crate::refusal::Refusal;
use crate::xdr::{require_zero_padding, Cursor};

/// LAYOUT4_FLEX_FILES: "layout type (4, must be 4)"
pub const FLEX_FILES: u32 = 4;
/// Where the body starts in a `layout4`: 8 + 8 + 4 + 4 + 4 bytes are before it.
pub const BODY_IN_LAYOUT4: usize = 28;

/// A `layout4` and the summary of its body, whose starts are counted from the
/// body's first byte.
#[derive(Clone, Debug, PartialEq, Eq)]
pub struct Layout4 {
    pub offset: u64,
    pub length: u64,
    pub iomode: u32,
    pub body_length: usize,
    pub summary: LayoutSummary,
}

impl Layout4 {
    /// The body in the bytes that this `layout4` was read from.
    pub fn body<'a>(&self, bytes: &'a [u8]) -> &'a [u8] {
        &bytes[BODY_IN_LAYOUT4..BODY_IN_LAYOUT4 + self.body_length]
    }
}

/// Reads "offset (8), length (8), iomode (4), layout type (4, must be 4), body
/// length (4), body. Length is checked before iomode."
pub fn read_layout4(bytes: &[u8]) -> Result<Layout4, Refusal> {
    let mut cursor = Cursor::new(bytes);
    let offset = cursor.uhyper()?;
    let length = cursor.uhyper()?;
    check_range(offset, length)?;
    let iomode = read_iomode(&mut cursor)?;
    if cursor.uint()? != FLEX_FILES {
        return Err(Refusal::NotFlexibleFiles);
    }
    let body_length = cursor.count(0..=BODY_LIMIT as u32)? as usize;
    let item = cursor.take(body_length.next_multiple_of(4))?;
    // "The body must fill its length exactly": it is read in that length
    // alone, and as the item's value it is judged before the padding.
    let (body, padding) = item.split_at(body_length);
    let summary = read_layout_body(body)?;
    require_zero_padding(padding)?;
    cursor.finish()?;
    Ok(Layout4 { offset, length, iomode, body_length, summary })
}

/// 3 "iomode is not allowed: a grant takes READ or RW".
fn read_iomode(cursor: &mut Cursor) -> Result<u32, Refusal> {
    match cursor.uint()? {
        iomode @ (IOMODE_READ | IOMODE_RW) => Ok(iomode),
        _ => Err(Refusal::IomodeNotAllowed),
    }
}

#[cfg(test)]
mod tests {
    use super::*;
    use crate::samples::bodies::{Layout4Head, LayoutPlan};
    use crate::samples::wire::extended;

    fn refusal(bytes: &[u8]) -> Option<u8> {
        read_layout4(bytes).err().map(Refusal::number)
    }

    fn smallest_body() -> Vec<u8> {
        LayoutPlan::plain(1, 1).encode().bytes
    }

    #[test]
    fn smallest_has_108_bytes() {
        let head = Layout4Head { offset: 4_096, length: 8_192, iomode: 1, layout_type: 4 };
        let bytes = head.around(&smallest_body());
        assert_eq!(bytes.len(), 108);
        let layout = read_layout4(&bytes).unwrap();
        assert_eq!((layout.offset, layout.length), (4_096, 8_192));
        assert_eq!((layout.iomode, layout.body_length), (1, 80));
        assert_eq!(layout.body(&bytes), smallest_body());
        // Counted from the body's first byte, not from the layout4's.
        assert_eq!(layout.summary.starts[0], 16);
    }

    #[test]
    fn the_range_is_judged_when_its_length_is_read() {
        let head = Layout4Head { length: 0, iomode: 9, ..Layout4Head::whole_file() };
        let bytes = head.around(&smallest_body());
        assert_eq!(refusal(&bytes), Some(5));
        assert_eq!(refusal(&bytes[..16]), Some(5));
        assert_eq!(refusal(&bytes[..15]), Some(1));
    }

    #[test]
    fn a_grant_takes_read_or_rw() {
        let with = |iomode| Layout4Head { iomode, layout_type: 1, ..Layout4Head::whole_file() };
        // Layout type 1 is met after the iomode.
        for (iomode, expected) in [(0, 3), (1, 4), (2, 4), (3, 3), (4, 3), (u32::MAX, 3)] {
            assert_eq!(refusal(&with(iomode).around(&smallest_body())), Some(expected));
        }
    }

    #[test]
    fn body_lengths() {
        let head = Layout4Head::whole_file();
        let body = smallest_body();
        assert_eq!(refusal(&head.claiming(4_091, &[])), Some(8));
        assert_eq!(refusal(&head.claiming(u32::MAX, &[])), Some(8));
        assert_eq!(refusal(&head.claiming(4_090, &body)), Some(1));
        assert_eq!(refusal(&head.claiming(81, &body)), Some(1));
        assert_eq!(refusal(&head.claiming(0, &[])), Some(1));
        // The body runs out in its own length although bytes follow.
        assert_eq!(refusal(&head.claiming(76, &body)), Some(1));
        // Bytes are left over in the body's own length, then after it.
        assert_eq!(refusal(&head.claiming(84, &extended(&body, &[0; 4]))), Some(2));
        assert_eq!(refusal(&head.claiming(80, &extended(&body, &[0]))), Some(2));
        // The body is judged before its padding.
        assert_eq!(refusal(&head.claiming(81, &extended(&body, &[0, 1, 1, 1]))), Some(2));
    }
}

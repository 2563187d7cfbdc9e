//! The refusal numbers of 01 and of the change requests.

/// Why an input is refused; the discriminant is the number in 01's table
/// "Refusal numbers", and each comment is that table's condition. A number that
/// a change request adds has the request's.
#[derive(Clone, Copy, Debug, PartialEq, Eq, Hash, PartialOrd, Ord)]
#[repr(u8)]
pub enum Refusal {
    /// "the bytes run out before an item is complete"
    BytesRunOut = 1,
    /// "bytes are left over"
    BytesLeftOver = 2,
    /// "iomode is not allowed: a grant takes READ or RW; return and recall take
    /// all three"
    IomodeNotAllowed = 3,
    /// "layout type is not 4"
    NotFlexibleFiles = 4,
    /// "a range or I/O request breaks the rules above"
    BadRange = 5,
    /// "a padding byte is not 0"
    PaddingNotZero = 6,
    /// "a boolean is neither 0 nor 1"
    BadBoolean = 7,
    /// "a count or length is outside its limit", a set of versions above 15,
    /// or an error list whose length "is not the counts' sum"
    OutsideLimit = 8,
    /// "a later mirror's server count differs from the first's"
    ServerCountsDiffer = 9,
    /// "unit and first server count disagree"
    UnitDisagrees = 10,
    /// "an unknown flag bit"
    UnknownFlag = 11,
    /// "a version entry breaks its rule"
    BadVersionEntry = 12,
    /// "device id, or filehandle and version counts, differ in binding"
    DeviceDiffers = 13,
    /// "no version that the caller speaks"
    NoSupportedVersion = 14,
    /// "the chosen entry is version 4, not tight, and the server's stateid is
    /// not 16 zero bytes"
    StateidNotAnonymous = 15,
    /// "mirror or stripe number beyond the layout"
    BeyondLayout = 16,
    /// "the first byte of an I/O request lacks the right"
    RightLacking = 17,
    /// "table or shelf is unsound"
    Unsound = 20,
    /// "a byte of the grant is held in that iomode under another body"
    HeldUnderAnotherBody = 21,
    /// "a byte of the grant is recalled in that iomode"
    Recalled = 22,
    /// "the resulting table would need more than 32 segments in an iomode"
    TooManySegments = 23,
    /// "the grant's body is not on the shelf and all 8 slots are named"
    NoSlotLeft = 24,
    /// "a recall meets no held byte in its range and iomode"
    NothingToRecall = 25,
    /// "the output is too short"
    OutputTooShort = 26,
    /// "an error's operation is not 5, 25 or 38 (COMMIT, READ, WRITE), or its
    /// status is 0"
    BadDeviceError = 27,
    /// "Nanoseconds are below 1,000,000,000 and seconds are signed and not
    /// negative (ours), otherwise refusal 28" (C-13)
    BadTime = 28,
}

impl Refusal {
    /// The number that the papers give for this refusal.
    pub fn number(self) -> u8 {
        self as u8
    }
}

#[cfg(test)]
mod tests {
    use super::Refusal;

    #[test]
    fn numbers_are_those_of_the_papers() {
        assert_eq!(Refusal::BytesRunOut.number(), 1);
        assert_eq!(Refusal::BytesLeftOver.number(), 2);
        assert_eq!(Refusal::IomodeNotAllowed.number(), 3);
        assert_eq!(Refusal::NotFlexibleFiles.number(), 4);
        assert_eq!(Refusal::BadRange.number(), 5);
        assert_eq!(Refusal::PaddingNotZero.number(), 6);
        assert_eq!(Refusal::BadBoolean.number(), 7);
        assert_eq!(Refusal::OutsideLimit.number(), 8);
        assert_eq!(Refusal::ServerCountsDiffer.number(), 9);
        assert_eq!(Refusal::UnitDisagrees.number(), 10);
        assert_eq!(Refusal::UnknownFlag.number(), 11);
        assert_eq!(Refusal::BadVersionEntry.number(), 12);
        assert_eq!(Refusal::DeviceDiffers.number(), 13);
        assert_eq!(Refusal::NoSupportedVersion.number(), 14);
        assert_eq!(Refusal::StateidNotAnonymous.number(), 15);
        assert_eq!(Refusal::BeyondLayout.number(), 16);
        assert_eq!(Refusal::RightLacking.number(), 17);
        assert_eq!(Refusal::Unsound.number(), 20);
        assert_eq!(Refusal::HeldUnderAnotherBody.number(), 21);
        assert_eq!(Refusal::Recalled.number(), 22);
        assert_eq!(Refusal::TooManySegments.number(), 23);
        assert_eq!(Refusal::NoSlotLeft.number(), 24);
        assert_eq!(Refusal::NothingToRecall.number(), 25);
        assert_eq!(Refusal::OutputTooShort.number(), 26);
        assert_eq!(Refusal::BadDeviceError.number(), 27);
        assert_eq!(Refusal::BadTime.number(), 28);
    }
}

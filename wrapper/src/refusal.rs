//! Why a call refuses.

use std::error::Error;
use std::fmt;

macro_rules! refusals {
    ($($name:ident = $number:literal, $text:literal;)+) => {
        /// Why a call refuses. Its number and the words that it is shown with are those of `include/basilothyn.h`.
        #[derive(Clone, Copy, Debug, PartialEq, Eq, Hash)]
        pub enum Refusal {
            $(#[doc = $text] $name = $number,)+
        }

        impl Refusal {
            /// All of them, in the order of their numbers.
            pub const ALL: &[Refusal] = &[$(Refusal::$name,)+];

            fn text(self) -> &'static str {
                match self {
                    $(Refusal::$name => $text,)+
                }
            }
        }
    };
}

refusals! {
    BytesRunOut = 1, "the bytes run out before an item is complete";
    BytesLeftOver = 2, "bytes are left over";
    IomodeNotAllowed = 3, "the iomode is not allowed here";
    LayoutTypeUnknown = 4, "the layout type is not 4, flexible files";
    RangeInvalid = 5, "a range or an I/O request breaks the rules";
    PaddingNotZero = 6, "a padding byte is not 0";
    BooleanInvalid = 7, "a boolean is neither 0 nor 1";
    OutsideLimit = 8, "a count or length is outside its limit";
    ServerCountDiffers = 9, "a later mirror's server count differs from the first's";
    UnitDisagrees = 10, "stripe unit and server count disagree";
    FlagUnknown = 11, "an unknown flag bit";
    VersionInvalid = 12, "a version entry breaks its rule";
    BindingDiffers = 13, "device id, or filehandle and version counts, differ in binding";
    NoSupportedVersion = 14, "no version that the caller speaks";
    StateidNotZero = 15, "version 4 over a loosely coupled server, and the stateid is not zero";
    BeyondLayout = 16, "the mirror or stripe number is beyond the layout";
    RightMissing = 17, "the right for an I/O is missing at its first byte";
    Unsound = 20, "table or store is unsound";
    HeldUnderOtherBody = 21, "a byte of the grant is held under another body";
    RecalledInRange = 22, "a byte of the grant is recalled";
    TooManySegments = 23, "more than 32 segments in an iomode";
    NoFreeSlot = 24, "no slot is left for a new body";
    NothingHeld = 25, "a recall meets nothing that is held";
    OutputTooShort = 26, "the output is too short";
    ErrorInvalid = 27, "an error's status or operation is not allowed";
    TimeInvalid = 28, "a time has 1,000,000,000 nanoseconds or more, or negative seconds";
}

impl Refusal {
    /// The refusal with a number; `None` for 0, which means accepted, and for numbers that are not used.
    pub fn from_number(number: u32) -> Option<Refusal> {
        Refusal::ALL.iter().copied().find(|refusal| refusal.number() == number)
    }

    pub fn number(self) -> u32 {
        self as u32
    }
}

impl fmt::Display for Refusal {
    fn fmt(&self, f: &mut fmt::Formatter) -> fmt::Result {
        write!(f, "refused {}: {}", self.number(), self.text())
    }
}

impl Error for Refusal {}

/// What the field `refusal` of a record says.
pub(crate) fn accepted(number: u32) -> Result<(), Refusal> {
    match number {
        0 => Ok(()),
        _ => Err(Refusal::from_number(number).expect("the core gives no other number")),
    }
}

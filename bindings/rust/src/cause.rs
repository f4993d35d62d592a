//! Why something was refused.

use std::error::Error;
use std::fmt;

/// Makes the enum of all causes from one table: number, name, words.
macro_rules! causes {
    ($($number:literal $name:ident $words:literal;)*) => {
        /// A number of document 01's table "When it is turned down".
        #[derive(Clone, Copy, Debug, PartialEq, Eq, Hash)]
        pub enum Cause {
            $(
                #[doc = concat!("Number ", stringify!($number), ": ", $words, ".")]
                $name,
            )*
            /// A number that is not in the table. No entry answers one; a later library may.
            Unknown(u32),
        }

        impl Cause {
            /// Every cause of the table, in the order of the numbers.
            pub const ALL: &'static [Cause] = &[$(Cause::$name),*];

            /// Document 01's number.
            pub fn number(self) -> u32 {
                match self {
                    $(Cause::$name => $number,)*
                    Cause::Unknown(number) => number,
                }
            }

            /// The cause of a number; `Unknown` for one that is not in the table.
            pub fn from_number(number: u32) -> Cause {
                match number {
                    $($number => Cause::$name,)*
                    _ => Cause::Unknown(number),
                }
            }

            fn words(self) -> &'static str {
                match self {
                    $(Cause::$name => $words,)*
                    Cause::Unknown(_) => "a number that is not in the table",
                }
            }
        }
    };
}

causes! {
    1 FileTooLong "the file has over 4294967295 bytes";
    2 CodestreamBeforeHeader "a codestream without a jp2h before it";
    3 LengthBelowHeader "a box is shorter than its own header";
    4 ContentPastFile "a box reaches past the file";
    5 BoxBeforeSignature "a box stands before the signature";
    6 BoxBeforeFileType "a box stands before the file type";
    7 SignatureWrong "jP is not first, not of 4 bytes or not the signature";
    8 FileTypeWrong "ftyp is not second, under 8 bytes or not in fours";
    9 HeaderBeforeFileType "a jp2h without a file type before it";
    10 ChildHeaderWrong "in jp2h a box header is cut, of length 0 or of 2^32 and more";
    11 ChildLengthWrong "in jp2h a box is shorter than its header or reaches past jp2h";
    12 IhdrMissing "jp2h has no ihdr";
    13 IhdrLengthWrong "ihdr is not of 14 bytes";
    14 IhdrZero "ihdr has a height, width or count of 0";
    15 IhdrTooMany "ihdr has over 16384 components";
    16 ColrTooShort "colr is too short";
    17 BpccLengthWrong "bpcc has not one byte a component";
    18 SecondList "a second pclr, cmap or cdef";
    19 PclrCountWrong "pclr has no entries, over 1024 of them or no columns";
    20 PclrTooShort "pclr is too short";
    21 CmapBeforePclr "a cmap without a palette before it";
    22 CmapTooShort "cmap has not one mapping a column";
    23 CdefTooShort "cdef is too short";
    24 CdefEmpty "cdef has no definitions";
    25 DefinitionOutside "a definition names a channel or a colour that is not there";
    26 ChannelUndefined "a channel has no definition";
    27 MappingWrong "a mapping names no component, or neither direct use nor its own column";
    28 ComponentWithoutSamples "the palette maps a component without samples";
    29 OutsideList "a record, plane or list lies outside its list or file";
    30 DestinationTooShort "a destination is too short";
    31 WriteCountWrong "writing takes 1 to 16384 components";
    32 WriteDepthWrong "writing takes precisions of 1 to 38 and signs of 0 or 1";
    33 WriteZero "writing takes no height or width of 0";
    34 WriteTooLong "the profile has over 16777215 bytes or the codestream over 4261412863";
}

impl fmt::Display for Cause {
    fn fmt(&self, f: &mut fmt::Formatter<'_>) -> fmt::Result {
        f.write_str(self.words())
    }
}

/// A refusal: the cause, and the place that goes with it.
///
/// The place is a box's offset in the file for the numbers 2 to 24; an index for 25 (definition), 26 (channel), 27 and 28
/// (mapping) and 32 (component); the needed length, in elements, for 30; and 0 for all others.
#[derive(Clone, Copy, Debug, PartialEq, Eq, Hash)]
pub struct Refused {
    /// Why.
    pub cause: Cause,
    /// Where, or how much would be needed.
    pub place: u64,
}

impl Refused {
    pub(crate) fn new(number: u32, place: u64) -> Refused {
        Refused {
            cause: Cause::from_number(number),
            place,
        }
    }
}

impl fmt::Display for Refused {
    fn fmt(&self, f: &mut fmt::Formatter<'_>) -> fmt::Result {
        let Refused { cause, place } = self;
        let number = cause.number();
        match number {
            2..=24 => write!(f, "refused with {number} at byte {place}: {cause}"),
            25..=28 | 32 => write!(f, "refused with {number} at index {place}: {cause}"),
            30 => write!(f, "refused with {number}, {place} needed: {cause}"),
            _ => write!(f, "refused with {number}: {cause}"),
        }
    }
}

impl Error for Refused {}

#[cfg(test)]
mod tests {
    use super::*;

    #[test]
    fn every_number_goes_there_and_back() {
        for number in 0..1000 {
            assert_eq!(Cause::from_number(number).number(), number);
        }
        assert_eq!(Cause::from_number(u32::MAX), Cause::Unknown(u32::MAX));
    }

    #[test]
    fn the_table_has_1_to_34_and_no_other() {
        let numbers: Vec<u32> = Cause::ALL.iter().map(|c| c.number()).collect();
        assert_eq!(numbers, (1..=34).collect::<Vec<_>>());
        assert_eq!(Cause::from_number(0), Cause::Unknown(0));
        assert_eq!(Cause::from_number(35), Cause::Unknown(35));
    }

    #[test]
    fn refusals_are_said() {
        let said = |number, place| Refused::new(number, place).to_string();
        assert_eq!(
            said(13, 40),
            "refused with 13 at byte 40: ihdr is not of 14 bytes"
        );
        assert_eq!(
            said(26, 1),
            "refused with 26 at index 1: a channel has no definition"
        );
        assert_eq!(
            said(30, 39),
            "refused with 30, 39 needed: a destination is too short"
        );
        assert_eq!(
            said(33, 0),
            "refused with 33: writing takes no height or width of 0"
        );
        assert_eq!(
            said(99, 0),
            "refused with 99: a number that is not in the table"
        );
    }
}

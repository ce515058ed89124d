//! What a call cannot take.

use core::fmt;

/// The numbers, names and sentences of include/plate.h.
macro_rules! refusals {
    ($($name:ident = $number:literal, $words:literal;)*) => {
        /// Why a call was refused: the first of its questions that was answered "no". Shown,
        /// it is a sentence.
        ///
        /// ```
        /// use plate::{Operation, Parity, Refusal};
        ///
        /// let refusal = plate::raw(Operation::Root, 5, Parity::Even).unwrap_err();
        /// assert_eq!(refusal, Refusal::Significand);
        /// assert_eq!(refusal.number(), 3);
        /// println!("{refusal}");
        /// ```
        #[derive(Clone, Copy, Debug, PartialEq, Eq, Hash)]
        #[repr(u8)]
        #[non_exhaustive]
        pub enum Refusal {
            $(#[doc = $words] $name = $number,)*
        }

        impl Refusal {
            /// The refusal with this number. 0 is none: the call was accepted.
            #[inline]
            pub const fn from_number(number: u8) -> Option<Refusal> {
                match number {
                    0 => None,
                    $($number => Some(Refusal::$name),)*
                    _ => Some(Refusal::Unknown),
                }
            }

            /// The sentence.
            pub const fn words(self) -> &'static str {
                match self {
                    $(Refusal::$name => $words,)*
                }
            }
        }
    };
}

refusals! {
    Operation = 1, "the operation is not 1, 2 or 3";
    Rounding = 2, "the rounding is not 0, 1, 2 or 3";
    Significand = 3, "the significand has not 24 bits, for binary64 53, with the highest one set";
    Parity = 4, "the parity is not 0, nor 1 with a root or an inverse root";
    TooShort = 5, "there are fewer than 16 bytes";
    MapLetters = 6, "the letters at the end are not PLT1";
    ColumnsRows = 7, "the columns or the rows are not 3 to 64";
    StepRadius = 8, "the step is not 1 to 10,000 micrometres, or the radius not 1 to 12,500";
    MapLength = 9, "the map's distance back or its length is not that of its columns and rows";
    Height = 10, "a height is not from -50,000 to 50,000 micrometres";
    Buffer = 11, "the lent buffer is shorter than the list";
    ListLetters = 12, "the letters at the end are neither CUT1 nor CUT2";
    ListLength = 13, "the list's distance back or its length is not that of its columns and rows";
    Index = 14, "the index is not below the number of records";
    Tables = 15, "the lent tables are not 131,072 numbers";
    Entry = 16, "the number that is used of the lent tables is not the one filled in";
    Unknown = 255, "no refusal of this version";
}

impl Refusal {
    /// The number in the C functions' replies.
    #[inline]
    pub const fn number(self) -> u8 {
        self as u8
    }
}

impl fmt::Display for Refusal {
    fn fmt(&self, f: &mut fmt::Formatter<'_>) -> fmt::Result {
        f.pad(self.words())
    }
}

impl core::error::Error for Refusal {}

/// Whether a call with this number in its reply was accepted.
#[inline]
pub(crate) fn accepted(number: u8) -> Result<(), Refusal> {
    match Refusal::from_number(number) {
        None => Ok(()),
        Some(refusal) => Err(refusal),
    }
}

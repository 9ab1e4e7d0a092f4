//! The refusals, by number and in words.
use crate::ffi;
use std::{error::Error, fmt, sync::Once};

/// What a call answers: what was asked for, or the refusal.
pub type Answer<T> = Result<T, Refusal>;

/// Defines the refusals, each by its number, name and words.
macro_rules! refusals {
    ($($code:literal $name:ident $words:literal)*) => {
        /// A refusal. The call that answers it has changed nothing.
        #[derive(Clone, Copy, Debug, PartialEq, Eq, Hash)]
        #[non_exhaustive]
        #[repr(u32)]
        pub enum Refusal {
            $(#[doc = $words] $name = $code,)*
        }

        impl Refusal {
            /// The refusal of a number.
            pub fn from_code(code: u32) -> Option<Refusal> {
                match code {
                    $($code => Some(Refusal::$name),)*
                    _ => None,
                }
            }

            /// What is refused, in words that can be read out over a telephone.
            pub fn words(self) -> &'static str {
                match self {
                    $(Refusal::$name => $words,)*
                }
            }
        }
    };
}

refusals! {
    1 TableSize "size of the table"
    2 TableKind "kind of table"
    3 UpdateDate "update date"
    4 HeaderLength "header length"
    5 HeaderEndMark "header end mark"
    6 FieldDescriptor "field descriptor"
    7 FieldNameTwice "field name twice"
    8 MemoFieldAndKind "memo field and kind of table"
    9 RecordLength "record length"
    10 TableLength "table length"
    11 RecordNumber "record number"
    12 FieldNumber "field number"
    13 FieldType "field type"
    14 FieldListTooShort "field list too short"
    15 DeletionByte "deletion byte"
    16 Comma "comma in a number"
    17 NotANumber "not a number"
    18 TooManyDigits "more than 18 digits"
    19 DoesNotFit "does not fit the field"
    20 DateOrLogical "not a date or logical value"
    21 MemoNumberOrPlace "memo number or place"
    22 MemoHeader "memo header"
    23 MemoNotText "memo is not text"
    24 IndexHeader "index header"
    25 IndexNotSound "index not sound"
    27 KeyLength "key length"
    28 RecordNumberZero "record number 0"
    29 KeyPresent "key present"
    30 NoRoom "no room"
    31 IndexAndTableDiffer "index and table differ"
    32 ControlByte "control byte in the key"
    33 KeyAbsent "key absent"
    35 BarcodeAbsent "barcode absent or deleted"
    36 NoConcentration "no concentration"
    37 TargetOrVolume "target or volume out of range"
    38 TargetAboveConcentration "target above concentration"
    39 RecordListTooShort "record list too short"
    40 ArgumentsOrFiles "arguments or files"
}

impl Refusal {
    /// The number, as the papers and the C header have it.
    pub fn code(self) -> u32 {
        self as u32
    }
}

/// The number, and the words in parentheses.
impl fmt::Display for Refusal {
    fn fmt(&self, f: &mut fmt::Formatter) -> fmt::Result {
        write!(f, "{} ({})", self.code(), self.words())
    }
}

impl Error for Refusal {}

/// What an answer of 0 stands for, or the refusal.
#[inline]
pub(crate) fn accepted<T>(answer: u32, value: T) -> Answer<T> {
    if answer == 0 {
        return Ok(value);
    }
    match Refusal::from_code(answer) {
        Some(refusal) => Err(refusal),
        None => unreachable!("the call has no answer {answer}"),
    }
}

/// The same for a field that may be empty, which is `None`.
#[inline]
pub(crate) fn present<T>(answer: u32, value: T) -> Answer<Option<T>> {
    match answer {
        ffi::EMPTY => Ok(None),
        _ => accepted(answer, Some(value)),
    }
}

/// Compares the archive's interface with the one that this wrapper is written for, before the first call.
#[inline]
pub(crate) fn compare_interface() {
    static COMPARED: Once = Once::new();
    COMPARED.call_once(|| {
        let archive = unsafe { ffi::gl_interface() };
        assert_eq!(
            archive,
            ffi::INTERFACE,
            "the archive's interface is another one than this wrapper's: build both from the same sources"
        );
    });
}

//! Why a call is refused.

use crate::FIELDS;
use std::fmt;

/// Why a call is refused. The functions of this crate give all but the last two.
#[derive(Clone, Copy, Debug, PartialEq, Eq, Hash)]
pub enum Refusal {
    /// There are fewer than the 16 bytes that a record has at the least, or than the 20 of a chunk's head.
    TooFewBytes,
    /// There are 16 bytes or more, and fewer than the record's size: a field that the size holds ends past them. The first such field
    /// is the one of this row of [`FIELDS`], from 4 to 14.
    FieldCut(usize),
    /// There are 16 bytes or more, and fewer than the record's size: every field that the size holds is there, and only bytes that
    /// no field decodes are lacking.
    UndecodedCut,
    /// The age is not among the twelve [`AGES`](crate::AGES).
    NotAnAge,
    /// A byte of the record at offset age or later isn't zero.
    HeldBack,
    /// The lent buffer is shorter than what is to be written; of an index, also: more than [`INDEX_MOST`](crate::INDEX_MOST) records are distinct.
    ShortBuffer,
    /// The chunk's type isn't 0x0201.
    WrongType,
    /// The chunk's header size is below 20 or above its chunk size, or that is above the bytes given.
    WrongSizes,
    /// The directory name isn't in the grammar: the part at this offset is the first such that the name up to the part's end is none.
    /// No such offset is above 325.
    NotAName(usize),
    /// A bit from 28 up is set in the word of marks.
    TopBits,
    /// A field that isn't read at the record's size isn't zero.
    UnreadField,
    /// There are more than 65,536 bytes of input.
    TooMuchInput,
}

impl Refusal {
    /// The refusal of a number, with what it carries.
    pub(crate) fn of(number: u32, carried: usize) -> Refusal {
        match number {
            1 => Refusal::TooFewBytes,
            2 => Refusal::FieldCut(carried),
            3 => Refusal::NotAnAge,
            4 => Refusal::HeldBack,
            5 => Refusal::ShortBuffer,
            6 => Refusal::UnreadField,
            7 => Refusal::TooMuchInput,
            8 => Refusal::UndecodedCut,
            9 => Refusal::WrongType,
            10 => Refusal::WrongSizes,
            11 => Refusal::NotAName(carried),
            12 => Refusal::TopBits,
            _ => unreachable!("the C face refuses with no other number than 1 to 12, not with {number}"),
        }
    }

    /// The refusal's number, from 1 to 12.
    ///
    /// ```
    /// use res_table_config::Refusal;
    /// assert_eq!(Refusal::HeldBack.number(), 4);
    /// assert_eq!(Refusal::FieldCut(10).number(), 2);
    /// assert_eq!(Refusal::UndecodedCut.number(), 8);
    /// ```
    pub fn number(self) -> u32 {
        match self {
            Refusal::TooFewBytes => 1,
            Refusal::FieldCut(_) => 2,
            Refusal::NotAnAge => 3,
            Refusal::HeldBack => 4,
            Refusal::ShortBuffer => 5,
            Refusal::UnreadField => 6,
            Refusal::TooMuchInput => 7,
            Refusal::UndecodedCut => 8,
            Refusal::WrongType => 9,
            Refusal::WrongSizes => 10,
            Refusal::NotAName(_) => 11,
            Refusal::TopBits => 12,
        }
    }
}

/// The refusal in words; of a cut field its row and its name, of a name the offset that it carries.
///
/// ```
/// use res_table_config::Refusal;
/// assert_eq!(Refusal::FieldCut(10).to_string(), "cut inside field 10, locale_variant");
/// ```
impl fmt::Display for Refusal {
    fn fmt(&self, f: &mut fmt::Formatter<'_>) -> fmt::Result {
        f.write_str(match self {
            Refusal::TooFewBytes => "fewer bytes than a record or a chunk's head has",
            Refusal::FieldCut(row) => {
                let name = FIELDS.get(*row).unwrap_or(&"which no record has");
                return write!(f, "cut inside field {row}, {name}");
            }
            Refusal::UndecodedCut => "no field is cut: only undecoded bytes are lacking",
            Refusal::NotAnAge => "not one of the twelve ages",
            Refusal::HeldBack => "held back: a byte past the age isn't zero",
            Refusal::ShortBuffer => "the buffer is too short",
            Refusal::WrongType => "the chunk's type isn't 0x0201",
            Refusal::WrongSizes => "the chunk's header size or chunk size can't be",
            Refusal::NotAName(at) => return write!(f, "not a directory name: the part at {at} ends none"),
            Refusal::TopBits => "a bit from 28 up is set in the word of marks",
            Refusal::UnreadField => "a field that isn't read isn't zero",
            Refusal::TooMuchInput => "more than 65,536 bytes of input",
        })
    }
}

impl std::error::Error for Refusal {}

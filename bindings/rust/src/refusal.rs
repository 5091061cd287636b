use std::error::Error;
use std::fmt::{self, Display, Formatter};

/// Why a call is declined: the numbers of the table in docs/SCOPE.md, 'Refusals', the lowest that applies, but 12, 13, 15
/// and 17 before all others, 17 before 13. A declined call writes no byte.
///
/// Number 14 belongs to the card and cannot come from here.
#[repr(u8)]
#[derive(Clone, Copy, Debug, PartialEq, Eq, PartialOrd, Ord, Hash)]
pub enum Refusal {
    /// The width is not a multiple of 4 in 4 to 64.
    Width = 1,
    /// The height is not a multiple of 4 in 4 to 64.
    Height = 2,
    /// A stride is over 65,536, or the plane's is under the width (with the right bit, under the width and its border).
    Stride = 3,
    /// Chroma: another pair than (0, 0), (1, 0) and (1, 1), or a kind over 2.
    Subsampling = 4,
    /// A sample of the unit's own plane that is written or padded from lies outside; of a whole plane, it is under w × h
    /// bytes; of the class index, its rows are under 760 bytes or a row index is over 9. The list that a state's text is written
    /// to is shorter than the text.
    Plane = 5,
    /// With the left bit, the left list is under six bytes for each row.
    Left = 6,
    /// A saved sample above the unit that is padded from lies outside.
    Top = 7,
    /// A saved sample below the unit that is padded from lies outside.
    Bottom = 8,
    /// The skip masks are under the height, or the noskip masks under one for each block row; of a whole plane, the skip masks
    /// are under [`PlaneUnits::skip_len`](crate::PlaneUnits::skip_len).
    Masks = 9,
    /// The filter has another length, or an entry of the class map or of the subclass list points past the end.
    Filters = 10,
    /// Chroma: a sample of the luma plane or of its saved borders that is padded from lies outside.
    Luma = 11,
    /// Class index: the block is none of the unit's.
    Block = 12,
    /// The state is of another operation or of no unit, or its numbers are no state's.
    State = 13,
    /// Whole plane: a side is not a multiple of 4 in 4 to 1,024, or the unit size not one in 4 to 64.
    PlaneSides = 15,
    /// Whole plane: the scratch list is under 8 × w bytes.
    Scratch = 16,
    /// The text is not of the form of a state's, or a number in it is past its field.
    Text = 17,
}

impl Refusal {
    /// All of them, by their numbers.
    pub const ALL: [Refusal; 16] = [
        Refusal::Width,
        Refusal::Height,
        Refusal::Stride,
        Refusal::Subsampling,
        Refusal::Plane,
        Refusal::Left,
        Refusal::Top,
        Refusal::Bottom,
        Refusal::Masks,
        Refusal::Filters,
        Refusal::Luma,
        Refusal::Block,
        Refusal::State,
        Refusal::PlaneSides,
        Refusal::Scratch,
        Refusal::Text,
    ];

    /// The number in the table.
    pub fn number(self) -> u8 {
        self as u8
    }

    /// The refusal that a status of the library stands for, by its number. It is `None` for 0, where a call is not refused,
    /// and for all that is no number of a refusal: those the library does not answer.
    ///
    /// ```
    /// use gihvendu::Refusal;
    ///
    /// assert_eq!(Refusal::from_status(7), Some(Refusal::Top));
    /// assert_eq!(Refusal::from_status(0), None);
    /// assert_eq!(Refusal::from_status(14), None);
    /// assert_eq!(Refusal::from_status(15), Some(Refusal::PlaneSides));
    /// assert_eq!(Refusal::from_status(16), Some(Refusal::Scratch));
    /// assert_eq!(Refusal::from_status(17), Some(Refusal::Text));
    /// assert_eq!(Refusal::from_status(18), None);
    /// ```
    pub fn from_status(status: u8) -> Option<Refusal> {
        Refusal::ALL.into_iter().find(|r| r.number() == status)
    }

    /// What a status of the library says, which is 0 or a number of the table.
    pub(crate) fn check(status: u8) -> Result<(), Refusal> {
        if status == 0 {
            return Ok(());
        }
        Err(Refusal::from_status(status)
            .expect("by its contracts the library answers 0 to 13 and 15 to 17"))
    }
}

impl Display for Refusal {
    fn fmt(&self, f: &mut Formatter<'_>) -> fmt::Result {
        let what = match self {
            Refusal::Width => "the width is not a multiple of 4 in 4 to 64",
            Refusal::Height => "the height is not a multiple of 4 in 4 to 64",
            Refusal::Stride => "a stride is too small or over 65,536",
            Refusal::Subsampling => "no such pair of subsampling, or no such kind",
            Refusal::Plane => {
                "a sample of the plane lies outside, or the list for a text is too short"
            }
            Refusal::Left => "the left list is too short",
            Refusal::Top => "a saved sample above lies outside",
            Refusal::Bottom => "a saved sample below lies outside",
            Refusal::Masks => "the masks are too few",
            Refusal::Filters => "the filters or the class lists do not fit",
            Refusal::Luma => "a sample of the luma plane or of its borders lies outside",
            Refusal::Block => "no such block",
            Refusal::State => "the state is of another operation, or no state",
            Refusal::PlaneSides => {
                "a side of the plane is not a multiple of 4 in 4 to 1,024, or the unit size not one in 4 to 64"
            }
            Refusal::Scratch => "the scratch list is too short",
            Refusal::Text => "the text is not of the form of a state's",
        };
        write!(f, "{what} ({})", self.number())
    }
}

impl Error for Refusal {}

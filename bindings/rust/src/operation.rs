use crate::{
    Borders, Classes, Luma, LumaUnit, Pieces, Refusal, State, Unit, ns_wiener_multi_8bpc,
    ns_wiener_single_uv_8bpc, ns_wiener_single_y_8bpc, pc_wiener_8bpc,
};

/// The four operations.
///
/// ```
/// use gihvendu::Operation;
///
/// for operation in Operation::ALL {
///     assert_eq!(Operation::from_number(operation.number()), Some(operation));
/// }
/// ```
#[derive(Clone, Copy, Debug, PartialEq, Eq, Hash)]
pub enum Operation {
    /// y: one filter for a luma unit
    Luma = 1,
    /// n: user sets, one for each class of blocks
    User = 2,
    /// p: pretrained sets, one for each class of blocks
    Pretrained = 3,
    /// c: one filter for a chroma unit and its luma
    Chroma = 4,
}

impl Operation {
    /// All of them, by their numbers.
    pub const ALL: [Operation; 4] = [
        Operation::Luma,
        Operation::User,
        Operation::Pretrained,
        Operation::Chroma,
    ];

    /// The number by which a state keeps it.
    pub fn number(self) -> usize {
        self as usize
    }

    /// The operation that has this number: `None` for 0, the number of no unit, and for all over 4.
    pub fn from_number(number: usize) -> Option<Operation> {
        Operation::ALL.into_iter().find(|o| o.number() == number)
    }
}

/// What one operation alone is lent, beside the plane, the borders and the masks that all are lent. It says which operation
/// is meant: [`restore`], [`State::open`] and [`State::advance`] take it in the place of what the calls by name take there.
///
/// ```
/// use gihvendu::{Classes, Lent, Luma, LumaUnit, Operation};
///
/// let luma_unit = LumaUnit::default();
/// let all = [
///     Lent::Luma { filter: &[0; 16] },
///     Lent::User { classes: Classes::default() },
///     Lent::Pretrained { classes: Classes::default() },
///     Lent::Chroma { filter: &[0; 18], luma_unit, luma: Luma::default() },
/// ];
/// assert_eq!(all.map(|lent| lent.operation()), Operation::ALL);
/// ```
#[derive(Clone, Copy, Debug)]
pub enum Lent<'a> {
    /// as [`ns_wiener_single_y_8bpc`] is lent it
    Luma {
        /// 16 numbers
        filter: &'a [i8],
    },
    /// as [`ns_wiener_multi_8bpc`] is lent it
    User {
        /// sets of 18 numbers
        classes: Classes<'a, i8>,
    },
    /// as [`pc_wiener_8bpc`] is lent it
    Pretrained {
        /// sets of 13 numbers
        classes: Classes<'a, i16>,
    },
    /// as [`ns_wiener_single_uv_8bpc`] is lent it
    Chroma {
        /// 18 numbers
        filter: &'a [i8],
        /// where the luma lies; an advance does not look at it, since the state keeps these numbers
        luma_unit: LumaUnit,
        /// the luma
        luma: Luma<'a>,
    },
}

impl Lent<'_> {
    /// The operation that is lent this.
    pub fn operation(&self) -> Operation {
        match self {
            Lent::Luma { .. } => Operation::Luma,
            Lent::User { .. } => Operation::User,
            Lent::Pretrained { .. } => Operation::Pretrained,
            Lent::Chroma { .. } => Operation::Chroma,
        }
    }
}

/// Restores a unit of any operation: what the function by tealdust's name does that is lent this.
///
/// ```
/// use gihvendu::{Borders, Classes, Lent, Luma, LumaUnit, Unit, restore};
///
/// // The same filter for luma, as a user set, and for chroma over flat luma, which adds nothing.
/// let mut filter = [0i8; 18];
/// filter[0] = 64;
/// let classes = Classes { filters: &filter, map: &[0; 4096], subclass: &[0], noskip: &[0], base_q: 0 };
/// let luma_unit = LumaUnit { stride: 4, ..LumaUnit::default() };
/// let luma = Luma { plane: &[77; 16], ..Luma::default() };
/// for lent in [
///     Lent::Luma { filter: &filter[..16] },
///     Lent::User { classes },
///     Lent::Chroma { filter: &filter, luma_unit, luma },
/// ] {
///     let mut plane = [10, 10, 10, 10, 20, 20, 20, 20, 40, 40, 40, 40, 80, 80, 80, 80];
///     let unit = Unit { w: 4, h: 4, stride: 4, ..Unit::default() };
///     assert_eq!(restore(&mut plane, &unit, &Borders::default(), &lent, &[0; 4])?, 4);
///     assert_eq!(plane, [15, 15, 15, 15, 25, 25, 25, 25, 50, 50, 50, 50, 60, 60, 60, 60]);
/// }
/// # Ok::<(), gihvendu::Refusal>(())
/// ```
pub fn restore(
    plane: &mut [u8],
    unit: &Unit,
    borders: &Borders<'_>,
    lent: &Lent<'_>,
    skip: &[u16],
) -> Result<Pieces, Refusal> {
    match lent {
        Lent::Luma { filter } => ns_wiener_single_y_8bpc(plane, unit, borders, filter, skip),
        Lent::User { classes } => ns_wiener_multi_8bpc(plane, unit, borders, classes, skip),
        Lent::Pretrained { classes } => pc_wiener_8bpc(plane, unit, borders, classes, skip),
        Lent::Chroma {
            filter,
            luma_unit,
            luma,
        } => ns_wiener_single_uv_8bpc(plane, unit, borders, filter, luma_unit, luma, skip),
    }
}

/// Units of any operation.
impl State {
    /// Opens a unit of any operation. The plane is not written. [`State::advance`] has an example.
    pub fn open(
        plane: &[u8],
        unit: &Unit,
        borders: &Borders<'_>,
        lent: &Lent<'_>,
        skip: &[u16],
    ) -> Result<State, Refusal> {
        match lent {
            Lent::Luma { filter } => State::open_y(plane, unit, borders, filter, skip),
            Lent::User { classes } => State::open_n(plane, unit, borders, classes, skip),
            Lent::Pretrained { classes } => State::open_p(plane, unit, borders, classes, skip),
            Lent::Chroma {
                filter,
                luma_unit,
                luma,
            } => State::open_c(plane, unit, borders, filter, luma_unit, luma, skip),
        }
    }

    /// Restores the next `count` rows of a unit of any operation, or all that remain. A state of another operation than the
    /// one that is lent this is refused with [`Refusal::State`].
    ///
    /// ```
    /// use gihvendu::{Borders, Lent, Operation, Pieces, Refusal, State, Unit};
    ///
    /// /// The rest of any unit, row by row.
    /// fn finish(state: &mut State, plane: &mut [u8], lent: &Lent<'_>) -> Result<Pieces, Refusal> {
    ///     let mut pieces = 0;
    ///     while !state.finished() {
    ///         pieces += state.advance(1, plane, &Borders::default(), lent, &[0; 4])?;
    ///     }
    ///     Ok(pieces)
    /// }
    ///
    /// let mut filter = [0; 16];
    /// filter[0] = 64;
    /// let lent = Lent::Luma { filter: &filter };
    /// let mut plane = [10, 10, 10, 10, 20, 20, 20, 20, 40, 40, 40, 40, 80, 80, 80, 80];
    /// let unit = Unit { w: 4, h: 4, stride: 4, ..Unit::default() };
    /// let mut state = State::open(&plane, &unit, &Borders::default(), &lent, &[0; 4])?;
    /// assert_eq!(state.operation(), Some(Operation::Luma));
    /// assert_eq!(finish(&mut state, &mut plane, &lent)?, 4);
    /// assert_eq!(plane, [15, 15, 15, 15, 25, 25, 25, 25, 50, 50, 50, 50, 60, 60, 60, 60]);
    /// # Ok::<(), Refusal>(())
    /// ```
    pub fn advance(
        &mut self,
        count: usize,
        plane: &mut [u8],
        borders: &Borders<'_>,
        lent: &Lent<'_>,
        skip: &[u16],
    ) -> Result<Pieces, Refusal> {
        match lent {
            Lent::Luma { filter } => self.advance_y(count, plane, borders, filter, skip),
            Lent::User { classes } => self.advance_n(count, plane, borders, classes, skip),
            Lent::Pretrained { classes } => self.advance_p(count, plane, borders, classes, skip),
            Lent::Chroma { filter, luma, .. } => {
                self.advance_c(count, plane, borders, filter, luma, skip)
            }
        }
    }
}

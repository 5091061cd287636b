use crate::call::call;
use crate::raw::{self, Advanced, Opened};
use crate::{Borders, Classes, Luma, LumaUnit, Operation, Pieces, Refusal, Unit};

/// A unit that was opened and is restored in any number of advances.
///
/// It keeps the unit's numbers and some padded rows. The lists, filters and the plane are lent with each call, the same as
/// at the opening; rows that are finished may be written over in between. A refused advance leaves both the state and the
/// plane as they were. Each operation has its own pair of functions; [`State::open`] and [`State::advance`] take any.
///
/// ```
/// use gihvendu::{Borders, Refusal, State, Unit};
///
/// let before = [10, 10, 10, 10, 20, 20, 20, 20, 40, 40, 40, 40, 80, 80, 80, 80];
/// let mut plane = before;
/// let unit = Unit { w: 4, h: 4, stride: 4, ..Unit::default() };
/// let borders = Borders::default();
/// let mut filter = [0; 16];
/// filter[0] = 64;
/// let mut state = State::open_y(&plane, &unit, &borders, &filter, &[0; 4])?;
///
/// // A filter of another length is refused: nothing is changed, and the state goes on as if nothing had been asked.
/// let opened = state.clone();
/// assert_eq!(state.advance_y(1, &mut plane, &borders, &filter[1..], &[0; 4]), Err(Refusal::Filters));
/// assert!(state == opened && plane == before);
///
/// assert_eq!(state.advance_y(1, &mut plane, &borders, &filter, &[0; 4]), Ok(1));
/// assert_eq!(state.rows_done(), 1);
/// // A finished row may be written over: the rows below are restored from the samples at the opening.
/// plane[..4].fill(0);
/// assert_eq!(state.advance_y(usize::MAX, &mut plane, &borders, &filter, &[0; 4]), Ok(3));
/// assert!(state.finished());
/// assert_eq!(plane, [0, 0, 0, 0, 25, 25, 25, 25, 50, 50, 50, 50, 60, 60, 60, 60]);
/// # Ok::<(), Refusal>(())
/// ```
#[derive(Clone, Debug, PartialEq, Eq)]
pub struct State(raw::State);

fn opened(answer: Opened) -> Result<State, Refusal> {
    Refusal::check(answer.status).map(|()| State(answer.state))
}

impl State {
    /// The operation that the unit was opened for: `None` of the state of zeros, and where a forged number is none's.
    ///
    /// ```
    /// use gihvendu::{Borders, Operation, Refusal, State, Unit, raw};
    ///
    /// let unit = Unit { w: 8, h: 4, stride: 8, ..Unit::default() };
    /// let state = State::open_y(&[7; 32], &unit, &Borders::default(), &[0; 16], &[0; 4])?;
    /// assert_eq!(state.operation(), Some(Operation::Luma));
    /// assert_eq!((state.w(), state.h(), state.rows_done()), (8, 4, 0));
    ///
    /// assert_eq!(State::from(raw::State::default()).operation(), None);
    /// # Ok::<(), Refusal>(())
    /// ```
    pub fn operation(&self) -> Option<Operation> {
        Operation::from_number(self.0.op)
    }

    /// The samples in a row of the unit, as the state keeps it.
    pub fn w(&self) -> usize {
        self.0.given.w
    }

    /// The rows of the unit, as the state keeps them.
    pub fn h(&self) -> usize {
        self.0.given.h
    }

    /// The rows that are done: those above this one are finished.
    pub fn rows_done(&self) -> usize {
        self.0.done
    }

    /// Whether all rows of the unit are done.
    pub fn finished(&self) -> bool {
        raw::gihvendu_finished(self.0.clone())
    }

    /// Takes over what an advance answers. A refusal hands the state back as it came: that is proved of the library.
    fn step(&mut self, answer: Advanced) -> Result<Pieces, Refusal> {
        self.0 = answer.state;
        Refusal::check(answer.status).map(|()| answer.pieces)
    }

    /// Opens a luma unit. The plane is not written.
    ///
    /// ```
    /// use gihvendu::{Borders, Refusal, State, Unit, edges};
    ///
    /// let unit = Unit { w: 8, h: 4, stride: 8, edges: edges::LEFT, ..Unit::default() };
    /// let borders = Borders { left: &[7; 6 * 4], ..Borders::default() };
    /// let state = State::open_y(&[7; 32], &unit, &borders, &[0; 16], &[0; 4])?;
    /// assert!(state.rows_done() == 0 && !state.finished());
    ///
    /// let shorter = Borders { left: &[7; 6 * 4 - 1], ..borders };
    /// assert_eq!(State::open_y(&[7; 32], &unit, &shorter, &[0; 16], &[0; 4]), Err(Refusal::Left));
    /// # Ok::<(), Refusal>(())
    /// ```
    pub fn open_y(
        plane: &[u8],
        unit: &Unit,
        borders: &Borders<'_>,
        filter: &[i8],
        skip: &[u16],
    ) -> Result<State, Refusal> {
        opened(call!(gihvendu_open_y, plane, unit, borders, skip, filter filter))
    }

    /// Restores the next `count` rows of a luma unit, or all that remain. The example of [`State`] shows it.
    pub fn advance_y(
        &mut self,
        count: usize,
        plane: &mut [u8],
        borders: &Borders<'_>,
        filter: &[i8],
        skip: &[u16],
    ) -> Result<Pieces, Refusal> {
        let (s, b) = (self.0.clone(), borders);
        self.step(raw::gihvendu_advance_y(
            s, count, plane, b.left, b.top, b.bottom, filter, skip,
        ))
    }

    /// Opens a unit with user sets. The plane is not written. [`State::advance_n`] has an example.
    pub fn open_n(
        plane: &[u8],
        unit: &Unit,
        borders: &Borders<'_>,
        classes: &Classes<'_, i8>,
        skip: &[u16],
    ) -> Result<State, Refusal> {
        opened(call!(gihvendu_open_n, plane, unit, borders, skip, classes classes))
    }

    /// Restores the next `count` rows of a unit with user sets, or all that remain.
    ///
    /// ```
    /// use gihvendu::{Borders, Classes, State, Unit};
    ///
    /// let mut filters = [0i8; 18];
    /// filters[0] = 64;
    /// let classes = Classes { filters: &filters, map: &[0; 4096], subclass: &[0], noskip: &[0], base_q: 0 };
    /// let (borders, skip) = (Borders::default(), [0; 4]);
    /// let mut plane = [10, 10, 10, 10, 20, 20, 20, 20, 40, 40, 40, 40, 80, 80, 80, 80];
    /// let unit = Unit { w: 4, h: 4, stride: 4, ..Unit::default() };
    /// let mut state = State::open_n(&plane, &unit, &borders, &classes, &skip)?;
    /// assert_eq!(state.advance_n(3, &mut plane, &borders, &classes, &skip)?, 3);
    /// assert_eq!(plane, [15, 15, 15, 15, 25, 25, 25, 25, 50, 50, 50, 50, 80, 80, 80, 80]);
    /// assert_eq!(state.advance_n(3, &mut plane, &borders, &classes, &skip)?, 1);
    /// assert_eq!(plane, [15, 15, 15, 15, 25, 25, 25, 25, 50, 50, 50, 50, 60, 60, 60, 60]);
    /// assert!(state.finished());
    /// # Ok::<(), gihvendu::Refusal>(())
    /// ```
    pub fn advance_n(
        &mut self,
        count: usize,
        plane: &mut [u8],
        borders: &Borders<'_>,
        classes: &Classes<'_, i8>,
        skip: &[u16],
    ) -> Result<Pieces, Refusal> {
        let (s, b, c) = (self.0.clone(), borders, classes);
        self.step(raw::gihvendu_advance_n(
            s, count, plane, b.left, b.top, b.bottom, c.filters, c.map, c.subclass, c.noskip,
            c.base_q, skip,
        ))
    }

    /// Opens a unit with pretrained sets. The plane is not written. [`State::advance_p`] has an example.
    pub fn open_p(
        plane: &[u8],
        unit: &Unit,
        borders: &Borders<'_>,
        classes: &Classes<'_, i16>,
        skip: &[u16],
    ) -> Result<State, Refusal> {
        opened(call!(gihvendu_open_p, plane, unit, borders, skip, classes classes))
    }

    /// Restores the next `count` rows of a unit with pretrained sets, or all that remain.
    ///
    /// ```
    /// use gihvendu::{Borders, Classes, State, Unit};
    ///
    /// // The thirteenth number alone is the centre's: 128 keeps the samples, 0 makes them 0.
    /// let classes = Classes { filters: &[0i16; 13], map: &[0; 4096], subclass: &[0], noskip: &[0], base_q: 0 };
    /// let (borders, skip) = (Borders::default(), [0; 4]);
    /// let mut plane = [200; 16];
    /// let unit = Unit { w: 4, h: 4, stride: 4, ..Unit::default() };
    /// let mut state = State::open_p(&plane, &unit, &borders, &classes, &skip)?;
    /// state.advance_p(2, &mut plane, &borders, &classes, &skip)?;
    /// assert_eq!(plane, *[[0; 8], [200; 8]].as_flattened());
    /// # Ok::<(), gihvendu::Refusal>(())
    /// ```
    pub fn advance_p(
        &mut self,
        count: usize,
        plane: &mut [u8],
        borders: &Borders<'_>,
        classes: &Classes<'_, i16>,
        skip: &[u16],
    ) -> Result<Pieces, Refusal> {
        let (s, b, c) = (self.0.clone(), borders, classes);
        self.step(raw::gihvendu_advance_p(
            s, count, plane, b.left, b.top, b.bottom, c.filters, c.map, c.subclass, c.noskip,
            c.base_q, skip,
        ))
    }

    /// Opens a chroma unit. The plane is not written. [`State::advance_c`] has an example.
    pub fn open_c(
        plane: &[u8],
        unit: &Unit,
        borders: &Borders<'_>,
        filter: &[i8],
        luma_unit: &LumaUnit,
        luma: &Luma<'_>,
        skip: &[u16],
    ) -> Result<State, Refusal> {
        opened(
            call!(gihvendu_open_c, plane, unit, borders, skip, filter filter, luma luma_unit, luma),
        )
    }

    /// Restores the next `count` rows of a chroma unit, or all that remain.
    ///
    /// ```
    /// use gihvendu::{Borders, Luma, LumaUnit, State, Unit};
    ///
    /// // 4:4:4 over flat luma, which adds nothing.
    /// let luma_unit = LumaUnit { stride: 4, ..LumaUnit::default() };
    /// let luma = Luma { plane: &[77; 16], ..Luma::default() };
    /// let mut filter = [5; 18];
    /// filter[..6].copy_from_slice(&[64, 0, 0, 0, 0, 0]);
    /// let (borders, skip) = (Borders::default(), [0; 4]);
    /// let mut plane = [10, 10, 10, 10, 20, 20, 20, 20, 40, 40, 40, 40, 80, 80, 80, 80];
    /// let unit = Unit { w: 4, h: 4, stride: 4, ..Unit::default() };
    /// let mut state = State::open_c(&plane, &unit, &borders, &filter, &luma_unit, &luma, &skip)?;
    /// while !state.finished() {
    ///     assert_eq!(state.advance_c(1, &mut plane, &borders, &filter, &luma, &skip)?, 1);
    /// }
    /// assert_eq!(plane, [15, 15, 15, 15, 25, 25, 25, 25, 50, 50, 50, 50, 60, 60, 60, 60]);
    /// # Ok::<(), gihvendu::Refusal>(())
    /// ```
    pub fn advance_c(
        &mut self,
        count: usize,
        plane: &mut [u8],
        borders: &Borders<'_>,
        filter: &[i8],
        luma: &Luma<'_>,
        skip: &[u16],
    ) -> Result<Pieces, Refusal> {
        let (s, b) = (self.0.clone(), borders);
        self.step(raw::gihvendu_advance_c(
            s,
            count,
            plane,
            b.left,
            b.top,
            b.bottom,
            filter,
            luma.plane,
            luma.top,
            luma.bottom,
            skip,
        ))
    }
}

/// Any numbers may be handed in as a state: an advance refuses those that are none with [`Refusal::State`].
impl From<raw::State> for State {
    fn from(state: raw::State) -> State {
        State(state)
    }
}

impl From<State> for raw::State {
    fn from(state: State) -> raw::State {
        state.0
    }
}

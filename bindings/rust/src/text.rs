use std::str::FromStr;

use crate::{Refusal, State, raw};

/// So many bytes take the text of any state.
pub const STATE_TEXT_LIMIT: usize = 2887;

/// States put away and taken back, as lines of text.
impl State {
    /// Writes the state's text to `out`, and answers its length. The bytes of `out` behind the text stay, and all where it is
    /// refused: with [`Refusal::State`] where the state is of no unit or its numbers are no state's, with [`Refusal::Plane`] where
    /// `out` is shorter than the text. [`STATE_TEXT_LIMIT`] bytes are never too few.
    ///
    /// ```
    /// use gihvendu::{Borders, Refusal, STATE_TEXT_LIMIT, State, Unit};
    ///
    /// let unit = Unit { w: 4, h: 4, stride: 4, ..Unit::default() };
    /// let state = State::open_y(&[7; 16], &unit, &Borders::default(), &[0; 16], &[0; 4])?;
    /// let mut out = [0; STATE_TEXT_LIMIT];
    /// let len = state.write(&mut out)?;
    /// assert!(out[..len].starts_with(b"op=y\nw=4\nh=4\nedges=0\ndone=0\n"));
    /// assert_eq!(State::from_text(&out[..len])?, state);
    ///
    /// assert_eq!(state.write(&mut out[..len - 1]), Err(Refusal::Plane));
    /// # Ok::<(), Refusal>(())
    /// ```
    pub fn write(&self, out: &mut [u8]) -> Result<usize, Refusal> {
        let answer = raw::gihvendu_write_state(self.clone().into(), out);
        Refusal::check(answer.status).map(|()| answer.len)
    }

    /// The state's text. It is refused as by [`State::write`], but never for want of room. [`State::from_text`] has an example.
    pub fn to_text(&self) -> Result<String, Refusal> {
        let mut out = vec![0; STATE_TEXT_LIMIT];
        let len = self.write(&mut out)?;
        out.truncate(len);
        Ok(String::from_utf8(out).expect("letters, digits and signs of ASCII"))
    }

    /// The state of a text: that which was written, where an opening or an advance had handed it out.
    ///
    /// Refused are, with [`Refusal::Text`], all bytes that are no such text, and then, with [`Refusal::State`], numbers that are no
    /// state's. Sizes, strides, the kind and the kept classes are left to the next advance.
    ///
    /// ```
    /// use gihvendu::{Borders, Refusal, State, Unit};
    ///
    /// let mut plane = [10, 10, 10, 10, 20, 20, 20, 20, 40, 40, 40, 40, 80, 80, 80, 80];
    /// let unit = Unit { w: 4, h: 4, stride: 4, ..Unit::default() };
    /// let borders = Borders::default();
    /// let mut filter = [0; 16];
    /// filter[0] = 64;
    /// let mut state = State::open_y(&plane, &unit, &borders, &filter, &[0; 4])?;
    /// state.advance_y(1, &mut plane, &borders, &filter, &[0; 4])?;
    /// let text = state.to_text()?;
    ///
    /// // Tomorrow the remaining rows come out as they would have today.
    /// let mut state = State::from_text(text.as_bytes())?;
    /// assert_eq!(state.rows_done(), 1);
    /// state.advance_y(usize::MAX, &mut plane, &borders, &filter, &[0; 4])?;
    /// assert_eq!(plane, [15, 15, 15, 15, 25, 25, 25, 25, 50, 50, 50, 50, 60, 60, 60, 60]);
    ///
    /// assert_eq!(State::from_text(text.trim_end().as_bytes()), Err(Refusal::Text));
    /// let forged = text.replace("done=1", "done=5");
    /// assert_eq!(State::from_text(forged.as_bytes()), Err(Refusal::State));
    /// # Ok::<(), Refusal>(())
    /// ```
    pub fn from_text(text: &[u8]) -> Result<State, Refusal> {
        let answer = raw::gihvendu_read_state(text);
        Refusal::check(answer.status).map(|()| answer.state.into())
    }
}

/// [`State::from_text`] of a string.
///
/// ```
/// use gihvendu::{Refusal, State};
///
/// assert_eq!("op=y\n".parse::<State>(), Err(Refusal::Text));
/// ```
impl FromStr for State {
    type Err = Refusal;

    fn from_str(text: &str) -> Result<State, Refusal> {
        State::from_text(text.as_bytes())
    }
}

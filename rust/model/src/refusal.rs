//! Refusals: a number, a place, and the input that is at fault (01, "Numbers given back").

/// What an entry answers: its result, or a refusal.
pub type Answer<T> = Result<T, Refusal>;

/// A refusal. The input is 1 for a message, frame or rows, 2 for a replacement, 3 for an exchanged result.
#[derive(Clone, Copy, Debug, PartialEq, Eq)]
pub struct Refusal {
    pub number: u8,
    pub place: usize,
    pub input: u8,
}

impl Refusal {
    /// The same refusal, of another input.
    pub fn of_input(self, input: u8) -> Refusal {
        Refusal { input, ..self }
    }
}

/// Refusal `number` at `place`, of input 1.
pub fn refuse<T>(number: u8, place: usize) -> Answer<T> {
    Err(Refusal { number, place, input: 1 })
}

/// Refusal `number` at `place`, unless `test` holds.
pub fn require(test: bool, number: u8, place: usize) -> Answer<()> {
    if test {
        Ok(())
    } else {
        refuse(number, place)
    }
}

//! Why a thing is turned down: the numbers of the table.

/// A slice of more bytes than are read.
pub const TOO_LONG: usize = 1;
/// Key, syntax, list length, a missing or unended line, bytes after the last line.
pub const SYNTAX: usize = 2;
/// A number out of range.
pub const RANGE: usize = 3;
/// Given to nothing: it was a rule's that was taken back.
pub const RETIRED: usize = 4;
/// Idling at a black place, or with counts that are no idling; of `alone` these counts.
pub const IDLING: usize = 5;
/// All weights are 0.
pub const ALL_ZERO: usize = 6;
/// An event's effect is not 0.
pub const EFFECT: usize = 7;
/// The outer projection of the taken or given racks.
pub const OUTER: usize = 8;
/// The inner projection of the taken racks is below pre.
pub const INNER_BELOW: usize = 9;
/// The inner projection of the given racks differs.
pub const INNER_DIFFERS: usize = 10;
/// The taken racks are not in the marking.
pub const NOT_IN_MARKING: usize = 11;
/// More net-tokens after than are held.
pub const NO_ROOM: usize = 12;
/// A lent text buffer that is too small.
pub const BUFFER: usize = 13;
/// A held model or marking that no accepted reading gives.
pub const HELD: usize = 14;
/// An idle event whose like is missing at a place of its net.
pub const NOT_EVERYWHERE: usize = 21;

/// The numbers that calls answer, 0 for what is accepted, and the retired one.
pub const NUMBERS: [usize; 16] = [0, 1, 2, 3, 4, 5, 6, 7, 8, 9, 10, 11, 12, 13, 14, 21];

/// A refusal: its number, what stands beside it, and the column; 0 where no byte of a line is at fault.
#[derive(Clone, Copy, Debug, PartialEq, Eq)]
pub struct Refusal {
    pub number: usize,
    pub beside: usize,
    pub column: usize,
}

impl Refusal {
    pub const fn new(number: usize, beside: usize) -> Refusal {
        Refusal { number, beside, column: 0 }
    }

    /// A refusal at a byte of a line.
    pub const fn at(number: usize, line: usize, column: usize) -> Refusal {
        Refusal { number, beside: line, column }
    }

    /// Whether a step's line stands beside it.
    pub fn beside_a_line(&self) -> bool {
        [SYNTAX, RANGE, OUTER, NOT_IN_MARKING, NO_ROOM].contains(&self.number)
    }
}

/// Refuses a text of more than `limit` bytes.
pub fn within(limit: usize, text: &[u8]) -> Result<(), Refusal> {
    if text.len() > limit {
        return Err(Refusal::new(TOO_LONG, 0));
    }
    Ok(())
}

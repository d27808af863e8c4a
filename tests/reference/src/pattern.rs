//! Patterns of bytes, and what may follow a byte.
//!
//! Each pattern but `Nothing` has some text: the functions below never build one of parts that have none.

use std::rc::Rc;

#[derive(Clone, Debug)]
pub enum Pattern {
    /// No text, not even the empty one.
    Nothing,
    /// The empty text.
    Empty,
    /// One byte, from the first to the second.
    Byte(u8, u8),
    /// A text of the first, then one of the second.
    Then(Rc<Pattern>, Rc<Pattern>),
    /// A text of either.
    Or(Rc<Pattern>, Rc<Pattern>),
    /// Any number of texts, one after the other.
    Many(Rc<Pattern>),
}

use Pattern::{Byte, Empty, Many, Nothing, Or, Then};

impl Pattern {
    /// These bytes.
    pub fn bytes(bytes: &[u8]) -> Pattern {
        bytes.iter().rev().fold(Empty, |rest, &byte| Byte(byte, byte).then(rest))
    }

    pub fn then(self, next: Pattern) -> Pattern {
        match (self, next) {
            (Nothing, _) | (_, Nothing) => Nothing,
            (Empty, other) | (other, Empty) => other,
            (first, next) => Then(Rc::new(first), Rc::new(next)),
        }
    }

    pub fn or(self, other: Pattern) -> Pattern {
        match (self, other) {
            (Nothing, only) | (only, Nothing) => only,
            (one, other) => Or(Rc::new(one), Rc::new(other)),
        }
    }

    pub fn many(self) -> Pattern {
        Many(Rc::new(self))
    }

    pub fn is_nothing(&self) -> bool {
        matches!(self, Nothing)
    }

    /// Whether the empty text is one of its texts.
    pub fn has_empty(&self) -> bool {
        match self {
            Nothing | Byte(..) => false,
            Empty | Many(_) => true,
            Then(first, next) => first.has_empty() && next.has_empty(),
            Or(one, other) => one.has_empty() || other.has_empty(),
        }
    }

    /// What may follow this byte, where it comes first.
    pub fn after(&self, byte: u8) -> Pattern {
        match self {
            Nothing | Empty => Nothing,
            Byte(least, most) if (least..=most).contains(&&byte) => Empty,
            Byte(..) => Nothing,
            Or(one, other) => one.after(byte).or(other.after(byte)),
            Many(one) => one.after(byte).then(self.clone()),
            Then(first, next) => {
                let within_first = first.after(byte).then(Pattern::clone(next));
                if first.has_empty() {
                    return within_first.or(next.after(byte));
                }
                within_first
            }
        }
    }
}

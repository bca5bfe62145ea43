//! Three-valued logic and cubes of states.

use std::ops::Not;

/// False, open, true, in this order: "and" is the lesser, "or" the greater.
/// As the answer of a set, true is inside and false is outside.
#[derive(Clone, Copy, Debug, PartialEq, Eq, PartialOrd, Ord)]
pub enum Value {
    False,
    Open,
    True,
}

impl Value {
    pub fn and(self, other: Value) -> Value {
        self.min(other)
    }

    pub fn or(self, other: Value) -> Value {
        self.max(other)
    }
}

impl Not for Value {
    type Output = Value;

    fn not(self) -> Value {
        match self {
            Value::False => Value::True,
            Value::Open => Value::Open,
            Value::True => Value::False,
        }
    }
}

impl From<bool> for Value {
    fn from(truth: bool) -> Value {
        if truth {
            Value::True
        } else {
            Value::False
        }
    }
}

/// The word with the bits below n set.
pub fn bits_below(n: u32) -> u64 {
    if n >= 64 {
        u64::MAX
    } else {
        (1 << n) - 1
    }
}

/// All states of one width that agree with the value bits on the known bits.
/// No value bit lies outside the known bits and no known bit from width up.
#[derive(Clone, Copy, Debug, PartialEq, Eq)]
pub struct Cube {
    width: u32,
    known: u64,
    value: u64,
}

impl Cube {
    /// Known and value bits that do not belong are dropped.
    pub fn new(width: u32, known: u64, value: u64) -> Cube {
        let known = known & bits_below(width);
        Cube {
            width,
            known,
            value: value & known,
        }
    }

    /// The cube with nothing known.
    pub fn whole(width: u32) -> Cube {
        Cube::new(width, 0, 0)
    }

    /// The total cube of a state.
    pub fn of_state(width: u32, state: u64) -> Cube {
        Cube::new(width, u64::MAX, state)
    }

    pub fn width(&self) -> u32 {
        self.width
    }

    pub fn known(&self) -> u64 {
        self.known
    }

    pub fn value(&self) -> u64 {
        self.value
    }

    pub fn free(&self) -> u64 {
        bits_below(self.width) & !self.known
    }

    pub fn is_total(&self) -> bool {
        self.free() == 0
    }

    pub fn is_free(&self, variable: u32) -> bool {
        variable < self.width && self.known >> variable & 1 == 0
    }

    pub fn holds(&self, state: u64) -> bool {
        state & self.known == self.value
    }

    /// The value of a variable below the width.
    pub fn variable(&self, variable: u32) -> Value {
        if self.known >> variable & 1 == 0 {
            Value::Open
        } else {
            Value::from(self.value >> variable & 1 == 1)
        }
    }

    /// This cube with one more variable known.
    pub fn with(&self, variable: u32, truth: bool) -> Cube {
        Cube {
            width: self.width,
            known: self.known | 1 << variable,
            value: self.value | u64::from(truth) << variable,
        }
    }
}

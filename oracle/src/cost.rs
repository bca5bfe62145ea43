//! Cost kinds: minutes, crew, steps, and pairs of any two kinds.

use crate::task::Operator;

pub trait CostKind {
    /// Costs of this kind, with their order.
    type Cost: Copy + Ord;

    fn zero(&self) -> Self::Cost;

    fn of(&self, operator: &Operator) -> Self::Cost;

    /// Joins two costs; none where it is refused.
    fn join(&self, so_far: Self::Cost, next: Self::Cost) -> Option<Self::Cost>;
}

/// The kinds whose costs are one number.
#[derive(Clone, Copy, Debug, PartialEq, Eq)]
pub enum Simple {
    Minutes,
    Crew,
    Steps,
}

impl CostKind for Simple {
    type Cost = u32;

    fn zero(&self) -> u32 {
        0
    }

    fn of(&self, operator: &Operator) -> u32 {
        match self {
            Simple::Minutes => operator.minutes,
            Simple::Crew => operator.crew,
            Simple::Steps => 1,
        }
    }

    fn join(&self, so_far: u32, next: u32) -> Option<u32> {
        match self {
            Simple::Minutes | Simple::Steps => so_far.checked_add(next),
            Simple::Crew => Some(so_far.max(next)),
        }
    }
}

/// Two kinds side by side: the first part decides the order, then the second.
#[derive(Clone, Copy, Debug, PartialEq, Eq)]
pub struct Pair<A, B>(pub A, pub B);

impl<A: CostKind, B: CostKind> CostKind for Pair<A, B> {
    type Cost = (A::Cost, B::Cost);

    fn zero(&self) -> Self::Cost {
        (self.0.zero(), self.1.zero())
    }

    fn of(&self, operator: &Operator) -> Self::Cost {
        (self.0.of(operator), self.1.of(operator))
    }

    fn join(&self, so_far: Self::Cost, next: Self::Cost) -> Option<Self::Cost> {
        let first = self.0.join(so_far.0, next.0)?;
        let second = self.1.join(so_far.1, next.1)?;
        Some((first, second))
    }
}

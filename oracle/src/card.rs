//! The card that keeps what was accepted, and the walking card.

use crate::cost::CostKind;
use crate::plan::{judge_plan, Reached};
use crate::proof::judge_proof;
use crate::refusal::Refusal;
use crate::set::Set;
use crate::task::Task;

/// The answer to a lodging or to the finish of a walk.
#[derive(Clone, Copy, Debug, PartialEq, Eq)]
pub enum Verdict<C> {
    Reached(Reached<C>),
    Impossible,
    Refused(Refusal),
}

/// A card on its own copy of a task, for one cost kind.
pub struct Card<K: CostKind> {
    task: Task,
    kind: K,
    cost: Option<K::Cost>,
    impossible: bool,
    latest: Option<Verdict<K::Cost>>,
}

impl<K: CostKind> Card<K> {
    pub fn open(task: &Task, kind: K) -> Card<K> {
        Card {
            task: task.clone(),
            kind,
            cost: None,
            impossible: false,
            latest: None,
        }
    }

    pub fn task(&self) -> &Task {
        &self.task
    }

    pub fn cost(&self) -> Option<K::Cost> {
        self.cost
    }

    pub fn impossible(&self) -> bool {
        self.impossible
    }

    pub fn latest(&self) -> Option<Verdict<K::Cost>> {
        self.latest
    }

    pub fn lodge_plan(&mut self, paper: &[u8]) -> Result<Reached<K::Cost>, Refusal> {
        let answer = judge_plan(&self.task, &self.kind, paper);
        self.note(answer);
        answer
    }

    pub fn lodge_proof(&mut self, set: &Set, paper: &[u8]) -> Result<(), Refusal> {
        let answer = judge_proof(&self.task, set, paper);
        self.latest = Some(match answer {
            Ok(()) => {
                self.impossible = true;
                Verdict::Impossible
            }
            Err(refusal) => Verdict::Refused(refusal),
        });
        answer
    }

    pub fn begin(self) -> WalkingCard<K> {
        let reached = Reached::start(&self.task, &self.kind);
        WalkingCard {
            card: self,
            reached,
        }
    }

    /// Keeps the answer to a plan or walk, and its cost where it is least.
    fn note(&mut self, answer: Result<Reached<K::Cost>, Refusal>) {
        self.latest = Some(match answer {
            Ok(reached) => {
                let least = self
                    .cost
                    .map_or(reached.cost, |cost| cost.min(reached.cost));
                self.cost = Some(least);
                Verdict::Reached(reached)
            }
            Err(refusal) => Verdict::Refused(refusal),
        });
    }
}

/// A card in mid-walk.
pub struct WalkingCard<K: CostKind> {
    card: Card<K>,
    reached: Reached<K::Cost>,
}

impl<K: CostKind> WalkingCard<K> {
    /// The card as it was before the walk.
    pub fn card(&self) -> &Card<K> {
        &self.card
    }

    pub fn step(&mut self, number: u16) -> Result<Reached<K::Cost>, Refusal> {
        self.reached = self
            .reached
            .step(&self.card.task, &self.card.kind, number)?;
        Ok(self.reached)
    }

    pub fn finish(mut self) -> (Card<K>, Result<Reached<K::Cost>, Refusal>) {
        let answer = self.reached.finish(&self.card.task);
        self.card.note(answer);
        (self.card, answer)
    }

    pub fn give_up(self) -> Card<K> {
        self.card
    }
}

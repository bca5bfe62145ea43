//! A second checker for job cards: it reads tasks, plans, sets and proofs,
//! judges them, and keeps a card, all in plain Rust and written from the
//! documents alone.
//!
//! | module | what it holds |
//! |---|---|
//! | `refusal` | numbers, layers and places of refusals |
//! | `record` | the rows of records that papers are made of |
//! | `logic` | three-valued logic and cubes |
//! | `node` | formula and effect nodes and their meaning |
//! | `task` | reading a task paper |
//! | `cost` | cost kinds and pairs of them |
//! | `plan` | steps and judging a plan paper |
//! | `set` | list, diagram, formula and the layers |
//! | `proof` | the tree rule, and the plain proof of a list |
//! | `card` | the card and the walking card |
//! | `script` | the script language of the program |

pub mod card;
pub mod cost;
pub mod logic;
pub mod node;
pub mod plan;
pub mod proof;
pub mod record;
pub mod refusal;
pub mod script;
pub mod set;
pub mod task;

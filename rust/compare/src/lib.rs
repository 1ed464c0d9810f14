//! Cases, where they come from, and what is compared on each.

pub mod answers;
pub mod boundary;
pub mod builder;
pub mod case;
pub mod contender;
pub mod damage;
pub mod exhaustive;
pub mod grammars;
pub mod judge;
pub mod limits;
pub mod minimise;
pub mod pairs;
pub mod probe;
pub mod random;
pub mod rng;
pub mod roots;
pub mod sample;
pub mod stack;
pub mod texts;
pub mod tight;

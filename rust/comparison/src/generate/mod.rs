//! Random inputs from a seed: charts, images, tables, states, words, buffers, lists of runs and of prices, heads of spindles, sizes of
//! letters, numbers of little charts, lists of words to count, and damage to each.

pub mod alike;
pub mod chains;
pub mod charts;
pub mod damage;
pub mod fillings;
pub mod images;
pub mod ladders;
pub mod letters;
pub mod little;
pub mod prices;
pub mod random;
pub mod runs;
pub mod spindles;
pub mod states;
pub mod tables;
pub mod vary;

pub use random::Random;

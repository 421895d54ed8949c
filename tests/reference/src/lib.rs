//! A second implementation of the script maker, from the papers alone, and a
//! corpus to compare the two.

pub mod arithmetic;
pub mod assemble;
pub mod band_calls;
pub mod band_checks;
pub mod band_differ;
pub mod band_trials;
pub mod bands;
pub mod benchmake;
pub mod benchrun;
pub mod checker;
pub mod decimal_trials;
pub mod differ;
pub mod entries;
pub mod generate;
pub mod lent;
pub mod listing;
pub mod makes;
pub mod plain;
pub mod random;
pub mod range_trials;
pub mod run_checks;
pub mod run_trials;
pub mod runs;
pub mod script;
pub mod self_check;
pub mod specializer;

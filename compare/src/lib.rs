//! A second implementation of the paper 01 and of tickets 1 to 13 of 02 (`split`, `tree`, `operations`, `doubles`, `files`, `listing`,
//! `query`, `ratios`, `families`, `book`), written from the papers alone and sharing no code with the proved library; the files of the test
//! programs (`program`, `numbers`, `query_cases`); and, with the feature `library`, what compares the library with it: the calls from C
//! (`calls`, and `from_c` for the second implementation's side), inputs (`random`, `random_books`, `damage`, `region`), and the checks that
//! the comparison program runs (`tally`, `shared` and `check_...`).

pub mod book;
#[cfg(feature = "library")]
pub mod calls;
#[cfg(feature = "library")]
pub mod check_books;
#[cfg(feature = "library")]
pub mod check_bounds;
#[cfg(feature = "library")]
pub mod check_calls;
#[cfg(feature = "library")]
pub mod check_examples;
#[cfg(feature = "library")]
pub mod check_families;
#[cfg(feature = "library")]
pub mod check_files;
#[cfg(feature = "library")]
pub mod check_histories;
#[cfg(feature = "library")]
pub mod check_published;
#[cfg(feature = "library")]
pub mod check_query;
#[cfg(feature = "library")]
pub mod check_regions;
#[cfg(feature = "library")]
pub mod check_run;
#[cfg(feature = "library")]
pub mod check_turns;
pub mod damage;
pub mod doubles;
pub mod families;
pub mod files;
pub mod from_c;
pub mod listing;
pub mod numbers;
pub mod operations;
pub mod program;
pub mod query;
pub mod query_cases;
pub mod random;
pub mod random_books;
pub mod ratios;
pub mod region;
#[cfg(feature = "library")]
pub mod shared;
pub mod split;
pub mod tally;
pub mod tree;

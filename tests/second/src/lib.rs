//! A second implementation of document 01, written from its sentences, to compare the library with.
//!
//! It shares no code and no table with the library, and is plain Rust without proofs. The two programs run both on the
//! same random cases: `compare` on requests to the calls, `lines` on inputs to ringline. Whatever differs is a mistake
//! in one of them.
//!
//! Read the model first: `field`, `set`, `ring`, `listing`, `small` and `packing` hold the mathematics; `plan`,
//! `calls`, `make`, `seal` and `open` hold the calls; `reading` holds the program. All the rest makes random cases and
//! compares.

// the model: what document 01 says
pub mod calls;
pub mod field;
pub mod listing;
pub mod make;
pub mod open;
pub mod packing;
pub mod plan;
pub mod reading;
pub mod ring;
pub mod seal;
pub mod set;
pub mod small;

// what the model gets wrong when it is told to
pub mod mistakes;

// requests over the pipe
pub mod call;
pub mod comparison;
pub mod pipe;
pub mod request;
pub mod table;
pub mod tally;

// random cases
pub mod agreement;
pub mod arrange;
pub mod drawing;
pub mod edge;
pub mod faults;
pub mod generate;
pub mod inputs;
pub mod random;
pub mod rotation;
pub mod spoil;
pub mod stages;
pub mod whole;

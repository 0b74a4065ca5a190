//! A second program for documents 01 and 02 and what holds it against the proved one.
//!
//! `second` is written from the documents, and from the header's words where these say more; `ours` has the structs of
//! the header. The two share nothing: they meet in `meet`, which says in the one's words what the other ought to answer,
//! and in `cases`, which holds what the proved calls answered (`asked`) against the second program.

pub mod asked;
pub mod cases;
pub mod figures;
pub mod make;
pub mod meet;
pub mod ours;
pub mod random;
pub mod second;
pub mod tally;
pub mod tell;

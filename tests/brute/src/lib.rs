//! A brute-force solver for share questions, written from docs/SPEC.md and apart from the library, and
//! what compares the two.
//!
//! - `tree`, `question`: the share model and the byte format;
//! - `whole`: route A, every assignment of whole trees up to a height;
//! - `single`: route B, one choice of values at a time, leaf by leaf;
//! - `fixed`, `least`, `slips`: the fixed solution by its words, by whole trees, and with one word misread;
//! - `tree_text`, `typed`, `wrong_readers`: a reader of tree text, texts for it, and readers with one word misread;
//! - `halves`, `wrong_joins`: join and height of constants by another route than `tree`, and with one word misread;
//! - `wrong_heights`: which constants count for the height of a question, with one word misread;
//! - `judge`: whether shown rows are a solution, and do not extend for the reason given;
//! - `handed`, `handed_trees`: what judging is to give of rows that are handed over, leaf by leaf and by whole trees;
//! - `handed_rows`, `handed_by_hand`: rows to hand over; `judger`: hands them over;
//! - `random`, `make`, `hidden`, `damage`, `worked`, `refusals`, `limits`, `every_byte`: questions and bytes;
//! - `draft`, `pinned`: questions whose answer is told by how they were built;
//! - `library`, `lent`, `due`, `asking`: the exported calls, what is lent to them and what they are to give;
//! - `options`, `report`, `seen`: what a run is told, what it counts and what it must have seen;
//! - `plain`, `routes`, `judging`: families of the solver alone;
//! - `calls`, `constants`, `reading`, `documents`, `by_hand`, `before`, `made`, `misread`, `policies`, `named`, `splits`, `numbers`,
//!   `terms`, `loose`, `handing`, `handed_places`, `wrong_judges`: families of the library.

pub mod asking;
pub mod before;
pub mod by_hand;
pub mod calls;
pub mod constants;
pub mod damage;
pub mod documents;
pub mod draft;
pub mod due;
pub mod every_byte;
pub mod failing;
pub mod fixed;
pub mod halves;
pub mod handed;
pub mod handed_by_hand;
pub mod handed_places;
pub mod handed_rows;
pub mod handed_trees;
pub mod handing;
pub mod hidden;
pub mod judge;
pub mod judger;
pub mod judging;
pub mod least;
pub mod lent;
pub mod library;
pub mod limits;
pub mod loose;
pub mod made;
pub mod make;
pub mod misread;
pub mod named;
pub mod numbers;
pub mod options;
pub mod pinned;
pub mod plain;
pub mod policies;
pub mod question;
pub mod random;
pub mod reading;
pub mod refusals;
pub mod report;
pub mod routes;
pub mod seen;
pub mod single;
pub mod slips;
pub mod splits;
pub mod terms;
pub mod tree;
pub mod tree_text;
pub mod typed;
pub mod ways;
pub mod whole;
pub mod worked;
pub mod wrong_heights;
pub mod wrong_joins;
pub mod wrong_judges;
pub mod wrong_readers;
pub mod wrong_ways;

use report::Family;

/// The families that compare the library with the solver. A new family is put into the list of its module, and into the
/// table of tests/README.md.
pub const WITH_THE_LIBRARY: &[&[Family]] = &[
    calls::FAMILIES,
    constants::FAMILIES,
    wrong_joins::FAMILIES,
    reading::FAMILIES,
    wrong_readers::FAMILIES,
    documents::FAMILIES,
    by_hand::FAMILIES,
    before::FAMILIES,
    made::FAMILIES,
    slips::FAMILIES,
    misread::FAMILIES,
    policies::FAMILIES,
    named::FAMILIES,
    wrong_heights::FAMILIES,
    splits::FAMILIES,
    numbers::FAMILIES,
    terms::FAMILIES,
    loose::FAMILIES,
    handing::FAMILIES,
    handed_places::FAMILIES,
    failing::FAMILIES,
    wrong_judges::FAMILIES,
    wrong_ways::FAMILIES,
];

/// The families that have no part of the library in them.
pub const WITHOUT_IT: &[&[Family]] = &[
    plain::FAMILIES,
    routes::FAMILIES,
    least::FAMILIES,
    judging::FAMILIES,
];

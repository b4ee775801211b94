//! What the tests of `herd` and the bench need; no part of the product.
//!
//! - `suite` makes calls and compares them with what they must come to.
//! - `model` says by a plain search over contacts what a table must hold and answer, and by one over stays who met;
//!   `listing` lists every journey of a small set, and judges the search itself.
//! - `rule`, `check` and `calls` say it from the text of documents 01 and 02, for tables that no adds built; `contents` is
//!   what both ways of saying it have in common.
//! - `sheet` says what the printing program writes; `program` runs a proved program.
//! - `words` is the layout of words; `cases` and `random` make cases; `compare` compares words; `guard` is memory between
//!   pages that cannot be read or written.
//! - `season` makes the files of the example season; `xml` reads the text of a picture.

pub mod calls;
pub mod cases;
pub mod check;
pub mod compare;
pub mod contents;
pub mod guard;
pub mod listing;
pub mod model;
pub mod program;
pub mod random;
pub mod rule;
pub mod season;
pub mod sheet;
pub mod suite;
pub mod words;
pub mod xml;

//! A model of the lock board, written from the text of documents 01 and 02
//! alone and kept apart from the library: it shares no code with it. Each module
//! holds one part of 01, with what 02's second request, cancel, its fifth, counts,
//! and its seventh, inquiry use, add to it; `writer` has 02's first request, `rounds`
//! its fourth and `digraph` its sixth. `layout` has every width, length and place,
//! `fields` the image's fields by name.

pub mod board;
pub mod digraph;
pub mod direct;
pub mod events;
pub mod fields;
pub mod image;
pub mod journal;
pub mod layout;
pub mod line;
pub mod order;
pub mod program;
pub mod rounds;
pub mod settle;
pub mod sound;
pub mod writer;

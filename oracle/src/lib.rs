//! The oracle of the edge index: the unchanged sux-rs sources and a plain model of document 01, held against the static
//! library.

pub mod cases;
pub mod compare;
pub mod damage;
#[rustfmt::skip] // laid out as the header is
pub mod ffi;
pub mod images;
pub mod list;
pub mod long;
pub mod model;
pub mod random;
pub mod reference;
pub mod replay;
pub mod sources;
pub mod spans;
pub mod steps;

//! The listed files of vigna/sux-rs 5518907969, unchanged, over stand-ins for what they import. The build script says
//! where they are read from; `traits` and `bits` are the stand-ins.

#![allow(unused_imports, dead_code, non_snake_case)]

extern crate stand_ins as ambassador;
extern crate stand_ins as impl_tools;
extern crate stand_ins as mem_dbg;

pub mod bits;
pub mod traits;

pub mod utils {
    include!(concat!(env!("OUT_DIR"), "/select_in_word.in"));
    pub use select_in_word::SelectInWord;
}

include!(concat!(env!("OUT_DIR"), "/rank_sel.in"));
include!(concat!(env!("OUT_DIR"), "/files.in"));

/// In the original a macro; the sources only import its name.
pub mod ambassador_impl_Index {}

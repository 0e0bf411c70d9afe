//! The static library, as include/edge_index.h declares it, behind safe calls.
//!
//! A refusal is `Err` of its number. "On anything but 0 nothing behind a pointer changes": outputs hold a sentinel
//! before the call, and a refusal that altered one comes back as its number plus `TOUCHED`, which no model says.

use crate::model::{Choice, Summary, Walker};

pub const TOUCHED: u32 = 1000;
const SENTINEL: u64 = 0x5EA1_ED5E_A1ED_5EA1;

mod c {
    use crate::model::{Summary, Walker};

    unsafe extern "C" {
        pub fn edge_index_count(words: *const u64, words_len: usize, len: u64, polarity: u32, num: *mut u64) -> u32;
        pub fn edge_index_plan(
            words: *const u64, words_len: usize, len: u64, polarity: u32,
            kind: u32, value: u64, percentage: f64, log2: u32, summary: *mut Summary,
        ) -> u32;
        pub fn edge_index_size(
            words: *const u64, words_len: usize, len: u64, polarity: u32,
            kind: u32, value: u64, percentage: f64, log2: u32, inventory_len: *mut u64, spill_len: *mut u64,
        ) -> u32;
        pub fn edge_index_build(
            words: *const u64, words_len: usize, len: u64, origin: u64, polarity: u32,
            kind: u32, value: u64, percentage: f64, log2: u32,
            inventory: *mut u64, inventory_len: usize, spill: *mut u64, spill_len: usize, summary: *mut Summary,
        ) -> u32;
        pub fn edge_index_check(
            words: *const u64, words_len: usize, len: u64, origin: u64, polarity: u32,
            kind: u32, value: u64, percentage: f64, log2: u32, summary: *const Summary,
            inventory: *const u64, inventory_len: usize, spill: *const u64, spill_len: usize, yes: *mut u64,
        ) -> u32;
        pub fn edge_index_select(
            words: *const u64, words_len: usize, summary: *const Summary,
            inventory: *const u64, inventory_len: usize, spill: *const u64, spill_len: usize,
            rank: u64, position: *mut u64,
        ) -> u32;
        pub fn edge_index_hint(
            words: *const u64, words_len: usize, summary: *const Summary,
            inventory: *const u64, inventory_len: usize, spill: *const u64, spill_len: usize,
            rank: u64, mark: *mut u64, mark_rank: *mut u64,
        ) -> u32;
        pub fn edge_index_subinventory(
            words: *const u64, words_len: usize, summary: *const Summary,
            inventory: *const u64, inventory_len: usize, spill: *const u64, spill_len: usize,
            rank: u64, slice: *mut u64, first: *mut u64, cells: *mut u64,
        ) -> u32;
        pub fn edge_index_dwell(
            words: *const u64, words_len: usize, summary: *const Summary,
            inventory: *const u64, inventory_len: usize, spill: *const u64, spill_len: usize,
            a: u64, b: u64, samples: *mut u64,
        ) -> u32;
        pub fn edge_index_select_list(
            words: *const u64, words_len: usize, summary: *const Summary,
            inventory: *const u64, inventory_len: usize, spill: *const u64, spill_len: usize,
            ranks: *const u64, ranks_len: usize, places: *mut u64, places_len: usize, words_read: *mut u64,
        ) -> u32;
        pub fn edge_index_rank(
            words: *const u64, words_len: usize, summary: *const Summary,
            inventory: *const u64, inventory_len: usize, spill: *const u64, spill_len: usize,
            sample: u64, rank: *mut u64,
        ) -> u32;
        pub fn edge_index_next(
            words: *const u64, words_len: usize, summary: *const Summary, sample: u64,
            edge: *mut u64, found: *mut u64,
        ) -> u32;
        pub fn edge_index_previous(
            words: *const u64, words_len: usize, summary: *const Summary, sample: u64,
            edge: *mut u64, found: *mut u64,
        ) -> u32;
        pub fn edge_index_open(
            words: *const u64, words_len: usize, summary: *const Summary, sample: u64, walker: *mut Walker,
        ) -> u32;
        pub fn edge_index_turn(
            words: *const u64, words_len: usize, walker: *mut Walker, edge: *mut u64, found: *mut u64,
        ) -> u32;
        pub fn edge_index_write_image(
            summary: *const Summary,
            inventory: *const u64, inventory_len: usize, spill: *const u64, spill_len: usize,
            bytes: *mut u8, bytes_len: usize, written: *mut u64,
        ) -> u32;
        pub fn edge_index_read_image(
            bytes: *const u8, bytes_len: usize,
            inventory: *mut u64, inventory_len: usize, spill: *mut u64, spill_len: usize, summary: *mut Summary,
        ) -> u32;
        pub fn edge_index_select_in_word(word: u64, rank: u64, position: *mut u64, remaining: *mut u64) -> u32;
    }
}

/// The outputs on 0, else the refusal.
#[inline]
fn answer<const K: usize>(code: u32, out: [u64; K]) -> Result<[u64; K], u32> {
    match code {
        0 => Ok(out),
        _ if out == [SENTINEL; K] => Err(code),
        _ => Err(TOUCHED + code),
    }
}

/// The edge on 0, or none, which leaves the place of an edge as it was; else the refusal.
#[inline]
fn edge_answer(code: u32, [edge, found]: [u64; 2]) -> Result<Option<u64>, u32> {
    match (code, found) {
        (0, 1) => Ok(Some(edge)),
        (0, 0) if edge == SENTINEL => Ok(None),
        (0, _) => Err(TOUCHED),
        _ => answer(code, [edge, found]).map(|_| None),
    }
}

/// A record: words, length in bits, polarity.
#[derive(Clone, Copy)]
pub struct Record<'a> {
    pub words: &'a [u64],
    pub len: u64,
    pub polarity: u32,
}

impl Record<'_> {
    pub fn count(&self) -> Result<u64, u32> {
        let mut num = SENTINEL;
        let code =
            unsafe { c::edge_index_count(self.words.as_ptr(), self.words.len(), self.len, self.polarity, &mut num) };
        answer(code, [num]).map(|[num]| num)
    }

    pub fn plan(&self, choice: &Choice) -> Result<Summary, u32> {
        let mut summary = Summary::from([SENTINEL; 9]);
        let code = unsafe {
            c::edge_index_plan(
                self.words.as_ptr(), self.words.len(), self.len, self.polarity,
                choice.kind, choice.value, choice.percentage, choice.log2, &mut summary,
            )
        };
        answer(code, summary.into()).map(Summary::from)
    }

    pub fn size(&self, choice: &Choice) -> Result<(u64, u64), u32> {
        let (mut inventory, mut spill) = (SENTINEL, SENTINEL);
        let code = unsafe {
            c::edge_index_size(
                self.words.as_ptr(), self.words.len(), self.len, self.polarity,
                choice.kind, choice.value, choice.percentage, choice.log2, &mut inventory, &mut spill,
            )
        };
        answer(code, [inventory, spill]).map(|[inventory, spill]| (inventory, spill))
    }

    /// Build, with the sample number of bit 0.
    pub fn build(
        &self, origin: u64, choice: &Choice, inventory: &mut [u64], spill: &mut [u64],
    ) -> Result<Summary, u32> {
        let mut summary = Summary::from([SENTINEL; 9]);
        let code = unsafe {
            c::edge_index_build(
                self.words.as_ptr(), self.words.len(), self.len, origin, self.polarity,
                choice.kind, choice.value, choice.percentage, choice.log2,
                inventory.as_mut_ptr(), inventory.len(), spill.as_mut_ptr(), spill.len(), &mut summary,
            )
        };
        answer(code, summary.into()).map(Summary::from)
    }

    pub fn check(
        &self, origin: u64, choice: &Choice, summary: &Summary, inventory: &[u64], spill: &[u64],
    ) -> Result<bool, u32> {
        let mut yes = SENTINEL;
        let code = unsafe {
            c::edge_index_check(
                self.words.as_ptr(), self.words.len(), self.len, origin, self.polarity,
                choice.kind, choice.value, choice.percentage, choice.log2, summary,
                inventory.as_ptr(), inventory.len(), spill.as_ptr(), spill.len(), &mut yes,
            )
        };
        match answer(code, [yes])? {
            [0] => Ok(false),
            [1] => Ok(true),
            _ => Err(TOUCHED),
        }
    }
}

/// What jump, hint, store, dwell and list take.
#[derive(Clone, Copy)]
pub struct Index<'a> {
    pub words: &'a [u64],
    pub summary: &'a Summary,
    pub inventory: &'a [u64],
    pub spill: &'a [u64],
}

impl Index<'_> {
    #[inline]
    pub fn select(&self, rank: u64) -> Result<u64, u32> {
        let mut position = SENTINEL;
        let code = unsafe {
            c::edge_index_select(
                self.words.as_ptr(), self.words.len(), self.summary,
                self.inventory.as_ptr(), self.inventory.len(), self.spill.as_ptr(), self.spill.len(),
                rank, &mut position,
            )
        };
        answer(code, [position]).map(|[position]| position)
    }

    /// The mark and its rank.
    pub fn hint(&self, rank: u64) -> Result<(u64, u64), u32> {
        let (mut mark, mut mark_rank) = (SENTINEL, SENTINEL);
        let code = unsafe {
            c::edge_index_hint(
                self.words.as_ptr(), self.words.len(), self.summary,
                self.inventory.as_ptr(), self.inventory.len(), self.spill.as_ptr(), self.spill.len(),
                rank, &mut mark, &mut mark_rank,
            )
        };
        answer(code, [mark, mark_rank]).map(|[mark, mark_rank]| (mark, mark_rank))
    }

    /// Store: 1 for the inventory or 2 for the spill, the first cell, the number of cells.
    pub fn store(&self, rank: u64) -> Result<(u64, u64, u64), u32> {
        let (mut slice, mut first, mut cells) = (SENTINEL, SENTINEL, SENTINEL);
        let code = unsafe {
            c::edge_index_subinventory(
                self.words.as_ptr(), self.words.len(), self.summary,
                self.inventory.as_ptr(), self.inventory.len(), self.spill.as_ptr(), self.spill.len(),
                rank, &mut slice, &mut first, &mut cells,
            )
        };
        answer(code, [slice, first, cells]).map(|[slice, first, cells]| (slice, first, cells))
    }

    pub fn dwell(&self, a: u64, b: u64) -> Result<u64, u32> {
        let mut samples = SENTINEL;
        let code = unsafe {
            c::edge_index_dwell(
                self.words.as_ptr(), self.words.len(), self.summary,
                self.inventory.as_ptr(), self.inventory.len(), self.spill.as_ptr(), self.spill.len(),
                a, b, &mut samples,
            )
        };
        answer(code, [samples]).map(|[samples]| samples)
    }

    /// The edges before a sample.
    pub fn rank(&self, sample: u64) -> Result<u64, u32> {
        let mut rank = SENTINEL;
        let code = unsafe {
            c::edge_index_rank(
                self.words.as_ptr(), self.words.len(), self.summary,
                self.inventory.as_ptr(), self.inventory.len(), self.spill.as_ptr(), self.spill.len(),
                sample, &mut rank,
            )
        };
        answer(code, [rank]).map(|[rank]| rank)
    }

    /// List: the words read; the positions are in the places.
    #[inline]
    pub fn list(&self, ranks: &[u64], places: &mut [u64]) -> Result<u64, u32> {
        let mut words_read = SENTINEL;
        let code = unsafe {
            c::edge_index_select_list(
                self.words.as_ptr(), self.words.len(), self.summary,
                self.inventory.as_ptr(), self.inventory.len(), self.spill.as_ptr(), self.spill.len(),
                ranks.as_ptr(), ranks.len(), places.as_mut_ptr(), places.len(), &mut words_read,
            )
        };
        answer(code, [words_read]).map(|[words_read]| words_read)
    }
}

/// The first edge at or after a sample.
pub fn next(words: &[u64], summary: &Summary, sample: u64) -> Result<Option<u64>, u32> {
    let mut out = [SENTINEL; 2];
    let [edge, found] = &mut out;
    let code = unsafe { c::edge_index_next(words.as_ptr(), words.len(), summary, sample, edge, found) };
    edge_answer(code, out)
}

/// The last edge before a sample.
pub fn previous(words: &[u64], summary: &Summary, sample: u64) -> Result<Option<u64>, u32> {
    let mut out = [SENTINEL; 2];
    let [edge, found] = &mut out;
    let code = unsafe { c::edge_index_previous(words.as_ptr(), words.len(), summary, sample, edge, found) };
    edge_answer(code, out)
}

pub fn open(words: &[u64], summary: &Summary, sample: u64) -> Result<Walker, u32> {
    let blank = Walker { len: SENTINEL, polarity: SENTINEL, origin: SENTINEL, place: SENTINEL };
    let mut walker = blank;
    let code = unsafe { c::edge_index_open(words.as_ptr(), words.len(), summary, sample, &mut walker) };
    match code {
        0 => Ok(walker),
        _ if walker == blank => Err(code),
        _ => Err(TOUCHED + code),
    }
}

/// A turn of a walker in place.
#[inline]
pub fn turn_on(words: &[u64], walker: &mut Walker) -> Result<Option<u64>, u32> {
    let mut out = [SENTINEL; 2];
    let [edge, found] = &mut out;
    let code = unsafe { c::edge_index_turn(words.as_ptr(), words.len(), walker, edge, found) };
    edge_answer(code, out)
}

/// A turn, and the walker handed back; a refusal that altered it is `TOUCHED`.
pub fn turn(words: &[u64], walker: &Walker) -> Result<(Option<u64>, Walker), u32> {
    let mut after = *walker;
    match turn_on(words, &mut after) {
        Ok(edge) => Ok((edge, after)),
        Err(refusal) if after == *walker => Err(refusal),
        Err(refusal) => Err(TOUCHED + refusal),
    }
}

/// Write image: its byte length; it is at the start of the bytes.
pub fn write_image(summary: &Summary, inventory: &[u64], spill: &[u64], bytes: &mut [u8]) -> Result<u64, u32> {
    let mut written = SENTINEL;
    let code = unsafe {
        c::edge_index_write_image(
            summary, inventory.as_ptr(), inventory.len(), spill.as_ptr(), spill.len(),
            bytes.as_mut_ptr(), bytes.len(), &mut written,
        )
    };
    answer(code, [written]).map(|[written]| written)
}

/// Read image: the summary; the cells are at the start of inventory and spill.
pub fn read_image(bytes: &[u8], inventory: &mut [u64], spill: &mut [u64]) -> Result<Summary, u32> {
    let mut summary = Summary::from([SENTINEL; 9]);
    let code = unsafe {
        c::edge_index_read_image(
            bytes.as_ptr(), bytes.len(),
            inventory.as_mut_ptr(), inventory.len(), spill.as_mut_ptr(), spill.len(), &mut summary,
        )
    };
    answer(code, summary.into()).map(Summary::from)
}

/// In-word select: the position, and how many ones remain above it.
pub fn select_in_word(word: u64, rank: u64) -> Result<(u64, u64), u32> {
    let (mut position, mut remaining) = (SENTINEL, SENTINEL);
    let code = unsafe { c::edge_index_select_in_word(word, rank, &mut position, &mut remaining) };
    answer(code, [position, remaining]).map(|[position, remaining]| (position, remaining))
}

//! Document 01 as a program: plain whole numbers (u128, i128), no care for speed, each step under the sentence it
//! follows. Written from the document alone, not from the Rust and not from the library that it judges. The list is
//! document 02's W-201, the origin its W-202, the image its W-203, rank, next, previous and the walker its W-206, the limit
//! of M its W-207.

/// A call's answer, or the number of its refusal in document 01's table.
pub type Answer<T> = Result<T, u32>;

/// Not in document 01: what the C interface answers for a polarity or a kind of choice that is none.
pub const BAD_CODE: u32 = 255;

pub const ONES: u32 = 0;
pub const ZEROS: u32 = 1;

pub const DEFAULT: u32 = 0;
pub const SPAN: u32 = 1;
pub const POWER: u32 = 2;
pub const OVERHEAD: u32 = 3;
pub const FIXED: u32 = 4;

/// The most that a given M, its maximum, or a summary's M may be: document 02's W-207, for document 01's 53.
pub const MAX_LOG2_WORDS: u32 = 10;

/// The choice as the C interface takes it; a kind ignores what it does not name.
#[derive(Clone, Copy, Debug, PartialEq)]
pub struct Choice {
    pub kind: u32,
    /// The span of a span choice, the L of power and fixed.
    pub value: u64,
    pub percentage: f64,
    /// The given maximum of M, or fixed's M.
    pub log2: u32,
}

/// "polarity, `len`, N, L, M, S, inventory cell count, spill cell count", and the origin, "the sample number of bit 0";
/// laid out as in C.
#[repr(C)]
#[derive(Clone, Copy, Debug, PartialEq, Eq)]
pub struct Summary {
    pub polarity: u64,
    pub len: u64,
    pub n: u64,
    pub origin: u64,
    pub l: u64,
    pub m: u64,
    pub s: u64,
    pub inventory: u64,
    pub spill: u64,
}

impl From<[u64; 9]> for Summary {
    fn from([polarity, len, n, origin, l, m, s, inventory, spill]: [u64; 9]) -> Self {
        Summary { polarity, len, n, origin, l, m, s, inventory, spill }
    }
}

impl From<Summary> for [u64; 9] {
    fn from(s: Summary) -> Self {
        [s.polarity, s.len, s.n, s.origin, s.l, s.m, s.s, s.inventory, s.spill]
    }
}

/// An index as the build leaves it: the cells within the counts.
#[derive(Clone, Debug, PartialEq)]
pub struct Built {
    pub summary: Summary,
    pub inventory: Vec<u64>,
    pub spill: Vec<u64>,
}

fn pow2(k: u128) -> u128 {
    1 << k
}

// ---------------------------------------------------------------------------------------------- the record

/// "Bit p is bit p mod 64, lowest first, of word p div 64." "A polarity, ones or zeros, says which bits below `len` are
/// selected": word w with its selected bits as ones, those "at or past `len`" cleared.
fn selected(words: &[u64], len: u128, polarity: u32, w: usize) -> u64 {
    let bits = if polarity == ZEROS { !words[w] } else { words[w] };
    let below = (len - 64 * w as u128).min(64);
    if below == 64 { bits } else { bits % (1 << below) }
}

/// The selected positions in rising order; N is their count.
fn positions(words: &[u64], len: u128, polarity: u32) -> Vec<u128> {
    let mut found = Vec::new();
    for w in 0..len.div_ceil(64) as usize {
        let mut bits = selected(words, len, polarity, w);
        while bits != 0 {
            found.push(64 * w as u128 + bits.trailing_zeros() as u128);
            bits &= bits - 1;
        }
    }
    found
}

/// Step 7: "the selected position at or after the mark with exactly s mod 2^q selected bits between, mark included";
/// none where there is "no fitting bit before `len`".
fn seek(words: &[u64], len: u128, polarity: u32, mark: u128, between: u128) -> Option<u128> {
    let mut passed = 0;
    for w in (mark / 64) as usize..len.div_ceil(64) as usize {
        let mut bits = selected(words, len, polarity, w);
        while bits != 0 {
            let p = 64 * w as u128 + bits.trailing_zeros() as u128;
            bits &= bits - 1;
            if mark <= p {
                if passed == between {
                    return Some(p);
                }
                passed += 1;
            }
        }
    }
    None
}

/// Refusals 1 and 14: "`len` over 2^62 - 1"; "origin plus `len` over 2^62 - 1 as whole numbers, right after 1". "count,
/// plan and size never say 14": to them the origin is 0.
fn samples_refusal(len: u64, origin: u64) -> Answer<()> {
    if len as u128 > pow2(62) - 1 {
        return Err(1);
    }
    if origin as u128 + len as u128 > pow2(62) - 1 {
        return Err(14);
    }
    Ok(())
}

/// Refusals 1, 14 and 2: "fewer than ceil(`len` / 64) words".
fn record_refusal(words: &[u64], len: u64, origin: u64) -> Answer<()> {
    samples_refusal(len, origin)?;
    if (words.len() as u128) < (len as u128).div_ceil(64) {
        return Err(2);
    }
    Ok(())
}

fn polarity_code(polarity: u64) -> Answer<u32> {
    if polarity > 1 { Err(BAD_CODE) } else { Ok(polarity as u32) }
}

/// "Count gives N"; order "count 1, 2".
pub fn count(words: &[u64], len: u64, polarity: u32) -> Answer<u64> {
    polarity_code(polarity as u64)?;
    record_refusal(words, len, 0)?;
    Ok(positions(words, len as u128, polarity).len() as u64)
}

/// "Word select": the position of one number `rank`, and "the number of ones above it in the word"; 8 where the rank is
/// not below "the word's ones".
pub fn select_in_word(word: u64, rank: u64) -> Answer<(u64, u64)> {
    let one = |p: &u64| word >> p & 1 == 1;
    let position = (0..64).filter(one).nth(rank.min(64) as usize).ok_or(8u32)?;
    Ok((position, (position + 1..64).filter(one).count() as u64))
}

// ------------------------------------------------------------------------------------ choosing the spacing

/// "S = max(0, L - M - 2)"
fn s_rule(l: u128, m: u128) -> u128 {
    l.saturating_sub(m + 2)
}

/// The span of an overhead choice: "span = max(T, 256 × m), m = 2^(given maximum)".
fn overhead_span(percentage: f64, maximum: u32) -> u128 {
    overhead_t(percentage, maximum).max(256 * pow2(maximum as u128))
}

/// "T is (1 + m) as f64, times 64, times 100, divided by the percentage, rounded once each, in that order, then cut to
/// a whole number, at most 2^64 - 1, which an infinite quotient gives".
fn overhead_t(percentage: f64, maximum: u32) -> u128 {
    let quotient = (1 + pow2(maximum as u128)) as f64 * 64.0 * 100.0 / percentage;
    // From f64 to u128 `as` cuts; an infinite quotient gives the largest u128.
    (quotient as u128).min(pow2(64) - 1)
}

/// L, M, S of a choice; the choice is lawful.
fn parameters(n: u128, len: u128, choice: &Choice) -> (u128, u128, u128) {
    // "default (`new`): span choice with 4,096 and 3"
    let (span, maximum) = match choice.kind {
        DEFAULT => (Some(4096), 3),
        SPAN => (Some(choice.value as u128), choice.log2 as u128),
        OVERHEAD => (Some(overhead_span(choice.percentage, choice.log2)), choice.log2 as u128),
        _ => (None, choice.log2 as u128),
    };
    let l = match span {
        // "L = ilog2(max(1, ceil(N × span / max(1, `len`)))), the product exact"
        Some(span) => (n * span).div_ceil(len.max(1)).max(1).ilog2() as u128,
        // "power: L given", "fixed: L and M given"
        None => choice.value as u128,
    };
    let m = if choice.kind == FIXED {
        maximum
    } else {
        // "c the least number with 2^c >= max(1, N)"
        let c = (0..).find(|&c| pow2(c) >= n.max(1)).unwrap();
        // "M = min(given maximum, max(0, L - 2), max(0, c - 2))"
        maximum.min(l.saturating_sub(2)).min(c.saturating_sub(2))
    };
    (l, m, s_rule(l, m))
}

/// Refusals 3, 4 and 5: "L over 63", "given M or maximum over" the limit, "percentage not finite or not above 0".
fn choice_refusal(choice: &Choice) -> Answer<()> {
    if matches!(choice.kind, POWER | FIXED) && choice.value > 63 {
        return Err(3);
    }
    if choice.kind != DEFAULT && choice.log2 > MAX_LOG2_WORDS {
        return Err(4);
    }
    if choice.kind == OVERHEAD && !(choice.percentage.is_finite() && choice.percentage > 0.0) {
        return Err(5);
    }
    Ok(())
}

/// "plan the summary up to S", refused as numbered "to 5"; the counts are 0, and so is the origin.
pub fn plan(words: &[u64], len: u64, polarity: u32, choice: &Choice) -> Answer<Summary> {
    planned(words, len, 0, polarity, choice)
}

/// The plan that build, which takes an origin, goes on from.
fn planned(words: &[u64], len: u64, origin: u64, polarity: u32, choice: &Choice) -> Answer<Summary> {
    polarity_code(polarity as u64)?;
    if choice.kind > FIXED {
        return Err(BAD_CODE);
    }
    record_refusal(words, len, origin)?;
    choice_refusal(choice)?;
    let n = count(words, len, polarity)?;
    let (l, m, s) = parameters(n as u128, len as u128, choice);
    let (l, m, s) = (l as u64, m as u64, s as u64);
    Ok(Summary { polarity: polarity as u64, len, n, origin, l, m, s, inventory: 0, spill: 0 })
}

// ----------------------------------------------------------------------------------------------- the build

/// "There are ceil(N / 2^L) entries"
fn entries(n: u128, l: u128) -> u128 {
    n.div_ceil(pow2(l))
}

/// "Cells: entries × (2^M + 1) + 1, reckoned as a whole number."
fn inventory_count(n: u128, l: u128, m: u128) -> u128 {
    entries(n, l) * (pow2(m) + 1) + 1
}

#[derive(Clone, Copy, Debug, PartialEq)]
enum Kind {
    U16,
    U32,
    U64,
}

/// "Span to 65,536: U16; to 2^32: U32; above: U64."
fn kind_of(span: u128) -> Kind {
    match span {
        0..=65_536 => Kind::U16,
        65_537..=0x1_0000_0000 => Kind::U32,
        _ => Kind::U64,
    }
}

/// Step 4: "q = S". Step 5: "q = max(0, S - ilog2(span div 32768) - 1), ilog2 rounding down". Step 6: "q = 0".
fn spacing(kind: Kind, span: u128, s: u128) -> u128 {
    match kind {
        Kind::U16 => s,
        Kind::U32 => s.saturating_sub((span / 32768).ilog2() as u128 + 1),
        Kind::U64 => 0,
    }
}

/// "Entry e holds the ranks from e × 2^L to below min((e + 1) × 2^L, N)": how many.
fn ranks(e: u128, n: u128, l: u128) -> u128 {
    ((e + 1) * pow2(l)).min(n) - e * pow2(l)
}

/// "With h marks, U32 spills max(0, ceil(h / 2) - (2^M - 1)) cells; U64 spills max(0, h - 2^M)." U16 spills nothing.
fn spilled(kind: Kind, h: u128, m: u128) -> u128 {
    match kind {
        Kind::U16 => 0,
        Kind::U32 => h.div_ceil(2).saturating_sub(pow2(m) - 1),
        Kind::U64 => h.saturating_sub(pow2(m)),
    }
}

/// An entry reckoned from record and choice.
struct Entry {
    start: u128,
    kind: Kind,
    marks: Vec<u128>,
    spilled: u128,
}

fn entry(found: &[u128], plan: &Summary, e: u128) -> Entry {
    let (n, l, m) = (plan.n as u128, plan.l as u128, plan.m as u128);
    let start = found[(e * pow2(l)) as usize];
    // "An entry's span runs to the next start, or to that last cell", which is max(1, `len`).
    let next = if e + 1 < entries(n, l) { found[((e + 1) * pow2(l)) as usize] } else { (plan.len as u128).max(1) };
    let kind = kind_of(next - start);
    let q = spacing(kind, next - start, plan.s as u128);
    // "The marks of an entry are its selected bits of subrank 0, 2^q, 2 × 2^q and so on."
    let h = ranks(e, n, l).div_ceil(pow2(q));
    let marks: Vec<u128> = (0..h).map(|k| found[(e * pow2(l) + k * pow2(q)) as usize]).collect();
    Entry { start, kind, marks, spilled: spilled(kind, h, m) }
}

/// The plan, the selected positions, and the two counts; the plan's refusals, and 6 for a count "over 2^64 - 1".
fn sized(words: &[u64], len: u64, origin: u64, polarity: u32, choice: &Choice) -> Answer<(Summary, Vec<u128>)> {
    let mut summary = planned(words, len, origin, polarity, choice)?;
    let cells = inventory_count(summary.n as u128, summary.l as u128, summary.m as u128);
    if cells > pow2(64) - 1 {
        return Err(6);
    }
    let found = positions(words, len as u128, polarity);
    summary.inventory = cells as u64;
    let all = entries(summary.n as u128, summary.l as u128);
    summary.spill = (0..all).map(|e| entry(&found, &summary, e).spilled).sum::<u128>() as u64;
    Ok((summary, found))
}

/// "size the two cell counts", refused as numbered "to 6".
pub fn size(words: &[u64], len: u64, polarity: u32, choice: &Choice) -> Answer<(u64, u64)> {
    sized(words, len, 0, polarity, choice).map(|(s, _)| (s.inventory, s.spill))
}

/// What build writes into buffers of the given lengths; refused as numbered, 1 to 7, with 14 right after 1.
pub fn built(
    words: &[u64],
    len: u64,
    origin: u64,
    polarity: u32,
    choice: &Choice,
    inv_len: usize,
    spill_len: usize,
) -> Answer<Built> {
    let (summary, found) = sized(words, len, origin, polarity, choice)?;
    cells_refusal(&summary, inv_len, spill_len)?;
    // "the build writes the zeros": every cell within the counts that nothing below sets.
    let mut inventory = vec![0; summary.inventory as usize];
    let mut spill = vec![0; summary.spill as usize];
    let m = summary.m as u128;
    let mut before = 0;
    for e in 0..entries(summary.n as u128, summary.l as u128) {
        let entry = entry(&found, &summary, e);
        let base = e * (pow2(m) + 1);
        // "its top two bits are the tag and its low 62 the start. Top bit 0: U16. 10: U32. 11: U64."
        let tag: u64 = match entry.kind {
            Kind::U16 => 0,
            Kind::U32 => 0b10 << 62,
            Kind::U64 => 0b11 << 62,
        };
        inventory[base as usize] = tag + entry.start as u64;
        // "U32 and U64 entries hold in their second cell the count of cells spilled before them."
        if entry.kind != Kind::U16 {
            inventory[base as usize + 1] = before as u64;
        }
        for (k, &mark) in entry.marks.iter().enumerate() {
            let k = k as u128;
            match entry.kind {
                // Step 4: quarter cell k "counted from the next cell, lowest quarter first, is an offset".
                Kind::U16 => inventory[(base + 1 + k / 4) as usize] += ((mark - entry.start) as u64) << (16 * (k % 4)),
                // Step 5: half cell "from the entry's third cell, low half first", or from its spilled cells.
                Kind::U32 => {
                    let own = 2 * (pow2(m) - 1);
                    let offset = (mark - entry.start) as u64;
                    if k < own {
                        inventory[(base + 2 + k / 2) as usize] += offset << (32 * (k % 2));
                    } else {
                        spill[(before + (k - own) / 2) as usize] += offset << (32 * ((k - own) % 2));
                    }
                }
                // "U64 stores whole positions for subranks from 1 on": cell s + 1 of the entry, or spill s - 2^M.
                Kind::U64 if k == 0 => {}
                Kind::U64 if k < pow2(m) => inventory[(base + k + 1) as usize] = mark as u64,
                Kind::U64 => spill[(before + k - pow2(m)) as usize] = mark as u64,
            }
        }
        before += entry.spilled;
    }
    // "then one cell max(1, `len`)"
    *inventory.last_mut().unwrap() = len.max(1);
    Ok(Built { summary, inventory, spill })
}

/// Check: refused as build is; "measures 6 and 7 by the counts of record and choice; any other summary is a no", one
/// with another origin too; yes where the cells within the counts are those of the build, "Cells past the counts ...
/// check passes over them".
pub fn check(index: &Index, len: u64, origin: u64, polarity: u32, choice: &Choice) -> Answer<bool> {
    let &Index { words, summary, inventory, spill } = index;
    polarity_code(summary.polarity)?;
    let built = built(words, len, origin, polarity, choice, inventory.len(), spill.len())?;
    Ok(same(&built, summary, inventory, spill))
}

/// Whether summary and cells are the build's; the buffers are long enough.
pub fn same(built: &Built, summary: &Summary, inventory: &[u64], spill: &[u64]) -> bool {
    *summary == built.summary
        && inventory[..built.inventory.len()] == built.inventory[..]
        && spill[..built.spill.len()] == built.spill[..]
}

// --------------------------------------------------------------------------- a summary and cells lent

/// Refusal 9: "summary: N > `len`, L > 63, M >" the limit, "S or inventory count not by the rules".
fn rules_refusal(s: &Summary) -> Answer<()> {
    if s.n > s.len || s.l > 63 || s.m > MAX_LOG2_WORDS as u64 {
        return Err(9);
    }
    let (n, l, m) = (s.n as u128, s.l as u128, s.m as u128);
    if s.s as u128 != s_rule(l, m) || s.inventory as u128 != inventory_count(n, l, m) {
        return Err(9);
    }
    Ok(())
}

/// Refusals 6 and 7: "inventory shorter than its count", "spill shorter than its count".
fn cells_refusal(s: &Summary, inv_len: usize, spill_len: usize) -> Answer<()> {
    if (inv_len as u64) < s.inventory {
        return Err(6);
    }
    if (spill_len as u64) < s.spill {
        return Err(7);
    }
    Ok(())
}

// ------------------------------------------------------------------- jump, hint, store, dwell and list

/// What they take: "words, summary and cells; the summary's `len` and counts are the ones tested".
#[derive(Clone, Copy)]
pub struct Index<'a> {
    pub words: &'a [u64],
    pub summary: &'a Summary,
    pub inventory: &'a [u64],
    pub spill: &'a [u64],
}

/// Where a rank's mark is read.
struct Mark {
    mark: u128,
    /// s mod 2^q
    between: u128,
    kind: Kind,
    /// The part of the inventory (1) or the spill (2): its first cell and its number of cells.
    part: (u64, u128, u128),
}

impl Index<'_> {
    /// Order: "1, 2, 9, 6, 7, 8, 10", with 14 right after 1; this goes to 8.
    fn refusal(&self, ranks: &[u64]) -> Answer<()> {
        let s = self.summary;
        polarity_code(s.polarity)?;
        record_refusal(self.words, s.len, s.origin)?;
        rules_refusal(s)?;
        cells_refusal(s, self.inventory.len(), self.spill.len())?;
        // "rank not below N"
        if ranks.iter().any(|&r| r >= s.n) { Err(8) } else { Ok(()) }
    }

    /// "a cell number outside the summary's counts ... is refusal 10"
    fn inventory_cell(&self, number: u128) -> Answer<u128> {
        if number < self.summary.inventory as u128 { Ok(self.inventory[number as usize] as u128) } else { Err(10) }
    }

    fn spill_cell(&self, number: u128) -> Answer<u128> {
        if number < self.summary.spill as u128 { Ok(self.spill[number as usize] as u128) } else { Err(10) }
    }

    /// Steps 2 to 6.
    fn mark(&self, rank: u64) -> Answer<Mark> {
        let summary = self.summary;
        let (n, l, m) = (summary.n as u128, summary.l as u128, summary.m as u128);
        // "Entry e = r div 2^L, subrank s = r mod 2^L. The entry begins at cell e × (2^M + 1)."
        let e = rank as u128 / pow2(l);
        let s = rank as u128 % pow2(l);
        let base = e * (pow2(m) + 1);
        // "Of that first cell, its top two bits are the tag and its low 62 the start."
        let first = self.inventory_cell(base)?;
        let low62 = |cell: u128| cell % pow2(62);
        let kind = match first >> 62 {
            0 | 1 => Kind::U16,
            2 => Kind::U32,
            _ => Kind::U64,
        };
        // "U16, the whole cell being the start"
        let start = if kind == Kind::U16 { first } else { low62(first) };
        let own = (1, base + 1, pow2(m));
        let (mark, q, part) = match kind {
            Kind::U16 => {
                // "quarter cell number s div 2^S, counted from the next cell, lowest quarter first, is an offset"
                let q = summary.s as u128;
                let quarter = s / pow2(q);
                let cell = self.inventory_cell(base + 1 + quarter / 4)?;
                (start + (cell >> (16 * (quarter % 4))) % pow2(16), q, own)
            }
            Kind::U32 => {
                // "span = next entry's start (low 62 bits) - start"; "a U32 span below 65,537 ... is refusal 10"
                let span = low62(self.inventory_cell(base + pow2(m) + 1)?) as i128 - start as i128;
                if span < 65_537 {
                    return Err(10);
                }
                let q = spacing(kind, span as u128, summary.s as u128);
                // "Let i = s div 2^q. If i < 2 × (2^M - 1), the offset ... is half cell i from the entry's third cell,
                // low half first. Otherwise half cell i - 2 × (2^M - 1) from the spill cell whose number stands in the
                // entry's second cell."
                let i = s / pow2(q);
                let inside = 2 * (pow2(m) - 1);
                let half = |cell: u128, i: u128| (cell >> (32 * (i % 2))) % pow2(32);
                if i < inside {
                    (start + half(self.inventory_cell(base + 2 + i / 2)?, i), q, own)
                } else {
                    let second = self.inventory_cell(base + 1)?;
                    let cell = self.spill_cell(second + (i - inside) / 2)?;
                    (start + half(cell, i - inside), q, self.spilled_part(kind, second, ranks(e, n, l), q))
                }
            }
            Kind::U64 => {
                // "s = 0 gives the start. s < 2^M gives cell s + 1 of the entry, the first being 0. Otherwise the spill
                // cell numbered (second cell) + s - 2^M." "Subrank 0 of a U64 entry gives the inventory part."
                if s == 0 {
                    (start, 0, own)
                } else if s < pow2(m) {
                    (self.inventory_cell(base + s + 1)?, 0, own)
                } else {
                    let second = self.inventory_cell(base + 1)?;
                    let cell = self.spill_cell(second + s - pow2(m))?;
                    (cell, 0, self.spilled_part(kind, second, ranks(e, n, l), 0))
                }
            }
        };
        // "a mark or U64 position at or past `len`"
        if mark >= summary.len as u128 {
            return Err(10);
        }
        Ok(Mark { mark, between: s % pow2(q), kind, part })
    }

    /// "the entry's spilled cells, from the one its second cell numbers, as many as the build's rule gives for tag,
    /// summary and span, cut at the spill count"
    fn spilled_part(&self, kind: Kind, second: u128, ranks: u128, q: u128) -> (u64, u128, u128) {
        let cells = spilled(kind, ranks.div_ceil(pow2(q)), self.summary.m as u128);
        (2, second, cells.min(self.summary.spill as u128 - second))
    }

    fn position(&self, rank: u64) -> Answer<u128> {
        let mark = self.mark(rank)?;
        if mark.kind == Kind::U64 {
            return Ok(mark.mark);
        }
        self.seek(mark.mark, mark.between)
    }

    /// Step 7, from the mark or from wherever a list's reading starts.
    fn seek(&self, start: u128, between: u128) -> Answer<u128> {
        seek(self.words, self.summary.len as u128, self.summary.polarity as u32, start, between).ok_or(10)
    }

    /// "Jump, hint and list answer with origin plus position"; up to here positions count from bit 0.
    fn sample(&self, position: u128) -> u64 {
        (self.summary.origin as u128 + position) as u64
    }

    /// Jump.
    pub fn select(&self, rank: u64) -> Answer<u64> {
        self.refusal(&[rank])?;
        self.position(rank).map(|p| self.sample(p))
    }

    /// "Hint stops before step 7 with the mark and rank r - (s mod 2^q)."
    pub fn hint(&self, rank: u64) -> Answer<(u64, u64)> {
        self.refusal(&[rank])?;
        let mark = self.mark(rank)?;
        Ok((self.sample(mark.mark), rank - mark.between as u64))
    }

    /// "Store answers with the cells where a rank's mark is recorded"; it "refuses exactly where hint does".
    pub fn store(&self, rank: u64) -> Answer<(u64, u64, u64)> {
        self.refusal(&[rank])?;
        let (slice, first, cells) = self.mark(rank)?.part;
        Ok((slice, first as u64, cells as u64))
    }

    /// "Dwell of ranks a and b is position(b) - position(a); on foreign cells a negative one is refusal 10." "Dwell
    /// puts 11 after 8 for both ranks; 10 then goes a before b."
    pub fn dwell(&self, a: u64, b: u64) -> Answer<u64> {
        self.refusal(&[a, b])?;
        if a > b {
            return Err(11);
        }
        let from = self.position(a)? as i128;
        let to = self.position(b)? as i128;
        u64::try_from(to - from).map_err(|_| 10)
    }

    /// List, with so many places for its answers: the sample numbers and the total of words read.
    pub fn list(&self, ranks: &[u64], places: usize) -> Answer<(Vec<u64>, u64)> {
        // "12, ranks that fall; 13, too few places for answers; in that order, after 7 and before 8"
        self.refusal(&[])?;
        if ranks.windows(2).any(|two| two[1] < two[0]) {
            return Err(12);
        }
        if places < ranks.len() {
            return Err(13);
        }
        self.refusal(ranks)?;

        let mut found = Vec::new();
        let mut total = 0;
        // "the last bit reached by reading", and the list's rank that reached it
        let mut last: Option<(u128, u64)> = None;
        for &rank in ranks {
            let mark = self.mark(rank)?;
            // "a U64 rank reads none"
            if mark.kind == Kind::U64 {
                found.push(self.sample(mark.mark));
                continue;
            }
            // "the reading starts at the later of its mark and the last bit"; "From the mark it passes s mod 2^q selected
            // bits, from a later last bit as many as its rank exceeds that bit's."
            let (start, between) = match last {
                Some((bit, its_rank)) if bit > mark.mark => (bit, (rank - its_rank) as u128),
                _ => (mark.mark, mark.between),
            };
            let bit = self.seek(start, between)?;
            // "and runs to the answer; a word still in hand is not read again"
            let in_hand = last.is_some_and(|(bit, _)| bit / 64 == start / 64);
            total += bit / 64 - start / 64 + 1 - in_hand as u128;
            last = Some((bit, rank));
            found.push(self.sample(bit));
        }
        Ok((found, total as u64))
    }
}

// ------------------------------------------------------------------- rank, next, previous and the walker

/// Refusal 17, "a sample below the origin or above origin plus `len`", else the sample's position.
fn position_of(len: u64, origin: u64, sample: u64) -> Answer<u128> {
    let (len, origin, sample) = (len as u128, origin as u128, sample as u128);
    if sample < origin || sample > origin + len { Err(17) } else { Ok(sample - origin) }
}

/// The selected positions from one on, below another, as far as they are asked for.
fn between(words: &[u64], len: u128, polarity: u32, from: u128, to: u128) -> impl DoubleEndedIterator<Item = u128> {
    let last = to.div_ceil(64).min(len.div_ceil(64));
    ((from / 64) as usize..last as usize)
        .flat_map(move |w| {
            let bits = selected(words, len, polarity, w);
            (0..64).filter(move |bit| bits >> bit & 1 == 1).map(move |bit| 64 * w as u128 + bit)
        })
        .filter(move |&p| from <= p && p < to)
}

impl Index<'_> {
    /// "Rank of a sample is the count of selected bits before it, found from e × 2^L at the last entry start at or before it
    /// (or 0 at bit 0) and counted on; on foreign cells that walk is the definition." 17 is "in the place of 8".
    pub fn rank(&self, sample: u64) -> Answer<u64> {
        self.refusal(&[])?;
        let s = self.summary;
        let position = position_of(s.len, s.origin, sample)?;
        // "entry starts, read as in step 3, that fail to rise, or reach `len`, anywhere, are 10"
        let mut starts = Vec::new();
        for e in 0..entries(s.n as u128, s.l as u128) {
            let first = self.inventory_cell(e * (pow2(s.m as u128) + 1))?;
            starts.push(if first >> 62 < 2 { first } else { first % pow2(62) });
        }
        if starts.windows(2).any(|two| two[1] <= two[0]) || starts.iter().any(|&start| start >= s.len as u128) {
            return Err(10);
        }
        let (from, known) = match starts.iter().rposition(|&start| start <= position) {
            Some(e) => (starts[e], e as u128 * pow2(s.l as u128)),
            None => (0, 0),
        };
        let counted = between(self.words, s.len as u128, s.polarity as u32, from, position).count();
        Ok((known + counted as u128) as u64)
    }
}

/// What next and previous test: "1, 14, 2, 9, 17".
fn step_refusal(words: &[u64], s: &Summary, sample: u64) -> Answer<u128> {
    polarity_code(s.polarity)?;
    record_refusal(words, s.len, s.origin)?;
    rules_refusal(s)?;
    position_of(s.len, s.origin, sample)
}

/// "Next is the first selected bit at or after the sample".
pub fn next(words: &[u64], s: &Summary, sample: u64) -> Answer<Option<u64>> {
    let position = step_refusal(words, s, sample)?;
    let found = between(words, s.len as u128, s.polarity as u32, position, s.len as u128).next();
    Ok(found.map(|p| (s.origin as u128 + p) as u64))
}

/// "previous the last before it".
pub fn previous(words: &[u64], s: &Summary, sample: u64) -> Answer<Option<u64>> {
    let position = step_refusal(words, s, sample)?;
    let found = between(words, s.len as u128, s.polarity as u32, 0, position).next_back();
    Ok(found.map(|p| (s.origin as u128 + p) as u64))
}

/// A walker without its words, laid out as in C.
#[repr(C)]
#[derive(Clone, Copy, Debug, PartialEq, Eq)]
pub struct Walker {
    pub len: u64,
    pub polarity: u64,
    pub origin: u64,
    pub place: u64,
}

/// "The step knob opens a walker once over the record's words"; its place is "at first the starting sample".
pub fn open(words: &[u64], s: &Summary, sample: u64) -> Answer<Walker> {
    step_refusal(words, s, sample)?;
    Ok(Walker { len: s.len, polarity: s.polarity, origin: s.origin, place: sample })
}

/// "each turn hands it back one past the edge it gives, the first at or after its place"; "with none left it says "none" and
/// stays"; "each turn tests the walker handed in for 1, 14, 2 and 17 (its place)".
pub fn turn(words: &[u64], walker: &Walker) -> Answer<(Option<u64>, Walker)> {
    let &Walker { len, polarity, origin, place } = walker;
    let code = polarity_code(polarity)?;
    record_refusal(words, len, origin)?;
    let position = position_of(len, origin, place)?;
    match between(words, len as u128, code, position, len as u128).next() {
        None => Ok((None, *walker)),
        Some(p) => {
            let edge = (origin as u128 + p) as u64;
            Ok((Some(edge), Walker { place: edge + 1, ..*walker }))
        }
    }
}

// ------------------------------------------------------------------------------------------------ the image

/// What writing tests before the cells: "1, 14, 9"; an image has no words, so no 2.
fn summary_refusal(s: &Summary) -> Answer<()> {
    polarity_code(s.polarity)?;
    samples_refusal(s.len, s.origin)?;
    rules_refusal(s)
}

/// "The image is u64 fields, lowest byte first: polarity (0 ones, 1 zeros), `len`, N, origin, L, M, S, inventory count,
/// inventory byte offset (88), spill count, spill byte offset (88 + 8 × inventory count); then inventory, then spill,
/// then the end". The cells are those counted.
fn image(s: &Summary, inventory: &[u64], spill: &[u64]) -> Vec<u8> {
    let offset = 88 + 8 * inventory.len() as u64;
    let fields = [s.polarity, s.len, s.n, s.origin, s.l, s.m, s.s, s.inventory, 88, s.spill, offset];
    fields.iter().chain(inventory).chain(spill).flat_map(|number| number.to_le_bytes()).collect()
}

/// What writing leaves in a place of so many bytes; it "answers its byte length". "16, too small a place for the image,
/// last in writing, after 1, 14, 9, 6 and 7".
pub fn write_image(s: &Summary, inventory: &[u64], spill: &[u64], place: usize) -> Answer<Vec<u8>> {
    summary_refusal(s)?;
    cells_refusal(s, inventory.len(), spill.len())?;
    let image = image(s, &inventory[..s.inventory as usize], &spill[..s.spill as usize]);
    if place < image.len() { Err(16) } else { Ok(image) }
}

/// What reading leaves in places of the given lengths. "15, a header or byte length against these rules, first in
/// reading, before 6 and 7".
pub fn read_image(bytes: &[u8], inv_len: usize, spill_len: usize) -> Answer<Built> {
    let index = imaged(bytes).ok_or(15u32)?;
    cells_refusal(&index.summary, inv_len, spill_len)?;
    Ok(index)
}

/// "Reading accepts just the images that writing can produce from a summary free of 1, 14 and 9": summary and cells are
/// taken as the fields name them, and writing them must give these bytes. That tells of the offsets and of the end.
fn imaged(bytes: &[u8]) -> Option<Built> {
    let numbers: Vec<u64> = bytes.chunks_exact(8).map(|c| u64::from_le_bytes(c.try_into().unwrap())).collect();
    let &[polarity, len, n, origin, l, m, s, inventory, _, spill, _, ref cells @ ..] = &numbers[..] else {
        return None;
    };
    let summary = Summary { polarity, len, n, origin, l, m, s, inventory, spill };
    summary_refusal(&summary).ok()?;
    // Cells that are not there are in no image.
    let (inventory, rest) = cells.split_at_checked(inventory as usize)?;
    let spill = rest.get(..spill as usize)?;
    let same = image(&summary, inventory, spill) == bytes;
    same.then(|| Built { summary, inventory: inventory.to_vec(), spill: spill.to_vec() })
}

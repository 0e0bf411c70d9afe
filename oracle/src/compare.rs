//! The library against the unchanged Rust, and both against the model: parameters, inventory, spill, every select; lists
//! against the model and against single jumps. The Rust has no origin: it sees our sample numbers less the origin.

use crate::cases::*;
use crate::ffi;
use crate::list::List;
use crate::model::{self, BAD_CODE, Choice, FIXED, MAX_LOG2_WORDS, ONES, POWER, Summary, ZEROS};
use crate::random::Random;
use crate::reference::{self, Reference};
use std::collections::BTreeMap;
use std::panic::{AssertUnwindSafe, catch_unwind};
use std::time::Instant;

const GARBAGE: u64 = 0xDEAD_BEEF_0BAD_F00D;

#[derive(Clone, Copy)]
pub struct Case<'a> {
    pub words: &'a [u64],
    pub len: u64,
    pub polarity: u32,
    pub choice: Choice,
}

impl std::fmt::Display for Case<'_> {
    fn fmt(&self, f: &mut std::fmt::Formatter) -> std::fmt::Result {
        let polarity = if self.polarity == ONES { "ones" } else { "zeros" };
        let Choice { kind, value, percentage, log2 } = self.choice;
        let choice = match kind {
            model::DEFAULT => "default".to_string(),
            model::SPAN => format!("span {value} maximum {log2}"),
            model::POWER => format!("power L {value} maximum {log2}"),
            model::OVERHEAD => format!("overhead {percentage:?} maximum {log2}"),
            _ => format!("fixed L {value} M {log2}"),
        };
        let words: Vec<_> = self.words.iter().take(4).map(|w| format!("{w:#x}")).collect();
        let more = if self.words.len() > 4 { format!(", ... {} words", self.words.len()) } else { String::new() };
        write!(f, "[{}{more}] len {} {polarity}, {choice}", words.join(", "), self.len)
    }
}

/// How often something was seen, and its smallest input: fewest bits, then fewest words.
#[derive(Default)]
struct Seen(BTreeMap<String, (u64, (u64, usize), String)>);

impl Seen {
    fn add(&mut self, what: &str, case: &Case, note: &str) {
        let key = (case.len, case.words.len());
        let say = || if note.is_empty() { case.to_string() } else { format!("{case}: {note}") };
        match self.0.get_mut(what) {
            None => drop(self.0.insert(what.to_string(), (1, key, say()))),
            Some(seen) => {
                seen.0 += 1;
                if key < seen.1 {
                    (seen.1, seen.2) = (key, say());
                }
            }
        }
    }

    fn print(&self, title: &str) {
        println!("{title}");
        for (what, (times, _, smallest)) in &self.0 {
            println!("  {what}: {times}\n    smallest: {smallest}");
        }
        if self.0.is_empty() {
            println!("  none");
        }
    }
}

#[derive(Default)]
pub struct Tally {
    pub cases: u64,
    pub differences: u64,
    /// Of the case at hand: origins vary from case to case.
    origin: u64,
    cells: u64,
    selects: u64,
    refusals: u64,
    /// How many builds were refused for their origin, and as many checks.
    refused_origins: u64,
    /// How often a list was answered, as 0, and how often each refusal was said.
    lists: BTreeMap<u32, u64>,
    /// Entries met, by kind, with or without spill, at M 0 or above.
    entries: BTreeMap<String, u64>,
    known: Seen,
    skipped: Seen,
    /// A closed group's case count, to print what each compared.
    group_start: (u64, u64),
}

impl Tally {
    fn difference(&mut self, case: &Case, what: String) {
        self.differences += 1;
        if self.differences <= 20 {
            println!("DIFFERENCE: {case}, origin {}: {what:.600}", self.origin);
        }
    }

    fn equal<T: PartialEq + std::fmt::Debug>(&mut self, case: &Case, what: &str, ours: T, theirs: T) -> bool {
        let same = ours == theirs;
        if !same {
            self.difference(case, format!("{what}: ours {ours:?}, expected {theirs:?}"));
        }
        same
    }

    pub fn group(&mut self, name: &str, started: Instant) {
        let (cases, selects) = self.group_start;
        let seconds = started.elapsed().as_secs_f64();
        println!("  {name}: {} cases, {} selects, {seconds:.1} s", self.cases - cases, self.selects - selects);
        self.group_start = (self.cases, self.selects);
    }

    /// One case, all calls.
    pub fn compare(&mut self, case: &Case) {
        self.cases += 1;
        let &Case { words, len, polarity, choice } = case;
        self.past_the_limit(case);
        // A stream of its own, which the lists do not share.
        self.origin = origin(&Random::new(!self.cases), len);
        let size = model::size(words, len, polarity, &choice);
        self.equal(case, "size", ffi::Record { words, len, polarity }.size(&choice), size);
        match size {
            Err(refusal) => self.refused(case, refusal),
            Ok(_) => self.built(case),
        }
    }

    /// Count and plan.
    fn planned(&mut self, case: &Case, plan: model::Answer<Summary>) {
        let &Case { words, len, polarity, choice } = case;
        let ours = ffi::Record { words, len, polarity };
        let count = plan.map_or_else(|_| model::count(words, len, polarity), |plan| Ok(plan.n));
        self.equal(case, "count", ours.count(), count);
        self.equal(case, "plan", ours.plan(&choice), plan);
    }

    /// The first origin past the limit, and the last of all: 14, but for what is tested before it.
    fn past_the_limit(&mut self, case: &Case) {
        let &Case { words, len, polarity, choice } = case;
        for origin in [(MOST_SAMPLES + 1).saturating_sub(len), u64::MAX] {
            self.origin = origin;
            let refusal = model::built(words, len, origin, polarity, &choice, 0, 0).expect_err("past the limit");
            self.refused_origins += (refusal == 14) as u64;
            self.refused_build(case, refusal);
            let summary = Summary { origin, ..Summary::from([0; 9]) };
            let check = ffi::Record { words, len, polarity }.check(origin, &choice, &summary, &[], &[]);
            self.equal(case, "check", check, Err(refusal));
        }
    }

    /// Our build leaves the buffers alone.
    fn refused_build(&mut self, case: &Case, refusal: u32) {
        let &Case { words, len, polarity, choice } = case;
        let (mut inventory, mut spill) = ([GARBAGE; 9], [GARBAGE; 5]);
        let ours = ffi::Record { words, len, polarity }.build(self.origin, &choice, &mut inventory, &mut spill);
        self.equal(case, "build", ours, Err(refusal));
        self.equal(case, "buffers after a refused build", (inventory, spill), ([GARBAGE; 9], [GARBAGE; 5]));
    }

    /// The Rust is to panic where we refuse; up to its own limit of M it may build.
    fn refused(&mut self, case: &Case, refusal: u32) {
        self.refusals += 1;
        let &Case { words, len, polarity, choice } = case;
        self.planned(case, model::plan(words, len, polarity, &choice));
        self.refused_build(case, refusal);
        if refusal == BAD_CODE {
            return;
        }
        let within = choice.log2 <= reference::MAX_LOG2_WORDS;
        if choice.kind == FIXED && (choice.value > 63 || !within) {
            self.known.add(&format!("refusal {refusal}, where the Rust does not compile (fixed)"), case, "");
        } else {
            match catch_unwind(AssertUnwindSafe(|| reference::build(words, len, polarity, &choice).is_some())) {
                Err(panic) => {
                    self.known.add(&format!("refusal {refusal}, where the Rust panics"), case, message(&panic))
                }
                Ok(true) if refusal == 4 && within => {
                    self.known.add("refusal 4, where the Rust, whose own limit is higher, builds an index", case, "")
                }
                Ok(true) => self.difference(case, format!("refusal {refusal}, but the Rust builds an index")),
                Ok(false) => self.skipped.add("the Rust, for a fixed pair not compiled in", case, ""),
            }
        }
    }

    fn built(&mut self, case: &Case) {
        let &Case { words, len, polarity, choice } = case;
        let origin = self.origin;
        let model = model::built(words, len, origin, polarity, &choice, usize::MAX, usize::MAX).expect("size answered");
        self.see_entries(&model);
        let summary = model.summary;
        self.planned(case, Ok(Summary { origin: 0, inventory: 0, spill: 0, ..summary }));

        // Ours, into buffers of garbage, some longer than need be.
        let past = (self.cases % 3) as usize;
        let mut inventory = vec![GARBAGE; model.inventory.len() + past];
        let mut spill = vec![GARBAGE; model.spill.len() + past];
        let record = ffi::Record { words, len, polarity };
        let ours = record.build(origin, &choice, &mut inventory, &mut spill);
        self.equal(case, "build's summary", ours, Ok(summary));
        let (cells, kept) = inventory.split_at(model.inventory.len());
        let (spilled, kept_spill) = spill.split_at(model.spill.len());
        self.equal(case, "inventory (model)", cells, &model.inventory);
        self.equal(case, "spill (model)", spilled, &model.spill);
        self.equal(case, "cells past the counts", kept.iter().chain(kept_spill).all(|&c| c == GARBAGE), true);
        self.equal(case, "check", record.check(origin, &choice, &summary, &inventory, &spill), Ok(true));
        let other = Summary { origin: [origin ^ 1, u64::MAX][past % 2], ..summary };
        let check = record.check(origin, &choice, &other, &inventory, &spill);
        self.equal(case, "check of another origin", check, Ok(false));
        self.cells += (cells.len() + spilled.len()) as u64;
        let index = ffi::Index { words, summary: &summary, inventory: &inventory, spill: &spill };
        self.reads(case, &index);
        self.lists(case, &index);

        // The Rust.
        let theirs = match catch_unwind(AssertUnwindSafe(|| reference::build(words, len, polarity, &choice))) {
            Ok(Some(theirs)) => theirs,
            Ok(None) => return self.skipped.add("the Rust, for a fixed pair not compiled in", case, ""),
            Err(panic) => return self.difference(case, format!("the Rust panics: {}", message(&panic))),
        };
        let [n, l, m, s] = theirs.parameters();
        let ours = [summary.n, summary.l, summary.m, summary.s];
        self.equal(case, "N, L, M, S (Rust)", ours, [n, l, m, s]);
        self.equal(case, "inventory (Rust)", cells, as_u64(theirs.inventory()));
        self.equal(case, "spill (Rust)", spilled, as_u64(theirs.spill()));
        self.selects(case, &index, theirs.as_ref(), n);
    }

    /// Hint, store and dwell, which the Rust has not, at a few ranks.
    fn reads(&mut self, case: &Case, ours: &ffi::Index) {
        let &ffi::Index { words, summary, inventory, spill } = ours;
        let model = model::Index { words, summary, inventory, spill };
        for rank in [0, summary.n / 3, summary.n.saturating_sub(1), summary.n] {
            self.equal(case, "hint", ours.hint(rank), model.hint(rank));
            self.equal(case, "store", ours.store(rank), model.store(rank));
            self.equal(case, "dwell", ours.dwell(summary.n / 3, rank), model.dwell(summary.n / 3, rank));
        }
    }

    /// Lists, which the Rust has not: the single jumps' positions, for no more words than those read.
    fn lists(&mut self, case: &Case, ours: &ffi::Index) {
        let &ffi::Index { words, summary, inventory, spill } = ours;
        let model = model::Index { words, summary, inventory, spill };
        let random = Random::new(self.cases);
        // The smallest records are many.
        let lists = if words.len() <= 2 { 1 } else { 4 };
        for _ in 0..lists {
            let list = List::random(&random, summary.n);
            let (found, expected) = (list.ours(ours), list.expected(&model));
            *self.lists.entry(expected.as_ref().err().copied().unwrap_or(0)).or_default() += 1;
            if found != expected {
                self.difference(case, format!("{list:?}: ours {found:?}, expected {expected:?}"));
            } else if let Ok((places, total)) = found {
                let singles: Vec<_> = list.ranks.iter().map(|&rank| jump(ours, rank)).collect();
                let same = singles.iter().zip(&places).all(|(single, place)| single.0 == *place);
                let most: u64 = singles.iter().map(|single| single.1).sum();
                if !same || total > most {
                    let what = format!("{list:?}: {places:?} for {total} words, single jumps {singles:?}");
                    self.difference(case, what);
                }
            }
        }
    }

    /// The Rust's positions against our sample numbers less the origin.
    fn selects(&mut self, case: &Case, index: &ffi::Index, theirs: &dyn Reference, n: u64) {
        let position = |rank| index.select(rank).map(|sample| sample.wrapping_sub(index.summary.origin));
        for rank in 0..n {
            if Some(position(rank)) != theirs.position(rank).map(Ok) {
                let (ours, theirs) = (position(rank), theirs.position(rank));
                return self.difference(case, format!("select of rank {rank}: ours {ours:?}, the Rust's {theirs:?}"));
            }
        }
        self.selects += n + 1;
        self.equal(case, "select of rank N", index.select(n), Err(8));
        self.equal(case, "the Rust's select of rank N", theirs.position(n), None);
    }

    fn see_entries(&mut self, model: &model::Built) {
        let at = if model.summary.m == 0 { "M 0" } else { "M above 0" };
        let step = (1usize << model.summary.m) + 1;
        let last = model.inventory.len() - 1;
        // From the back: the second cell of the next entry that has one, or the spill count, tells what was spilled.
        let mut after = model.summary.spill;
        for entry in (0..last).step_by(step).rev() {
            let (first, second) = (model.inventory[entry], model.inventory[entry + 1]);
            let seen = if first >> 63 == 0 {
                "U16".to_string()
            } else {
                let kind = if first >> 62 == 2 { "U32" } else { "U64" };
                let spills = if after > second { "with spill" } else { "without spill" };
                after = second;
                format!("{kind} {spills}, {at}")
            };
            *self.entries.entry(seen).or_default() += 1;
        }
    }

    pub fn print(&self) {
        let Tally { cases, cells, selects, refusals, .. } = self;
        let lists: u64 = self.lists.values().sum();
        println!("compared: {cases} cases, {cells} cells, {selects} selects, {refusals} refusals, {lists} lists");
        println!("how the lists came out: {}", said(&self.lists));
        println!("origins past the limit: {} builds and as many checks refused by 14", self.refused_origins);
        println!("entries met:");
        for (kind, times) in &self.entries {
            println!("  {kind}: {times}");
        }
        self.known.print("known, intended differences between the Rust and document 01 (ours and the model agree):");
        self.skipped.print("skipped (ours and the model compared as far as said):");
        println!("differences: {}", self.differences);
    }
}

/// How often a call answered, and how often each refusal was said.
pub fn said(outcomes: &BTreeMap<u32, u64>) -> String {
    let said = |(k, n): (&u32, &u64)| if *k == 0 { format!("answered {n}") } else { format!("{k}: {n}") };
    outcomes.iter().map(said).collect::<Vec<_>>().join(", ")
}

/// The sample number a single jump on a built index gives and the words it reads: mark's word to answer's word, both
/// counted; a U64 rank reads none.
fn jump(index: &ffi::Index, rank: u64) -> (u64, u64) {
    let (Ok(sample), Ok((mark, _))) = (index.select(rank), index.hint(rank)) else { return (u64::MAX, 0) };
    let word = |sample: u64| sample.wrapping_sub(index.summary.origin) / 64;
    let entry = (rank >> index.summary.l) * ((1 << index.summary.m) + 1);
    let exact = index.inventory[entry as usize] >> 62 == 3;
    (sample, if exact { 0 } else { word(sample) - word(mark) + 1 })
}

fn as_u64(cells: &[usize]) -> &[u64] {
    // Both are 64 bits: document 01 leaves out other targets.
    unsafe { std::slice::from_raw_parts(cells.as_ptr().cast(), cells.len()) }
}

fn message(panic: &Box<dyn std::any::Any + Send>) -> &str {
    match (panic.downcast_ref::<String>(), panic.downcast_ref::<&str>()) {
        (Some(text), _) => text,
        (_, Some(text)) => text,
        _ => "panic",
    }
}

/// Everything but the records past 2^32 bits.
pub fn run(tally: &mut Tally, quick: bool) {
    let random = Random::new(1);
    let share = if quick { 8 } else { 1 };

    let started = Instant::now();
    let choices = small_choices();
    for len in 0..=10u64 {
        for bits in 0..1u64 << len {
            for polarity in [ONES, ZEROS] {
                // Dirty padding and an extra word.
                let words = [bits | random.next() << len, random.next()];
                for (i, &choice) in choices.iter().enumerate() {
                    if (bits as usize + i).is_multiple_of(share) {
                        tally.compare(&Case { words: &words[..1 + i % 2], len, polarity, choice });
                    }
                }
            }
        }
    }
    tally.group(&format!("all records up to 10 bits, {} choices, both polarities", choices.len()), started);

    let started = Instant::now();
    for _ in 0..40_000 / share {
        let boundary = 64 * (1 + random.below(if random.one_in(10) { 60 } else { 8 }));
        let len = boundary + random.below(5) - 2;
        let polarity = random.below(2) as u32;
        let count = len.div_ceil(64) + random.below(3);
        let words = random_words(&random, count as usize);
        let choice = random_choice(&random);
        tally.compare(&Case { words: &words, len, polarity, choice });
    }
    tally.group("random lengths within 2 of a word boundary, dirty padding, extra words", started);

    spans(tally, &random, quick);
    cut_short(tally, &random, share);
    large_m(tally, &random, quick);

    let started = Instant::now();
    for choice in extreme_choices() {
        let dense: Vec<u64> = (0..60).collect();
        for positions in [&[][..], &[0], &[1, 4, 6, 9], &[0, 65_539], &dense, &[3, 70_000, 140_000]] {
            let len = positions.last().map_or(random.below(3), |p| p + 1 + random.below(3));
            for polarity in [ONES, ZEROS] {
                let words = record(positions, len, polarity, 0, || random.next());
                tally.compare(&Case { words: &words, len, polarity, choice });
            }
        }
    }
    tally.group("all five choices at and past their limits", started);

    let started = Instant::now();
    refused_records(tally);
    tally.group("lengths and words that are refused", started);

    let started = Instant::now();
    in_words(tally, &random, 20_000 / share as u64);
    let seconds = started.elapsed().as_secs_f64();
    println!("  in-word select: every byte at every place, random words, all ranks, {seconds:.1} s");
}

/// Exact spans around 65,536, 131,072 and each doubling; U32 with and without spill.
fn spans(tally: &mut Tally, random: &Random, quick: bool) {
    let started = Instant::now();
    let doublings = if quick { 16..=18 } else { 16..=24 };
    for log2 in doublings {
        for off in [-1i64, 0, 1] {
            let span = ((1i64 << log2) + off) as u64;
            for l in [0u64, 1, 2, 3, 5, 8, 10, 12] {
                for m in 0..4 {
                    // Large spans are slow, and differ from small ones only in q: fewer of them.
                    if log2 > 20 && !(l + m as u64 + off as u64).is_multiple_of(4) {
                        continue;
                    }
                    let count = 1 << l;
                    let last = 1 + random.below(count);
                    let two = [span, random.pick(&[span, 65_536, 65_537, 100_000])];
                    let (positions, len) = exact_spans(random, count, &two, last);
                    for (polarity, choice) in [
                        (ONES, power(l, m)),
                        (ZEROS, power(l, m)),
                        (random.below(2) as u32, fixed(l, m)),
                        (random.below(2) as u32, fixed(l, m)),
                    ] {
                        let words = record(&positions, len, polarity, random.below(2) as usize, || random.next());
                        tally.compare(&Case { words: &words, len, polarity, choice });
                    }
                }
            }
        }
    }
    tally.group("exact spans around 2^16 and each doubling, power and fixed, M 0 to 3", started);
}

/// Last entries cut short, of every kind: one bit, one short of a mark, a mark, one more, one short of full.
fn cut_short(tally: &mut Tally, random: &Random, share: usize) {
    let started = Instant::now();
    for round in 0..480 / share as u64 {
        for l in [1u64, 2, 4, 6, 9, 11] {
            for m in 0..4 {
                let full = 1u64 << l;
                let quantum = 1u64 << random.below(l);
                let last = random.pick(&[1, quantum - 1, quantum, quantum + 1, full - 1, full]).clamp(1, full);
                let narrow = full + random.below(3000);
                let wide = 65_537 + random.below(200_000);
                let spans = [random.pick(&[narrow, wide]), if round % 2 == 0 { narrow } else { wide }];
                let (positions, len) = exact_spans(random, full, &spans, last);
                let polarity = random.below(2) as u32;
                let choice = if round % 3 == 0 { fixed(l, m) } else { Choice { kind: POWER, ..fixed(l, m) } };
                let words = record(&positions, len, polarity, 0, || random.next());
                tally.compare(&Case { words: &words, len, polarity, choice });
            }
        }
    }
    tally.group("last entries cut short, U16 and U32", started);
}

/// Indexes whose M is up to the limit, and choices that give it as the maximum.
fn large_m(tally: &mut Tally, random: &Random, quick: bool) {
    let started = Instant::now();
    for l in [8u64, 10, 12, 13] {
        for m in if quick { MAX_LOG2_WORDS } else { 4 }..=MAX_LOG2_WORDS {
            for first in [1 << l, 65_536, 65_537, 131_072, 1 << 20] {
                let count = 1 << l;
                let spans = [first, random.pick(&[count, 65_537, 200_000])];
                let (positions, len) = exact_spans(random, count, &spans, 1 + random.below(count));
                let span = span(1 << random.pick(&[12, 14, 17]), m);
                for choice in [power(l, m), span, overhead(random.pick(&[1.0, 10.0]), m)] {
                    for polarity in [ONES, ZEROS] {
                        let words = record(&positions, len, polarity, 0, || random.next());
                        tally.compare(&Case { words: &words, len, polarity, choice });
                    }
                }
            }
        }
    }
    tally.group("M 4 to the limit, U16 and U32", started);
}

/// Refusals 1 and 2, and several conditions at once: the first in the order is said.
fn refused_records(tally: &mut Tally) {
    let words = [0x252, 0, 7];
    let choices = [
        default(),
        span(64, OVER),
        power(64, OVER),
        overhead(f64::NAN, 60),
        overhead(0.0, 3),
        fixed(64, OVER),
        fixed(0, OVER),
    ];
    for choice in choices {
        for polarity in [ONES, ZEROS] {
            for len in [1 << 62, (1 << 62) + 1, u64::MAX, 1 << 63, (1 << 62) - 1, 65, 128, 129, 192, 193, 1 << 40] {
                for count in 0..=3 {
                    tally.compare(&Case { words: &words[..count], len, polarity, choice });
                }
            }
        }
    }
    // Codes that are none.
    for (polarity, kind) in [(2, 0), (u32::MAX, 1), (0, 5), (1, u32::MAX), (7, 7)] {
        let choice = Choice { kind, ..power(64, OVER) };
        tally.compare(&Case { words: &words, len: u64::MAX, polarity, choice });
        tally.compare(&Case { words: &words, len: 10, polarity, choice });
    }
}

/// In-word select against the Rust below the word's ones, where what remains is the ones less the rank less one, and
/// against the model at any rank.
fn in_words(tally: &mut Tally, random: &Random, count: u64) {
    use sux::utils::SelectInWord;
    let bytes = (0..256u64).flat_map(|byte| (0..8).map(move |place| byte << (8 * place)));
    let others =
        (0..count).map(|i| if i % 2 == 0 { random.next() } else { random.next() & random.next() & random.next() });
    for word in bytes.chain(others.collect::<Vec<_>>()).chain([0, u64::MAX]) {
        for rank in (0..=65).chain([255, 256, 1 << 32, u64::MAX]) {
            let case = Case { words: &[word], len: 64, polarity: ONES, choice: default() };
            let ours = ffi::select_in_word(word, rank);
            tally.equal(&case, "in-word select", ours, model::select_in_word(word, rank));
            let ones = word.count_ones() as u64;
            if rank < ones {
                let position = word.select_in_word(rank as usize) as u64;
                tally.equal(&case, "in-word select (Rust)", ours, Ok((position, ones - rank - 1)));
            }
        }
    }
}

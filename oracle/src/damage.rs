//! Jump, hint, store, dwell, list and check on damaged summaries and cells, against the model; and count, plan, size and
//! build on damaged records, choices and buffers; all from origins that are accepted and from others.

use crate::cases::*;
use crate::compare::{Case, said};
use crate::ffi;
use crate::list::List;
use crate::model::{self, Answer, Built, Choice, MAX_LOG2_WORDS, ONES, Summary};
use crate::random::Random;
use std::collections::BTreeMap;
use std::fmt::{Debug, Display, Formatter};
use std::time::Instant;

/// The two bits of the tag.
const TAG: u64 = 3 << 62;

/// Everything a call may take; damaged in place.
#[derive(Clone)]
pub struct Input {
    pub words: Vec<u64>,
    pub len: u64,
    pub origin: u64,
    pub polarity: u32,
    pub choice: Choice,
    pub summary: Summary,
    pub inventory: Vec<u64>,
    pub spill: Vec<u64>,
}

impl Display for Input {
    fn fmt(&self, f: &mut Formatter) -> std::fmt::Result {
        let Input { words, len, origin, polarity, choice, summary, inventory, spill } = self;
        let case = Case { words, len: *len, polarity: *polarity, choice: *choice };
        writeln!(f, "{case}, origin {origin}\n  {summary:?}")?;
        writeln!(f, "  inventory of {}: {}", inventory.len(), first(inventory))?;
        write!(f, "  spill of {}: {}", spill.len(), first(spill))
    }
}

/// The first cells, to print.
pub fn first(cells: &[u64]) -> String {
    cells.iter().take(12).map(|c| format!("{c:#x}")).collect::<Vec<_>>().join(", ")
}

/// After this many differences no more are printed.
const MOST_PRINTED: u64 = 20;

#[derive(Default)]
pub struct Tally {
    pub calls: u64,
    pub differences: u64,
    /// For each call, how often it answered and how often each refusal was said.
    outcomes: BTreeMap<&'static str, BTreeMap<u32, u64>>,
}

impl Tally {
    /// Whether they are.
    pub fn equal<T: PartialEq + Debug>(
        &mut self,
        call: &'static str,
        input: &impl Display,
        ours: Answer<T>,
        model: Answer<T>,
    ) -> bool {
        self.calls += 1;
        let outcome = model.as_ref().err().copied().unwrap_or(0);
        *self.outcomes.entry(call).or_default().entry(outcome).or_default() += 1;
        let same = ours == model;
        if !same {
            self.differences += 1;
            if self.differences <= MOST_PRINTED {
                println!("DIFFERENCE: {call}: ours {:.300}, model {:.300}", format!("{ours:?}"), format!("{model:?}"));
                println!("  {input}");
            }
        }
        same
    }

    /// How each call came out; the number of differences.
    pub fn print(&self) -> u64 {
        for (call, outcomes) in &self.outcomes {
            println!("  {call}: {}", said(outcomes));
        }
        println!("differences: {}", self.differences);
        self.differences
    }
}

/// At least `calls` calls of jump, hint, store, dwell and check; the number of differences.
pub fn run(calls: u64) -> u64 {
    let started = Instant::now();
    let random = Random::new(2);
    let bases = bases(&random);
    let mut tally = Tally::default();
    let mut input = bases[0].clone();
    let mut rounds = 0u64;
    // Lists and origins draw from streams of their own, so that the rest is drawn the same with them and without.
    let (list_random, origin_random) = (Random::new(6), Random::new(7));
    worked_lists(&mut tally);
    foreign_lists(&mut tally, &list_random, &origin_random);
    let (mut lists, mut others) = (tally.calls, 0);
    while tally.calls - others - lists < calls {
        let base = &bases[random.below(bases.len() as u64) as usize];
        input.clone_from(base);
        if random.one_in(6) {
            foreign(&random, &mut input);
        }
        renumber(&origin_random, &mut input);
        let damages = random.pick(&[0, 1, 1, 1, 1, 2, 2, 3, 5]);
        for _ in 0..damages {
            let other = &bases[random.below(bases.len() as u64) as usize];
            damage(&random, &mut input, other);
        }
        read_calls(&mut tally, &random, &input);
        if rounds.is_multiple_of(4) {
            let before = tally.calls;
            build_calls(&mut tally, &random, &input);
            others += tally.calls - before;
        }
        let before = tally.calls;
        damaged_lists(&mut tally, &list_random, &mut input);
        lists += tally.calls - before;
        rounds += 1;
    }
    let (good, reads, seconds) = (bases.len(), tally.calls - others - lists, started.elapsed().as_secs_f64());
    println!("damage: {good} indexes, {rounds} damaged copies, {reads} calls of jump, hint, store, dwell and check,");
    println!("  {others} of count, plan, size and build, {lists} lists, {seconds:.1} s; how each call came out:");
    tally.print()
}

/// A good index, with room past the counts: by the model, which compare holds against the Rust.
pub fn base(random: &Random, words: Vec<u64>, len: u64, polarity: u32, choice: Choice) -> Input {
    let built = model::built(&words, len, 0, polarity, &choice, usize::MAX, usize::MAX).expect("a lawful choice");
    let (mut inventory, mut spill) = (built.inventory, built.spill);
    inventory.extend((0..random.below(4)).map(|_| random.next()));
    spill.extend((0..random.below(4)).map(|_| random.next()));
    Input { words, len, origin: 0, polarity, choice, summary: built.summary, inventory, spill }
}

/// Good indexes to damage.
pub fn bases(random: &Random) -> Vec<Input> {
    let mut all = Vec::new();
    let mut add = |random: &Random, words: Vec<u64>, len: u64, polarity: u32, choice: Choice| {
        all.push(base(random, words, len, polarity, choice));
    };
    for choice in [default(), power(1, 0), power(0, 3), fixed(1, 1), fixed(2, 3), span(5, 2), overhead(100.0, 3)] {
        for polarity in [ONES, 1] {
            add(random, vec![0x252], 10, polarity, choice);
            add(random, vec![], 0, polarity, choice);
            add(random, vec![random.next(), random.next()], 128, polarity, choice);
        }
    }
    for _ in 0..40 {
        let len = 1 + random.below(3000);
        let words = random_words(random, len.div_ceil(64) as usize + random.below(3) as usize);
        let (polarity, choice) = (random.below(2) as u32, random_choice(random));
        add(random, words, len, polarity, choice);
    }
    // U32 entries, with spill and without.
    for _ in 0..40 {
        let (l, m) = (random.below(9), random.below(4) as u32);
        let wide = 65_537 + random.below(80_000);
        let narrow = (1 << l) + random.below(600);
        let (a, b, last) = (random.pick(&[wide, narrow]), random.pick(&[wide, 70_000]), 1 + random.below(1 << l));
        let (positions, len) = exact_spans(random, 1 << l, &[a, b, narrow], last);
        let (polarity, extra) = (random.below(2) as u32, random.below(2) as usize);
        let words = record(&positions, len, polarity, extra, || random.next());
        add(random, words, len, polarity, if random.one_in(2) { power(l, m) } else { fixed(l, m) });
    }
    all
}

/// An origin, on which no cell depends; now and then another, mostly past the limit, is handed in, in the summary, or
/// both. Before other damage, which may then move a length past the limit too.
pub fn renumber(random: &Random, input: &mut Input) {
    let first = origin(random, input.len);
    let second = if random.one_in(4) { origin(random, input.len) } else { origin_past(random, input.len) };
    (input.origin, input.summary.origin) = match random.below(20) {
        0 => (second, first),
        1 => (first, second),
        2 => (second, second),
        _ => (first, first),
    };
}

/// Summary and cells that no build wrote, but that obey the rules of refusal 9: random tags, U64 entries among them,
/// with starts, second cells and offsets that often lead to an answer.
pub fn foreign(random: &Random, input: &mut Input) {
    let (l, m) = (random.below(8), random.below(5));
    let n = random.below(input.len.min(2000) + 1);
    let step = (1 << m) + 1;
    let entries = n.div_ceil(1 << l);
    let spill = random.below(60);
    let len = input.len;
    let s = l.saturating_sub(m + 2);
    let inventory = entries * step + 1;
    input.summary = Summary { polarity: random.below(2), len, n, origin: 0, l, m, s, inventory, spill };
    let close = || random.below(len / 8 + 2);
    let cell = || match random.below(4) {
        0 => random.below(len + 2),
        1 => (0..4).fold(0, |cell, _| (cell << 16) + close() % (1 << 16)),
        2 => (0..2).fold(0, |cell, _| (cell << 32) + close() % (1 << 32)),
        _ => (0..4).fold(0, |cell, _| (cell << 16) + random.below(300)),
    };
    input.inventory = (0..inventory).map(|_| cell()).collect();
    input.spill = (0..spill).map(|_| cell()).collect();
    // From the back, so that an entry may still move the next one's start and make its own U32 span lawful.
    for e in (0..entries).rev() {
        let at = (e * step) as usize;
        let start = close() + if random.one_in(3) { random.below(len + 1) } else { 0 };
        let tag = random.pick(&[0, 0, 2, 2, 3, 3]);
        input.inventory[at] = tag << 62 | start;
        if tag != 0 {
            input.inventory[at + 1] = random.below(spill + 2);
        }
        if tag == 2 && random.one_in(2) {
            let next = &mut input.inventory[at + step as usize];
            let span = random.pick(&[65_536, 65_537, 131_071, 131_072, 1 << 32, 1 << 40]);
            *next = *next & TAG | (start + span);
        }
    }
}

/// A number near one that matters.
fn near(random: &Random, input: &Input) -> u64 {
    let limits =
        [0, 1, 63, 64, MAX_LOG2_WORDS as u64, OVER as u64, 65_536, 65_537, 1 << 32, 1 << 62, 1 << 63, random.next()];
    let Summary { len, n, inventory, spill, .. } = input.summary;
    let centre =
        if random.one_in(2) { random.pick(&limits) } else { random.pick(&[input.len, len, n, inventory, spill]) };
    centre.wrapping_add(random.below(5)).wrapping_sub(2)
}

pub fn damage(random: &Random, input: &mut Input, other: &Input) {
    let step = (1u64 << input.summary.m.min(MAX_LOG2_WORDS as u64)) + 1;
    let entry = (random.below(input.inventory.len() as u64 / step + 1) * step) as usize;
    let value = near(random, input);
    let any = |random: &Random, cells: &[u64]| random.below(cells.len() as u64) as usize;
    match random.below(20) {
        // Flipped bits.
        0 | 1 => {
            let cells = if random.one_in(3) { &mut input.spill } else { &mut input.inventory };
            for _ in 0..1 + random.below(3) {
                let i = any(random, cells);
                if let Some(cell) = cells.get_mut(i) {
                    *cell ^= 1 << random.below(64);
                }
            }
        }
        // Swapped cells.
        2 if !input.inventory.is_empty() => {
            let (i, j) = (any(random, &input.inventory), any(random, &input.inventory));
            input.inventory.swap(i, j);
        }
        3 if !input.spill.is_empty() && !input.inventory.is_empty() => {
            let (i, j) = (any(random, &input.inventory), any(random, &input.spill));
            std::mem::swap(&mut input.inventory[i], &mut input.spill[j]);
        }
        // One field of the summary; 2^32 more shows a field that is cut to 32 bits.
        4 | 5 => {
            let mut fields: [u64; 9] = input.summary.into();
            let field = &mut fields[random.below(9) as usize];
            *field = match random.below(5) {
                0 => field.wrapping_add(1),
                1 => field.wrapping_sub(1),
                2 => field.wrapping_add(1 << 32),
                3 => random.below(70),
                _ => value,
            };
            input.summary = fields.into();
        }
        // The polarity alone.
        6 => input.summary.polarity ^= 1,
        // Tags.
        7 | 8 => {
            if let Some(cell) = input.inventory.get_mut(entry) {
                *cell = *cell & !TAG | random.below(4) << 62;
            }
        }
        // Second cells, those near 2^64 among them.
        9 => {
            if let Some(cell) = input.inventory.get_mut(entry + 1) {
                *cell = random.pick(&[
                    value,
                    u64::MAX - random.below(9),
                    random.below(input.summary.spill.saturating_add(3)),
                ]);
            }
        }
        // Spans: the entry's or the next start.
        10 | 11 => {
            let start = input.inventory.get(entry).map_or(0, |c| c & !TAG);
            if let Some(next) = input.inventory.get_mut(entry + step as usize) {
                let span =
                    random.pick(&[0, 32_767, 65_535, 65_536, 65_537, 131_071, 131_072, 1 << 32, 1 << 33, 1 << 61]);
                *next = *next & TAG | start.wrapping_add(span) & !TAG;
            }
        }
        // A cell with a value that matters.
        12 => {
            let cells = if random.one_in(3) { &mut input.spill } else { &mut input.inventory };
            let i = any(random, cells);
            if let Some(cell) = cells.get_mut(i) {
                *cell = value;
            }
        }
        // Lengths.
        13 => {
            let len = input.len;
            input.summary.len = random.pick(&[value, len.wrapping_sub(1), len.wrapping_add(1), random.below(len)]);
        }
        14 => input.len = random.pick(&[value, input.len.wrapping_sub(1), input.len.wrapping_add(1)]),
        // Buffers cut short.
        15 => {
            let most = input.summary.inventory.saturating_sub(random.below(2));
            input.inventory.truncate(random.pick(&[random.below(4), most]) as usize);
        }
        16 => match random.below(2) {
            0 => input.spill.truncate(random.pick(&[0, input.summary.spill.saturating_sub(random.below(2))]) as usize),
            _ => input.words.truncate(random.below(input.words.len() as u64 + 1) as usize),
        },
        // A foreign summary, as it is or made lawful for these cells by another N.
        17 => input.summary = if random.one_in(2) { other.summary } else { lawful(random, input) },
        // The record changed under its index.
        18 => {
            let i = any(random, &input.words);
            if let Some(word) = input.words.get_mut(i) {
                *word ^= random.pick(&[1 << (value % 64), u64::MAX, value]);
            }
        }
        // Another choice, one past the limits, another polarity; a summary by the rules but for its M.
        _ => match random.below(5) {
            0 => input.choice = other.choice,
            1 => input.choice = Choice { kind: input.choice.kind, ..unlawful(random, value) },
            2 => input.choice = unlawful(random, value),
            3 => input.polarity = random.pick(&[0, 1, 1 - input.polarity.min(1), 2]),
            _ => {
                let (n, m) = (random.below(2), OVER as u64);
                let inventory = n * ((1 << m) + 1) + 1;
                input.inventory.resize(inventory as usize, value);
                input.summary = Summary { n, l: 0, m, s: 0, inventory, ..input.summary };
            }
        },
    }
}

/// A choice with one number or several at or past a limit.
fn unlawful(random: &Random, value: u64) -> Choice {
    random.pick(&[
        span(value, OVER),
        power(value, MAX_LOG2_WORDS),
        power(64, OVER),
        overhead(f64::NAN, OVER),
        overhead(0.0, 3),
        overhead(f64::INFINITY, MAX_LOG2_WORDS),
        fixed(64, OVER),
        fixed(0, MAX_LOG2_WORDS),
        Choice { kind: 5, ..fixed(64, OVER) },
    ])
}

/// A summary within the rules of refusal 9 whose cells are these, read with another N, L and M.
fn lawful(random: &Random, input: &Input) -> Summary {
    let (l, m) = (random.below(12), random.below(5));
    let entries = (input.inventory.len() as u64).saturating_sub(1) / ((1 << m) + 1);
    let entries = random.below(entries + 1);
    let n = (entries << l).saturating_sub(random.below(1 << l)).min(input.summary.len);
    let inventory = n.div_ceil(1 << l) * ((1 << m) + 1) + 1;
    let spill = random.below(input.spill.len() as u64 + 1);
    Summary { n, l, m, s: l.saturating_sub(m + 2), inventory, spill, ..input.summary }
}

fn rank(random: &Random, n: u64) -> u64 {
    match random.below(16) {
        0 => n,
        1 => n.wrapping_add(random.below(3)),
        2 => n.wrapping_sub(1),
        3 => random.next(),
        4 => 0,
        _ => random.below(n),
    }
}

pub fn read_calls(tally: &mut Tally, random: &Random, input: &Input) {
    let Input { words, len, origin, polarity, choice, summary, inventory, spill } = input;
    let ours = ffi::Index { words, summary, inventory, spill };
    let model = model::Index { words, summary, inventory, spill };
    for _ in 0..3 {
        let r = rank(random, summary.n);
        tally.equal("jump", input, ours.select(r), model.select(r));
        tally.equal("hint", input, ours.hint(r), model.hint(r));
        let store = model.store(r);
        let call = if store.is_ok_and(|part| part.0 == 2) { "store, of the spill" } else { "store" };
        tally.equal(call, input, ours.store(r), store);
        let (mut a, mut b) = (r, rank(random, summary.n));
        if a > b && !random.one_in(4) {
            (a, b) = (b, a);
        }
        tally.equal("dwell", input, ours.dwell(a, b), model.dwell(a, b));
    }
    let record = ffi::Record { words, len: *len, polarity: *polarity };
    let model = model::check(&model, *len, *origin, *polarity, choice);
    let call = if model == Ok(true) { "check, yes" } else { "check" };
    tally.equal(call, input, record.check(*origin, choice, summary, inventory, spill), model);
}

/// The build over the damaged buffers: its cells, those past the counts, and all of them on a refusal.
fn build_calls(tally: &mut Tally, random: &Random, input: &Input) {
    let Input { words, len, origin, polarity, inventory, spill, .. } = input;
    let choice = &if random.one_in(4) { unlawful(random, near(random, input)) } else { input.choice };
    let record = ffi::Record { words, len: *len, polarity: *polarity };
    tally.equal("count", input, record.count(), model::count(words, *len, *polarity));
    tally.equal("plan", input, record.plan(choice), model::plan(words, *len, *polarity, choice));
    tally.equal("size", input, record.size(choice), model::size(words, *len, *polarity, choice));

    let (mut inv, mut spl) = (inventory.clone(), spill.clone());
    let ours = record.build(*origin, choice, &mut inv, &mut spl).map(|summary| (summary, inv.clone(), spl.clone()));
    let model = model::built(words, *len, *origin, *polarity, choice, inventory.len(), spill.len()).map(|built| {
        let past = &inventory[built.inventory.len()..];
        let past_spill = &spill[built.spill.len()..];
        (built.summary, [&built.inventory, past].concat(), [&built.spill, past_spill].concat())
    });
    let refused = model.is_err();
    tally.equal("build", input, ours, model);
    if refused {
        let kept = inv == *inventory && spl == *spill;
        tally.equal("build, cells kept on a refusal", input, Ok(kept), Ok(true));
    }
}

/// A record of one word under a summary, for lists.
pub fn one_word(word: u64, summary: Summary, cells: &[u64]) -> Input {
    Input {
        words: vec![word],
        len: summary.len,
        origin: summary.origin,
        polarity: ONES,
        choice: default(),
        summary,
        inventory: cells.to_vec(),
        spill: Vec::new(),
    }
}

/// Lists of all ranks, worked by hand from document 02.
fn worked_lists(tally: &mut Tally) {
    let foreign = Summary { polarity: 0, len: 4, n: 2, origin: 0, l: 1, m: 0, s: 0, inventory: 3, spill: 0 };
    // Record A, whose bit 0 is sample 100; and from the first origin that is refused.
    let a = Summary { len: 10, n: 4, origin: 100, inventory: 5, ..foreign };
    let past = Summary { origin: MOST_SAMPLES - 9, ..a };
    let cells = [1, 0x30000, 6, 0x30000, 10];
    for (word, summary, cells, expected) in [
        // Single jumps give 1 and 1, 1 and 0, 0 and 0.
        (0b0010, foreign, &[0, 0, 1][..], Err(10)),
        (0b111, foreign, &[0, 1, 4], Ok((vec![1, 2], 1))),
        (1, foreign, &[0, 0, 4], Ok((vec![0, 0], 1))),
        (0b111, Summary { origin: 100, ..foreign }, &[0, 1, 4], Ok((vec![101, 102], 1))),
        (0x252, a, &cells, Ok((vec![101, 104, 106, 109], 1))),
        (0x252, past, &cells, Err(14)),
    ] {
        let input = one_word(word, summary, cells);
        let list = List { ranks: (0..summary.n).collect(), places: summary.n as usize };
        let Input { words, summary, inventory, spill, .. } = &input;
        let model = model::Index { words, summary, inventory, spill };
        assert_eq!(model.list(&list.ranks, list.places), expected, "the model");
        list_call(tally, &input, &list);
    }
    let model = model::Index { words: &[0x252], summary: &a, inventory: &cells, spill: &[] };
    assert_eq!((model.hint(3), model.dwell(0, 3)), (Ok((109, 3)), Ok(8)), "the model");
}

/// Lists over foreign cells of small records, where the walk often goes another way than single jumps.
fn foreign_lists(tally: &mut Tally, random: &Random, origins: &Random) {
    let mut input = one_word(0, Summary::from([0; 9]), &[]);
    for _ in 0..60_000 {
        input.len = 1 + random.below(random.pick(&[20, 300, 3000]));
        input.words = random_words(random, input.len.div_ceil(64) as usize);
        if random.one_in(2) {
            foreign(random, &mut input);
        } else {
            stale(random, &mut input);
        }
        renumber(origins, &mut input);
        list_call(tally, &input, &List::random(random, input.summary.n));
    }
}

/// The index from when the record had half its bits, as it is or with entries bent: its marks lie in the record, and
/// bits are left where a walk goes too far, so that long lists are answered too.
fn stale(random: &Random, input: &mut Input) {
    let (l, m) = (random.pick(&[0, 0, 0, 1, 2, 3, 4, 5, 6]), random.below(4) as u32);
    let (polarity, choice) = (random.below(2) as u32, power(l, m));
    let fewer = |word: &u64| if polarity == ONES { word & random.next() } else { word | random.next() };
    let words: Vec<u64> = input.words.iter().map(fewer).collect();
    let built = model::built(&words, input.len, 0, polarity, &choice, usize::MAX, usize::MAX);
    Built { summary: input.summary, inventory: input.inventory, spill: input.spill } = built.expect("a lawful choice");
    (0..random.below(4)).for_each(|_| bend_entries(random, input));
}

/// Two entries swapped, and one of them perhaps tagged U64, which for L 0 still leads to its start.
fn bend_entries(random: &Random, input: &mut Input) {
    let step = (1usize << input.summary.m.min(MAX_LOG2_WORDS as u64)) + 1;
    let entries = (input.inventory.len() / step) as u64;
    if entries > 0 {
        let (i, j) = (random.below(entries) as usize * step, random.below(entries) as usize * step);
        (0..step).for_each(|k| input.inventory.swap(i + k, j + k));
        if random.one_in(2) {
            input.inventory[i] |= TAG;
        }
    }
}

/// Lists over the damaged copy; now and then two of its entries are bent as well.
fn damaged_lists(tally: &mut Tally, random: &Random, input: &mut Input) {
    if random.one_in(3) {
        bend_entries(random, input);
    }
    for _ in 0..2 {
        list_call(tally, input, &List::random(random, input.summary.n));
    }
}

pub fn list_call(tally: &mut Tally, input: &Input, list: &List) {
    let Input { words, summary, inventory, spill, .. } = input;
    let model = model::Index { words, summary, inventory, spill };
    let expected = list.expected(&model);
    // Where a loop of single jumps would be wrong.
    let positions = expected.as_ref().map(|(places, _)| &places[..list.ranks.len()]);
    let singles: Answer<Vec<u64>> = list.ranks.iter().map(|&rank| model.select(rank)).collect();
    let walked = matches!(expected, Ok(_) | Err(10)) && positions != singles.as_deref();
    let call = if walked { "list, unlike single jumps" } else { "list" };
    let same = tally.equal(call, input, list.ours(&ffi::Index { words, summary, inventory, spill }), expected);
    if !same && tally.differences <= MOST_PRINTED {
        println!("  {list:?}");
    }
}

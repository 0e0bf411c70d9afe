//! Rank, next, previous and the walker against the model: on built indexes, on damaged ones, and on foreign cells whose starts
//! rise or just fail to. On an index that the check says yes to, also the promises that join them to jump.

use crate::cases::*;
use crate::damage::{self, Input, Tally};
use crate::ffi;
use crate::model::{self, Answer, ONES, Summary, Walker};
use crate::random::Random;
use std::time::Instant;

/// At least `calls` calls; the number of differences.
pub fn run(calls: u64) -> u64 {
    let started = Instant::now();
    let random = Random::new(9);
    let bases = damage::bases(&random);
    let mut tally = Tally::default();
    worked(&mut tally);
    let mut rounds = 0u64;
    while tally.calls < calls {
        let mut input = random_base(&random, &bases);
        damage::renumber(&random, &mut input);
        if random.one_in(4) {
            damage::damage(&random, &mut input, &bases[random.below(bases.len() as u64) as usize]);
        }
        for _ in 0..4 {
            let sample = sample(&random, &input);
            step_calls(&mut tally, &random, &input, sample);
        }
        rounds += 1;
    }
    let seconds = started.elapsed().as_secs_f64();
    println!("steps: {rounds} indexes, {} calls, {seconds:.1} s; how each call came out:", tally.calls);
    tally.print()
}

/// A built index, or one with foreign cells: any, or with starts that rise but for one now and then.
fn random_base(random: &Random, bases: &[Input]) -> Input {
    let mut input = bases[random.below(bases.len() as u64) as usize].clone();
    match random.below(4) {
        0 => damage::foreign(random, &mut input),
        1 => {
            damage::foreign(random, &mut input);
            rising_starts(random, &mut input);
        }
        2 => rising_starts(random, &mut input),
        _ => {}
    }
    input
}

/// Other starts, of any kind: they rise and stay below the length, as far as there is room, but for one that is set to a value
/// on the limit or past it.
fn rising_starts(random: &Random, input: &mut Input) {
    let Summary { len, n, l, m, .. } = input.summary;
    let (entries, step) = (n.div_ceil(1 << l), (1usize << m) + 1);
    if entries == 0 || entries > len {
        return;
    }
    let starts = rising(random, entries, random.below(len - entries + 1), len);
    for (e, start) in starts.iter().enumerate() {
        input.inventory[e * step] = random.pick(&[0, 0, 2, 3]) << 62 | start;
    }
    if random.one_in(4) {
        let e = random.below(entries) as usize * step;
        let last = e.checked_sub(step).map_or(0, |before| input.inventory[before] % (1 << 62));
        input.inventory[e] = random.pick(&[last, last + 1, len - 1, len, 1 << 62, (1 << 62) + 1, 3 << 62 | len]);
    }
}

/// A sample near one that matters: a start, an edge, either end, or any.
fn sample(random: &Random, input: &Input) -> u64 {
    let Summary { len, origin, l, m, .. } = input.summary;
    let cell = random.below(input.summary.n.div_ceil(1 << l.min(63)) + 1) as usize * ((1 << m.min(10)) + 1);
    let start = input.inventory.get(cell).map_or(0, |cell| cell % (1 << 62));
    let near = random.pick(&[0, len, start, random.below(len + 1), random.below(len + 1)]);
    let sample = origin.wrapping_add(near);
    match random.below(8) {
        0 => sample.wrapping_sub(1),
        1 => sample.wrapping_add(1),
        2 if random.one_in(8) => random.next(),
        _ => sample,
    }
}

/// All five entries at one sample, and a walk of some turns from there; the first walker may be bent.
fn step_calls(tally: &mut Tally, random: &Random, input: &Input, sample: u64) {
    let Input { words, summary, inventory, spill, .. } = input;
    let ours = ffi::Index { words, summary, inventory, spill };
    let model = model::Index { words, summary, inventory, spill };
    let rank = model.rank(sample);
    tally.equal("rank", input, ours.rank(sample), rank);
    let next = model::next(words, summary, sample);
    tally.equal("next", input, ffi::next(words, summary, sample), next);
    let previous = model::previous(words, summary, sample);
    tally.equal("previous", input, ffi::previous(words, summary, sample), previous);
    let walker = model::open(words, summary, sample);
    tally.equal("open", input, ffi::open(words, summary, sample), walker);
    if let (Ok(rank), Ok(next)) = (rank, next)
        && model::check(&model, input.len, input.origin, input.polarity, &input.choice) == Ok(true)
    {
        // The jump to a sample's rank is its next edge, and the rank of that is the rank again; or the rank is N.
        let jump = match ours.select(rank) {
            Err(8) if rank == summary.n => Ok(None),
            other => other.map(Some),
        };
        tally.equal("jump of a rank", input, jump, Ok(next));
        if let Some(edge) = next {
            tally.equal("rank of a jump", input, ours.rank(edge), Ok(rank));
        }
    }
    let mut walker = walker.unwrap_or(Walker {
        len: summary.len,
        polarity: summary.polarity,
        origin: summary.origin,
        place: sample,
    });
    if random.one_in(8) {
        bend(random, &mut walker);
    }
    for _ in 0..random.below(12) {
        let expected = model::turn(words, &walker);
        tally.equal("turn", input, ffi::turn(words, &walker), expected);
        let Ok((_, after)) = expected else { break };
        walker = after;
    }
}

/// One field of a walker, near its limit.
fn bend(random: &Random, walker: &mut Walker) {
    match random.below(6) {
        0 => walker.len = random.pick(&[walker.len.wrapping_add(64), MOST_SAMPLES, MOST_SAMPLES + 1, random.next()]),
        1 => walker.polarity = random.pick(&[walker.polarity ^ 1, 2, 1 << 32, random.next()]),
        2 => walker.origin = origin_past(random, walker.len),
        3 => walker.place = walker.origin.wrapping_sub(1),
        4 => walker.place = walker.origin.wrapping_add(walker.len).wrapping_add(random.below(2)),
        _ => walker.place = random.next(),
    }
}

/// Worked by hand from document 02: record A, whose bit 0 is sample 100, over its own cells and over others.
fn worked(tally: &mut Tally) {
    let a = Summary { polarity: 0, len: 10, n: 4, origin: 100, l: 1, m: 0, s: 0, inventory: 5, spill: 0 };
    let own = [1, 0x30000, 6, 0x30000, 10];
    let ranks: &[(&[u64], &[u64], &[Answer<u64>])] = &[
        (&own, &[100, 101, 102, 104, 105, 109, 110], &[Ok(0), Ok(0), Ok(1), Ok(1), Ok(2), Ok(3), Ok(4)]),
        (&own, &[99, 111], &[Err(17), Err(17)]),
        (&[0, 0, 1, 0, 10], &[100, 101, 102, 110], &[Ok(0), Ok(2), Ok(3), Ok(6)]),
        (&[4, 0, 6, 0, 10], &[102], &[Ok(1)]),
        (&[1, 0, 1, 0, 10], &[100], &[Err(10)]),
        (&[6, 0, 1, 0, 10], &[100], &[Err(10)]),
        (&[1, 0, 10, 0, 10], &[100], &[Err(10)]),
        (&[(1 << 62) + 1, 0, 6, 0, 10], &[100], &[Err(10)]),
    ];
    for (cells, samples, expected) in ranks {
        let input = damage::one_word(0x252, a, cells);
        let Input { words, summary, inventory, spill, .. } = &input;
        let ours = ffi::Index { words, summary, inventory, spill };
        for (&sample, &rank) in samples.iter().zip(*expected) {
            tally.equal("rank", &input, ours.rank(sample), rank);
            let model = model::Index { words, summary, inventory, spill };
            tally.equal("rank by the model", &input, model.rank(sample), rank);
        }
    }
    let input = damage::one_word(0x252, a, &own);
    let words = &input.words;
    for (sample, next, previous) in [
        (101, Ok(Some(101)), Ok(None)),
        (110, Ok(None), Ok(Some(109))),
        (99, Err(17), Err(17)),
        (111, Err(17), Err(17)),
    ] {
        tally.equal("next", &input, ffi::next(words, &a, sample), next);
        tally.equal("previous", &input, ffi::previous(words, &a, sample), previous);
    }
    // A's turns from 105 on; and ones at 1 only, from 104 on.
    walk(tally, &input, 105, &[(Some(106), 107), (Some(109), 110), (None, 110), (None, 110)]);
    walk(tally, &damage::one_word(0b10, a, &own), 104, &[(None, 104), (None, 104)]);
    let foreign = Walker { len: 10, polarity: ONES as u64, origin: 100, place: 99 };
    tally.equal("turn", &input, ffi::turn(words, &foreign), Err(17));
}

fn walk(tally: &mut Tally, input: &Input, sample: u64, turns: &[(Option<u64>, u64)]) {
    let mut walker = ffi::open(&input.words, &input.summary, sample).expect("a sample of the record");
    for &(edge, place) in turns {
        let turn = ffi::turn(&input.words, &walker);
        walker.place = place;
        tally.equal("turn", input, turn, Ok((edge, walker)));
    }
}

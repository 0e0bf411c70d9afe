//! Our library against the sux-rs Rust: one process, the same inputs, the default choice, both release builds without
//! bmi2, best of several runs. Ratios are ours / Rust, so below 1 is faster; check's is to our own build. Images, which
//! the Rust has not, against memcpy of the same bytes: medians. Steps, which it has not either, against count and a bare scan
//! of words.

use oracle::ffi::{self, Index, Record};
use oracle::model::{Choice, Summary, Walker};
use oracle::random::Random;
use oracle::{cases, model, sources};
use std::hint::black_box;
use std::process::ExitCode;
use std::time::Instant;
use sux::bits::BitVec;
use sux::rank_sel::{SelectAdapt, SelectZeroAdapt};
use sux::traits::BitVecOps;
use sux::traits::rank_sel::{AddNumBits, Select, SelectZero};

const USAGE: &str = "bench [--small] [--huge] [--list] [--image] [--u32] [--steps] [--runs N] | \
                     bench --ours build|check|random|rising|list|write|read LOG2 HALVINGS";
const QUERIES: u64 = 1 << 20;
/// Ranks in the lists of one run.
const LISTED: u64 = 40 * 4096;
/// The sample number of bit 0, for ours; the Rust has none.
const ORIGIN: u64 = 100;

/// A column's name, and how many ranks a run of it answers: none where the call is timed as a whole.
type Column = (&'static str, Option<u64>);
const CALLS: [Column; 5] = [
    ("count", None),
    ("build", None),
    ("check / build", None),
    ("select, random", Some(QUERIES)),
    ("select, rising", Some(QUERIES)),
];
const LISTS: [Column; 4] = [
    ("list of 40, neighbours", Some(LISTED)),
    ("list of 40, spread", Some(LISTED)),
    ("list of 4,096, neighbours", Some(LISTED)),
    ("list of 4,096, spread", Some(LISTED)),
];

fn main() -> ExitCode {
    if cfg!(debug_assertions) || cfg!(target_feature = "bmi2") {
        eprintln!("build with --release and without bmi2");
        return ExitCode::from(2);
    }
    let args: Vec<String> = std::env::args().skip(1).collect();
    if let [flag, call, log2, halvings] = &args[..]
        && flag == "--ours"
        && let (Ok(log2), Ok(halvings)) = (log2.parse(), halvings.parse())
    {
        return ours(call, log2, halvings);
    }
    let (mut sizes, mut huge, mut runs) = (vec![20, 26, 30], false, 6);
    let (mut list, mut image, mut u32s, mut steps) = (false, false, false, false);
    let mut args = args.into_iter();
    while let Some(arg) = args.next() {
        match (arg.as_str(), &mut args) {
            ("--small", _) => sizes = vec![20, 26],
            ("--huge", _) => huge = true,
            ("--list", _) => list = true,
            ("--image", _) => image = true,
            ("--u32", _) => u32s = true,
            ("--steps", _) => steps = true,
            ("--runs", rest) => match rest.next().and_then(|n| n.parse().ok()) {
                Some(n) => runs = n,
                None => return usage(),
            },
            _ => return usage(),
        }
    }
    sources::announce();
    // All tables, or those named.
    let all = !list && !image && !u32s && !steps;
    if all || list {
        legend(runs);
    }
    if all {
        Table { columns: CALLS, measure, rows: Vec::new() }.print(&sizes, huge, runs);
    }
    if all || list {
        Table { columns: LISTS, measure: measure_lists, rows: Vec::new() }.print(&sizes, huge, runs);
    }
    if all || image {
        images(runs);
    }
    if all || u32s {
        wide_entries(runs);
    }
    if all || steps {
        ranks(&sizes);
        far_steps(&sizes, runs);
        turns(runs);
    }
    ExitCode::SUCCESS
}

fn legend(runs: u32) {
    println!("\nBest of {runs} runs, at 2^20 bits of {}; {QUERIES} selects a run, {LISTED} ranks in lists.", 8 * runs);
    println!("Each cell: ratio (ours / Rust); for check: (check / our build); for lists: (ours / the Rust's selects).");
}

fn usage() -> ExitCode {
    eprintln!("{USAGE}");
    ExitCode::from(2)
}

/// One bit in 2^halvings is selected; for zeros all words are complemented.
fn sparse(log2: u32, halvings: u32, polarity: u32, random: &Random) -> Vec<u64> {
    let flip = if polarity == model::ZEROS { u64::MAX } else { 0 };
    let word = |_| (0..halvings).fold(u64::MAX, |word, _| word & random.next()) ^ flip;
    (0..1usize << (log2 - 6)).map(word).collect()
}

fn rising(n: u64) -> Vec<u64> {
    (0..QUERIES).map(|i| (i as u128 * n as u128 / QUERIES as u128) as u64).collect()
}

/// Lists of so many ranks, one after the other: neighbours from random ranks on, which rise from list to list, or ranks
/// spread evenly, each list by another offset. Where the record has fewer bits, ranks repeat, evenly.
fn lists(n: u64, count: u64, spread: bool, random: &Random) -> Vec<u64> {
    let neighbours = !spread && count <= n;
    let mut from: Vec<u64> =
        (0..LISTED / count).map(|_| random.below(if neighbours { n - count + 1 } else { n })).collect();
    if neighbours {
        from.sort();
    }
    let evenly = |from: u64, i: u64| ((i as u128 * n as u128 + from as u128) / count as u128) as u64;
    let rank = |from, i| if neighbours { from + i } else { evenly(from, i) };
    from.iter().flat_map(|&from| (0..count).map(move |i| rank(from, i))).collect()
}

/// Cells to build in, touched before; the Rust allocates while it builds.
fn lent(record: &Record, choice: &Choice) -> (Vec<u64>, Vec<u64>) {
    let (inventory_len, spill_len) = record.size(choice).expect("a lawful record");
    (vec![1; inventory_len as usize], vec![1; spill_len as usize])
}

/// Our call alone, over and over for two seconds, for a profiler to watch.
fn ours(call: &str, log2: u32, halvings: u32) -> ExitCode {
    let random = Random::new(5);
    let words = sparse(log2, halvings, model::ONES, &random);
    let record = Record { words: &words, len: 1 << log2, polarity: model::ONES };
    let choice = cases::default();
    let (mut inventory, mut spill) = lent(&record, &choice);
    let summary = record.build(ORIGIN, &choice, &mut inventory, &mut spill).unwrap();
    let n = record.count().unwrap();
    let ranks = match call {
        "random" => (0..QUERIES).map(|_| random.below(n)).collect(),
        "list" => lists(n, 40, false, &random),
        _ => rising(n),
    };
    let mut places = vec![0; LISTED as usize];
    let mut bytes = vec![1; image_len(&summary)];
    ffi::write_image(&summary, &inventory, &spill, &mut bytes).unwrap();
    let started = Instant::now();
    let mut times = 0;
    while started.elapsed().as_secs() < 2 {
        times += 1;
        match call {
            "build" => drop(black_box(record.build(ORIGIN, &choice, &mut inventory, &mut spill))),
            "check" => drop(black_box(record.check(ORIGIN, &choice, &summary, &inventory, &spill))),
            "write" => drop(black_box(ffi::write_image(&summary, &inventory, &spill, &mut bytes))),
            "read" => drop(black_box(ffi::read_image(&bytes, &mut inventory, &mut spill))),
            "random" | "rising" | "list" => {
                let index = Index { words: &words, summary: &summary, inventory: &inventory, spill: &spill };
                black_box(if call == "list" {
                    answer_lists(&index, 40, &ranks, &mut places)
                } else {
                    ranks.iter().map(|&rank| index.select(rank).unwrap()).fold(0, u64::wrapping_add)
                });
            }
            _ => return usage(),
        }
    }
    println!("{call}: {times} times in {:.2} s", started.elapsed().as_secs_f64());
    ExitCode::SUCCESS
}

/// Seconds, ours and the Rust's, for each column, by words, length, polarity and number of runs.
type Measure<const K: usize> = fn(&[u64], u64, u32, &Random, u32) -> [(f64, f64); K];

struct Table<const K: usize> {
    columns: [Column; K],
    measure: Measure<K>,
    /// For each row its name and ratios.
    rows: Vec<(String, [f64; K])>,
}

impl<const K: usize> Table<K> {
    fn print(mut self, sizes: &[u32], huge: bool, runs: u32) {
        let names = self.columns.map(|column| column.0);
        println!("\n| bits | selected | polarity | {} |", names.join(" | "));
        println!("|---|---|---|{}", "---|".repeat(K));
        for &log2 in sizes {
            for halvings in [1, 4, 8, 12] {
                for polarity in [model::ONES, model::ZEROS] {
                    self.row(log2, halvings, polarity, runs);
                }
            }
        }
        if huge {
            self.row(32, 1, model::ONES, 2);
        }
        let column = |i: usize| self.rows.iter().map(move |row| row.1[i]);
        let mean = |i| (column(i).map(f64::ln).sum::<f64>() / self.rows.len() as f64).exp();
        let means: Vec<_> = (0..K).map(|i| format!("{:.2}", mean(i))).collect();
        println!("| geometric mean | | | {} |", means.join(" | "));
        println!("\nWorst ratios:");
        for (i, name) in names.iter().enumerate() {
            let worst = self.rows.iter().max_by(|a, b| a.1[i].total_cmp(&b.1[i])).expect("a row");
            println!("- {name}: {:.2} at {}", worst.1[i], worst.0);
        }
    }

    fn row(&mut self, log2: u32, halvings: u32, polarity: u32, runs: u32) {
        let random = Random::new(5);
        let words = sparse(log2, halvings, polarity, &random);
        // The smallest is over in microseconds: more runs for a steady best.
        let runs = if log2 <= 20 { 8 * runs } else { runs };
        let times = (self.measure)(&words, 1 << log2, polarity, &random, runs);
        let ratios = times.map(|(ours, theirs)| ours / theirs);
        let name = ["ones", "zeros"][polarity as usize];
        let percent = 100.0 / (1u64 << halvings) as f64;
        let cells: Vec<_> =
            (0..K).map(|i| format!("{:.2} ({})", ratios[i], pair(times[i], self.columns[i].1))).collect();
        println!("| 2^{log2} | {percent:.3} % | {name} | {} |", cells.join(" | "));
        self.rows.push((format!("2^{log2}, {percent:.3} % {name}"), ratios));
    }
}

fn pair((ours, theirs): (f64, f64), ranks: Option<u64>) -> String {
    let (scale, unit) = ranks.map_or((1e3, "ms"), |ranks| (1e9 / ranks as f64, "ns"));
    format!("{:.2} / {:.2} {unit}", ours * scale, theirs * scale)
}

fn measure(words: &[u64], len: u64, polarity: u32, random: &Random, runs: u32) -> [(f64, f64); 5] {
    let record = Record { words, len, polarity };
    let choice = cases::default();
    let (mut inventory, mut spill) = lent(&record, &choice);
    let n = record.count().expect("a lawful record");
    let random_ranks: Vec<u64> = (0..QUERIES).map(|_| random.below(n)).collect();
    let rising_ranks = rising(n);

    let bits = BitVec::new(words, len as usize);
    let theirs: AddNumBits<_> = bits.into();
    let mut best = [(f64::INFINITY, f64::INFINITY); 5];
    for run in 0..runs {
        // Whoever goes second finds the words in the cache: they take turns.
        let swap = run % 2 == 1;
        let count = || record.count().unwrap();
        let (a, b) = if polarity == model::ONES {
            both(&mut best[0], swap, count, || bits.count_ones())
        } else {
            both(&mut best[0], swap, count, || bits.count_zeros())
        };
        assert_eq!(a, b as u64);

        let build = || record.build(ORIGIN, &choice, &mut inventory, &mut spill).unwrap();
        let queries = [&random_ranks, &rising_ranks];
        if polarity == model::ONES {
            let (summary, structure) = both(&mut best[1], swap, build, || SelectAdapt::new(theirs.clone()));
            let index = Index { words, summary: &summary, inventory: &inventory, spill: &spill };
            let select = |rank| structure.select(rank as usize).unwrap() as u64;
            keep_check(&mut best, &record, &index);
            queries.iter().zip(&mut best[3..]).for_each(|(ranks, best)| selects(best, swap, ranks, &index, select));
        } else {
            let (summary, structure) = both(&mut best[1], swap, build, || SelectZeroAdapt::new(theirs.clone()));
            let index = Index { words, summary: &summary, inventory: &inventory, spill: &spill };
            let select = |rank| structure.select_zero(rank as usize).unwrap() as u64;
            keep_check(&mut best, &record, &index);
            queries.iter().zip(&mut best[3..]).for_each(|(ranks, best)| selects(best, swap, ranks, &index, select));
        }
    }
    best
}

/// Every rank's position, summed so that both sides must agree; the origins in our sum are taken off once it is timed.
fn selects(best: &mut (f64, f64), swap: bool, ranks: &[u64], index: &Index, theirs: impl Fn(u64) -> u64) {
    let ours = || ranks.iter().map(|&rank| index.select(rank).unwrap()).fold(0, u64::wrapping_add);
    let (a, b) = both(best, swap, ours, || ranks.iter().map(|&rank| theirs(rank)).fold(0, u64::wrapping_add));
    assert_eq!(a.wrapping_sub(ORIGIN * ranks.len() as u64), b);
}

fn measure_lists(words: &[u64], len: u64, polarity: u32, random: &Random, runs: u32) -> [(f64, f64); 4] {
    let record = Record { words, len, polarity };
    let choice = cases::default();
    let (mut inventory, mut spill) = lent(&record, &choice);
    let summary = record.build(ORIGIN, &choice, &mut inventory, &mut spill).expect("a lawful record");
    let index = Index { words, summary: &summary, inventory: &inventory, spill: &spill };
    let queries = [(40, false), (40, true), (4096, false), (4096, true)]
        .map(|(count, spread)| (count as usize, lists(summary.n, count, spread, random)));
    let theirs: AddNumBits<_> = BitVec::new(words, len as usize).into();
    if polarity == model::ONES {
        let structure = SelectAdapt::new(theirs);
        time_lists(&index, &queries, runs, |rank| structure.select(rank as usize).unwrap() as u64)
    } else {
        let structure = SelectZeroAdapt::new(theirs);
        time_lists(&index, &queries, runs, |rank| structure.select_zero(rank as usize).unwrap() as u64)
    }
}

/// Each column's lists against the Rust's selects of the same ranks in a loop.
fn time_lists(
    index: &Index,
    queries: &[(usize, Vec<u64>); 4],
    runs: u32,
    select: impl Fn(u64) -> u64,
) -> [(f64, f64); 4] {
    let mut best = [(f64::INFINITY, f64::INFINITY); 4];
    let (mut places, mut theirs) = (vec![0; LISTED as usize], vec![0; LISTED as usize]);
    for run in 0..runs {
        for ((count, ranks), best) in queries.iter().zip(&mut best) {
            let ours = || answer_lists(index, *count, ranks, &mut places);
            let loops = || ranks.iter().zip(&mut theirs).for_each(|(&rank, place)| *place = select(rank));
            both(best, run % 2 == 1, ours, loops);
            let same = places.iter().zip(&theirs).all(|(sample, position)| *sample == ORIGIN + position);
            assert!(same, "positions differ");
        }
    }
    best
}

/// Lists of `count` ranks each, into as many places; the words read.
fn answer_lists(index: &Index, count: usize, ranks: &[u64], places: &mut [u64]) -> u64 {
    let lists = ranks.chunks(count).zip(places.chunks_mut(count));
    lists.map(|(ranks, places)| index.list(ranks, places).unwrap()).sum()
}

/// Indexes whose entries are all U32, by what their spans are about: build, and selects from the entry's cells and its spill.
fn wide_entries(runs: u32) {
    println!(
        "\nU32 entries: best of {runs} runs, at 2^22 bits of {}; {QUERIES} selects a run. Each cell: ratio (ours / Rust).\n",
        8 * runs
    );
    println!(
        "| bits | selected | L, M | spans about | build | select, random | select, rising |\n|---|---|---|---|---|---|---|"
    );
    for (log2, halvings, l, m) in [(22, 8, 9, 3), (22, 8, 11, 3), (22, 12, 7, 3), (26, 8, 12, 3), (26, 12, 12, 3)] {
        let random = Random::new(5);
        let words = sparse(log2, halvings, model::ONES, &random);
        let record = Record { words: &words, len: 1 << log2, polarity: model::ONES };
        let choice = cases::power(l, m);
        let (mut inventory, mut spill) = lent(&record, &choice);
        let bits: AddNumBits<_> = BitVec::new(&words[..], 1 << log2).into();
        let n = record.count().expect("a lawful record");
        let queries = [(0..QUERIES).map(|_| random.below(n)).collect(), rising(n)];
        let mut best = [(f64::INFINITY, f64::INFINITY); 3];
        for run in 0..if log2 == 22 { 8 * runs } else { runs } {
            let swap = run % 2 == 1;
            let build = || record.build(ORIGIN, &choice, &mut inventory, &mut spill).unwrap();
            let theirs = || SelectAdapt::with_inv(bits.clone(), l as usize, m as usize);
            let (summary, structure) = both(&mut best[0], swap, build, theirs);
            let starts = inventory[..(n >> l) as usize * ((1 << m) + 1)].iter().step_by((1 << m) + 1);
            assert!(starts.into_iter().all(|start| start >> 62 == 2), "an entry that is not U32");
            let index = Index { words: &words, summary: &summary, inventory: &inventory, spill: &spill };
            let select = |rank| structure.select(rank as usize).unwrap() as u64;
            queries.iter().zip(&mut best[1..]).for_each(|(ranks, best)| selects(best, swap, ranks, &index, select));
        }
        let ranks = [None, Some(QUERIES), Some(QUERIES)];
        let cell = |(times, ranks): ((f64, f64), _)| format!("{:.2} ({})", times.0 / times.1, pair(times, ranks));
        let cells: Vec<_> = best.into_iter().zip(ranks).map(cell).collect();
        let percent = 100.0 / (1u64 << halvings) as f64;
        let span = l + halvings as u64;
        println!("| 2^{log2} | {percent:.3} % | {l}, {m} | 2^{span} | {} |", cells.join(" | "));
    }
}

/// The rank of random samples, which reads every entry's start; a jump at random beside it.
fn ranks(sizes: &[u32]) {
    println!(
        "\nRank of random samples, default choice, half of the bits selected; each call reads every entry's start.\n"
    );
    println!("| bits | entries | rank | for each entry | select, random |\n|---|---|---|---|---|");
    for &log2 in sizes {
        let random = Random::new(5);
        let words = sparse(log2, 1, model::ONES, &random);
        let record = Record { words: &words, len: 1 << log2, polarity: model::ONES };
        let choice = cases::default();
        let (mut inventory, mut spill) = lent(&record, &choice);
        let summary = record.build(ORIGIN, &choice, &mut inventory, &mut spill).expect("a lawful record");
        let index = Index { words: &words, summary: &summary, inventory: &inventory, spill: &spill };
        let entries = summary.n.div_ceil(1 << summary.l);
        let calls = 1 << 9;
        let samples: Vec<u64> = (0..calls).map(|_| ORIGIN + random.below(summary.len + 1)).collect();
        let ranks: Vec<u64> = (0..calls).map(|_| random.below(summary.n)).collect();
        let (rank, _) = timed(|| samples.iter().map(|&sample| index.rank(sample).unwrap()).fold(0, u64::wrapping_add));
        let (select, _) = timed(|| ranks.iter().map(|&rank| index.select(rank).unwrap()).fold(0, u64::wrapping_add));
        let [rank, select] = [rank, select].map(|seconds| seconds * 1e9 / calls as f64);
        println!("| 2^{log2} | {entries} | {:.1} µs | {:.1} ns | {select:.0} ns |", rank / 1e3, rank / entries as f64);
    }
}

/// Next and previous over a record with one bit selected, at its far end, against count of the same words.
fn far_steps(sizes: &[u32], runs: u32) {
    println!("\nOver a far gap: best of {runs} runs. Each cell: ratio (ours / count of the same words).\n");
    println!("| bits | polarity | next | previous |\n|---|---|---|---|");
    for (&log2, polarity) in sizes.iter().flat_map(|log2| [(log2, model::ONES), (log2, model::ZEROS)]) {
        let len = 1u64 << log2;
        let summary =
            Summary { len, polarity: polarity as u64, n: 1, origin: ORIGIN, inventory: 3, ..Summary::from([0; 9]) };
        let cells = [len - 1, 0].map(|edge| {
            let words = cases::record(&[edge], len, polarity, 0, || 0);
            let record = Record { words: &words, len, polarity };
            let mut best = (f64::INFINITY, f64::INFINITY);
            for run in 0..if log2 <= 20 { 8 * runs } else { runs } {
                let step = || match edge {
                    0 => ffi::previous(&words, &summary, ORIGIN + len),
                    _ => ffi::next(&words, &summary, ORIGIN),
                };
                let (found, count) = both(&mut best, run % 2 == 1, step, || record.count());
                assert_eq!((found, count), (Ok(Some(ORIGIN + edge)), Ok(1)));
            }
            format!("{:.2} ({})", best.0 / best.1, pair(best, None))
        });
        println!("| 2^{log2} | {} | {} |", ["ones", "zeros"][polarity as usize], cells.join(" | "));
    }
}

/// The first one at or after a place, by a bare scan of words, as one writes it in C: a call for each edge, as a turn is.
#[inline(never)]
fn scan(words: &[u64], len: u64, place: u64, edge: &mut u64) -> bool {
    if place >= len {
        return false;
    }
    let mut i = (place / 64) as usize;
    let mut word = words[i] & (u64::MAX << (place % 64));
    while word == 0 {
        i += 1;
        if i == words.len() {
            return false;
        }
        word = words[i];
    }
    *edge = 64 * i as u64 + word.trailing_zeros() as u64;
    *edge < len
}

/// All edges of a record of 2^20 bits by turns, and by the bare scan.
fn turns(runs: u32) {
    let runs = 8 * runs;
    println!(
        "\nAll edges of 2^20 bits: best of {runs} runs. The cell: ratio (ours / a bare scan, a call for each edge).\n"
    );
    println!("| selected | turn |\n|---|---|");
    for halvings in [0, 1, 2, 4, 8] {
        let words = sparse(20, halvings, model::ONES, &Random::new(5));
        let len = 1u64 << 20;
        let n = Record { words: &words, len, polarity: model::ONES }.count().unwrap();
        let first = Walker { len, polarity: model::ONES as u64, origin: ORIGIN, place: ORIGIN };
        let mut best = (f64::INFINITY, f64::INFINITY);
        for run in 0..runs {
            let ours = || {
                let (mut walker, mut sum) = (first, 0u64);
                while let Some(edge) = ffi::turn_on(&words, &mut walker).unwrap() {
                    sum = sum.wrapping_add(edge - ORIGIN);
                }
                sum
            };
            let bare = || {
                let (mut edge, mut place, mut sum) = (0, 0, 0u64);
                while scan(black_box(&words), len, place, &mut edge) {
                    (sum, place) = (sum.wrapping_add(edge), edge + 1);
                }
                sum
            };
            let (a, b) = both(&mut best, run % 2 == 1, ours, bare);
            assert_eq!(a, b);
        }
        let percent = 100.0 / (1u64 << halvings) as f64;
        println!("| {percent:.3} % | {:.2} ({}) |", best.0 / best.1, pair(best, Some(n)));
    }
}

/// The images of records of 2^26 bits, of one megabyte to nineteen; the last is mostly spill.
fn images(runs: u32) {
    // Microseconds each: more runs for a steady median.
    let runs = 16 * runs;
    println!("\nImages: median of {runs} runs; memcpy copies the same parts from and to the same places.");
    println!("Each cell: ratio (ours / memcpy, our speed); below 2 is more than half the speed of memcpy.\n");
    println!("| bits | selected | choice | bytes | write | read |\n|---|---|---|---|---|---|");
    for (halvings, choice, name) in [
        (1, cases::default(), "default"),
        (1, cases::span(1024, 3), "span 1,024 maximum 3"),
        (1, cases::span(256, 3), "span 256 maximum 3"),
        (4, cases::span(512, 0), "span 512 maximum 0"),
        (1, cases::fixed(16, 6), "fixed L 16 M 6"),
    ] {
        let words = sparse(26, halvings, model::ONES, &Random::new(5));
        let mut imaged = Imaged::new(&Record { words: &words, len: 1 << 26, polarity: model::ONES }, &choice);
        let len = imaged.image.len();
        let write = imaged.medians(runs, [Imaged::write, |imaged| imaged.copy(true)]);
        let read = imaged.medians(runs, [Imaged::read, |imaged| imaged.copy(false)]);
        let cell = |[ours, memcpy]: [f64; 2]| {
            let speed = len as f64 / ours / 1e9;
            format!("{:.2} ({:.1} / {:.1} µs, {speed:.1} GB/s)", ours / memcpy, ours * 1e6, memcpy * 1e6)
        };
        let percent = 100.0 / (1u64 << halvings) as f64;
        println!("| 2^26 | {percent:.3} % | {name} | {len} | {} | {} |", cell(write), cell(read));
    }
}

fn image_len(summary: &Summary) -> usize {
    88 + 8 * (summary.inventory + summary.spill) as usize
}

/// An image and its parts. Ours and memcpy go between the same places: where these lie can alone double memcpy's time.
struct Imaged {
    summary: Summary,
    image: Vec<u8>,
    header: [u8; 88],
    inventory: Vec<u64>,
    spill: Vec<u64>,
}

impl Imaged {
    /// What is timed below changes nothing any more, so what it does is tested here, in places that hold something else.
    fn new(record: &Record, choice: &Choice) -> Self {
        let (mut inventory, mut spill) = lent(record, choice);
        let summary = record.build(ORIGIN, choice, &mut inventory, &mut spill).expect("a lawful record");
        let image = vec![1; image_len(&summary)];
        let mut imaged = Imaged { summary, image, header: [1; 88], inventory, spill };
        imaged.write();
        imaged.header.copy_from_slice(&imaged.image[..88]);
        let (image, inventory, spill) = (imaged.image.clone(), imaged.inventory.clone(), imaged.spill.clone());
        imaged.image.fill(2);
        imaged.copy(true);
        assert!(imaged.image == image, "bytes differ");
        for read in [Imaged::read, |imaged: &mut Self| imaged.copy(false)] {
            imaged.inventory.fill(3);
            imaged.spill.fill(3);
            read(&mut imaged);
            assert!(imaged.inventory == inventory && imaged.spill == spill, "cells differ");
        }
        imaged
    }

    fn write(&mut self) {
        ffi::write_image(&self.summary, &self.inventory, &self.spill, &mut self.image).unwrap();
    }

    fn read(&mut self) {
        ffi::read_image(&self.image, &mut self.inventory, &mut self.spill).unwrap();
    }

    /// The three parts by memcpy, into the image or out of it.
    fn copy(&mut self, write: bool) {
        let cells = |cells: &mut Vec<u64>| (cells.as_mut_ptr().cast::<u8>(), 8 * cells.len());
        let parts = [(self.header.as_mut_ptr(), 88), cells(&mut self.inventory), cells(&mut self.spill)];
        let mut rest = &mut self.image[..];
        for (part, len) in parts {
            let (there, after) = rest.split_at_mut(len);
            let there = there.as_mut_ptr();
            let (from, to) = if write { (part, there) } else { (there, part) };
            unsafe { std::ptr::copy_nonoverlapping(from, to, len) };
            rest = after;
        }
    }

    /// Median seconds of each; they take turns in going first.
    fn medians(&mut self, runs: u32, calls: [fn(&mut Self); 2]) -> [f64; 2] {
        let mut times: [Vec<f64>; 2] = Default::default();
        for run in 0..runs {
            for which in if run % 2 == 0 { [0, 1] } else { [1, 0] } {
                times[which].push(timed(|| calls[which](black_box(self))).0);
            }
        }
        times.map(|mut times| {
            times.sort_by(f64::total_cmp);
            times[times.len() / 2]
        })
    }
}

/// Right after the build: the selects would leave it a colder cache than the build had.
fn keep_check(best: &mut [(f64, f64); 5], record: &Record, index: &Index) {
    let (seconds, yes) = timed(|| record.check(ORIGIN, &cases::default(), index.summary, index.inventory, index.spill));
    assert_eq!(yes, Ok(true));
    best[2] = (best[2].0.min(seconds), best[1].0);
}

/// Ours, then the Rust's, or the other way about.
fn both<A, B>(best: &mut (f64, f64), swap: bool, ours: impl FnOnce() -> A, theirs: impl FnOnce() -> B) -> (A, B) {
    let ((our_time, a), (their_time, b)) = if swap {
        let second = timed(theirs);
        (timed(ours), second)
    } else {
        (timed(ours), timed(theirs))
    };
    *best = (best.0.min(our_time), best.1.min(their_time));
    (a, b)
}

fn timed<T>(f: impl FnOnce() -> T) -> (f64, T) {
    let started = Instant::now();
    let answer = black_box(f());
    (started.elapsed().as_secs_f64(), answer)
}

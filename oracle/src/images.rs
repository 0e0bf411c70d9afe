//! Images written and read, against the model: true ones, and ones bent in a field, cut, padded or flipped in a bit,
//! such as 64 bits alone would let pass among them. Compared are the answer and the whole buffers, what is lent and
//! what lies around it. What was read is written back, and checked on its own capture and on others.

use crate::cases::*;
use crate::damage::{self, Input, Tally, first};
use crate::ffi::{self, TOUCHED};
use crate::model::{self, Answer, BAD_CODE, Built, MAX_LOG2_WORDS, ONES, Summary, ZEROS};
use crate::random::Random;
use crate::reference;
use std::fmt::{Display, Formatter};
use std::time::Instant;

/// Bytes of the header; and its fields, by their numbers.
const HEADER: usize = 88;
const LEN: usize = 1;
const N: usize = 2;
const ORIGIN: usize = 3;
const L: usize = 4;
const M: usize = 5;
const S: usize = 6;
const INVENTORY: usize = 7;
const INVENTORY_OFFSET: usize = 8;
const SPILL: usize = 9;
const SPILL_OFFSET: usize = 10;

/// The largest M.
const MOST_M: u64 = MAX_LOG2_WORDS as u64;

/// The most cells of an image in the random run, which is to be quick.
const MOST_CELLS: u64 = 1 << 12;

/// An image in the making: any fields, any cells.
#[derive(Clone)]
struct Image {
    fields: [u64; 11],
    cells: Vec<u64>,
}

impl Image {
    /// As the rules have it, as far as 64 bits go; the summary may be against them.
    fn new(summary: &Summary, cells: Vec<u64>) -> Self {
        let [polarity, len, n, origin, l, m, s, inventory, spill] = (*summary).into();
        let mut image = Image { fields: [polarity, len, n, origin, l, m, s, inventory, 88, spill, 0], cells };
        image.set_offset();
        image
    }

    fn of(input: &Input) -> Self {
        let Input { summary, inventory, spill, .. } = input;
        Image::new(summary, [&inventory[..summary.inventory as usize], &spill[..summary.spill as usize]].concat())
    }

    fn set_offset(&mut self) {
        self.fields[SPILL_OFFSET] = self.fields[INVENTORY].wrapping_mul(8).wrapping_add(88);
    }

    fn with(&self, field: usize, value: u64) -> Self {
        let mut image = self.clone();
        image.fields[field] = value;
        image
    }

    fn bytes(&self) -> Vec<u8> {
        self.fields.iter().chain(&self.cells).flat_map(|number| number.to_le_bytes()).collect()
    }
}

/// A part lent of a longer buffer, in which no two neighbours are the same number.
struct Lent<T> {
    buffer: Vec<T>,
    from: usize,
    len: usize,
}

impl<T: Copy> Lent<T> {
    /// With room after it for so many, should a call go too far, and some more.
    fn new(from: usize, len: usize, room: usize, blank: fn(usize) -> T) -> Self {
        Lent { buffer: (0..from + len.max(room) + 9).map(blank).collect(), from, len }
    }

    fn part(&mut self) -> &mut [T] {
        &mut self.buffer[self.from..self.from + self.len]
    }

    /// The whole buffer, these being at the start of the part.
    fn holding(mut self, these: &[T]) -> Vec<T> {
        self.part()[..these.len()].copy_from_slice(these);
        self.buffer
    }
}

/// An answer with the buffers after it. As in ffi, a refusal that altered them is `TOUCHED`.
fn after<A, B: PartialEq>(answer: Answer<A>, buffers: B, blank: B) -> Answer<(A, B)> {
    match answer {
        Ok(answer) => Ok((answer, buffers)),
        Err(refusal) if buffers == blank => Err(refusal),
        Err(refusal) => Err(TOUCHED + refusal),
    }
}

/// A place in a buffer of bytes, at any alignment.
fn anywhere(random: &Random) -> usize {
    random.below(16) as usize
}

/// A call of write, into so many bytes.
struct Write<'a> {
    summary: Summary,
    inventory: &'a [u64],
    spill: &'a [u64],
    from: usize,
    place: usize,
}

impl Write<'_> {
    fn blank(&self) -> Lent<u8> {
        let room = HEADER + 8 * (self.inventory.len() + self.spill.len());
        Lent::new(self.from, self.place, room, |i| !(i as u8))
    }

    /// The byte length and the whole buffer.
    fn ours(&self) -> Answer<(u64, Vec<u8>)> {
        let mut bytes = self.blank();
        let written = ffi::write_image(&self.summary, self.inventory, self.spill, bytes.part());
        after(written, bytes.buffer, self.blank().buffer)
    }

    fn holding(&self, image: &[u8]) -> (u64, Vec<u8>) {
        (image.len() as u64, self.blank().holding(image))
    }

    /// The same by the model.
    fn expected(&self) -> Answer<(u64, Vec<u8>)> {
        let image = model::write_image(&self.summary, self.inventory, self.spill, self.place)?;
        Ok(self.holding(&image))
    }
}

impl Display for Write<'_> {
    fn fmt(&self, f: &mut Formatter) -> std::fmt::Result {
        let Write { summary, inventory, spill, from, place } = self;
        writeln!(f, "{summary:?}, {place} bytes at {from}")?;
        writeln!(f, "  inventory of {}: {}", inventory.len(), first(inventory))?;
        write!(f, "  spill of {}: {}", spill.len(), first(spill))
    }
}

/// A call of read: bytes, of which the last may be left out, and places of so many cells.
struct Read {
    buffer: Vec<u8>,
    from: usize,
    len: usize,
    inventory: usize,
    spill: usize,
}

/// Cells before the lent ones.
const FRONT: usize = 2;

/// Summary, inventory and spill, the whole buffers.
type Lents = (Summary, (Vec<u64>, Vec<u64>));

impl Read {
    /// After what is lent come the bytes left out, so that reading too far finds the image whole; then others.
    fn new(from: usize, bytes: &[u8], len: usize, inventory: usize, spill: usize) -> Self {
        let mut buffer: Vec<u8> = (0..from + bytes.len() + 16).map(|i| !(i as u8)).collect();
        buffer[from..from + bytes.len()].copy_from_slice(bytes);
        Read { buffer, from, len, inventory, spill }
    }

    fn bytes(&self) -> &[u8] {
        &self.buffer[self.from..self.from + self.len]
    }

    fn blank(&self) -> (Lent<u64>, Lent<u64>) {
        let cells = |len| Lent::new(FRONT, len, self.len / 8, |i| !(i as u64));
        (cells(self.inventory), cells(self.spill))
    }

    fn ours(&self) -> Answer<Lents> {
        let ((mut inventory, mut spill), blank) = (self.blank(), self.blank());
        let summary = ffi::read_image(self.bytes(), inventory.part(), spill.part());
        after(summary, (inventory.buffer, spill.buffer), (blank.0.buffer, blank.1.buffer))
    }

    /// The same by the model.
    fn expected(&self) -> Answer<Lents> {
        let read = model::read_image(self.bytes(), self.inventory, self.spill)?;
        let (inventory, spill) = self.blank();
        Ok((read.summary, (inventory.holding(&read.inventory), spill.holding(&read.spill))))
    }
}

impl Display for Read {
    fn fmt(&self, f: &mut Formatter) -> std::fmt::Result {
        let Read { from, len, inventory, spill, .. } = self;
        let numbers = self.bytes().chunks_exact(8).map(|bytes| u64::from_le_bytes(bytes.try_into().unwrap()));
        let (fields, cells): (Vec<_>, Vec<_>) = (numbers.clone().take(11).collect(), numbers.skip(11).collect());
        writeln!(f, "{len} bytes at {from}: {fields:?}")?;
        write!(f, "  {} whole cells: {}; lent {inventory} and {spill} cells", cells.len(), first(&cells))
    }
}

/// `count` images read and as many writes, besides those that are the same in every run; the number of differences.
pub fn run(count: u64) -> u64 {
    let started = Instant::now();
    let mut tally = Tally::default();
    worked(&mut tally);
    let (flipped, flips) = every_bit(&mut tally);
    long(&mut tally);

    // Writes, and what follows a read, draw from streams of their own.
    let (random, writes, follows) = (Random::new(9), Random::new(10), Random::new(11));
    let bases = bases(&random);
    let mut input = bases[0].clone();
    for _ in 0..count {
        input.clone_from(&bases[random.below(bases.len() as u64) as usize]);
        let foreign = random.one_in(6);
        if foreign && random.one_in(2) {
            damage::foreign(&random, &mut input);
        } else if foreign {
            vast(&random, &mut input);
        }
        input.origin = origin(&random, input.summary.len);
        input.summary.origin = input.origin;

        any_write(&mut tally, &writes, &input);
        let (kind, read) = any_read(&random, &input, foreign);
        if let Some(built) = read_call(&mut tally, &follows, kind, &read)
            && follows.one_in(3)
        {
            check(&mut tally, &follows, &input, kind == TRUE, &read, &built);
        }
    }
    let (good, seconds) = (bases.len(), started.elapsed().as_secs_f64());
    println!("images: {good} indexes, {count} images read, as many writes, {flips} images with one bit flipped, which");
    println!("  is every bit of {flipped} images; {} calls, {seconds:.1} s; how each call came out:", tally.calls);
    tally.print()
}

/// Damage's indexes; document 01's C, which spills, and D; L and M at their limits; records without a selected bit.
fn bases(random: &Random) -> Vec<Input> {
    let mut all = damage::bases(random);
    // Long ones have a run of their own.
    all.retain(|input| input.summary.inventory + input.summary.spill <= MOST_CELLS);
    for polarity in [ONES, ZEROS] {
        for (len, positions) in [(65_540, &[0, 65_539][..]), (65_536, &[0, 65_535]), (5, &[]), (200, &[])] {
            let words = record(positions, len, polarity, 0, || random.next());
            all.push(damage::base(random, words, len, polarity, power(1, 0)));
        }
        all.push(damage::base(random, vec![0x252], 10, polarity, power(63, 3)));
        let (none, words) =
            ([fixed(0, MAX_LOG2_WORDS), fixed(63, MAX_LOG2_WORDS)], record(&[], 5, polarity, 0, || random.next()));
        all.extend(none.map(|choice| damage::base(random, words.clone(), 5, polarity, choice)));
    }
    all
}

/// A lawful summary of more bits than any record here has, and any cells.
fn vast(random: &Random, input: &mut Input) {
    input.summary = huge(random, 1 + random.below(20), random.below(5), random.below(40));
    input.inventory = (0..input.summary.inventory).map(|_| random.next()).collect();
    input.spill = (0..input.summary.spill).map(|_| random.next()).collect();
}

// ------------------------------------------------------------------------------------------------ reading

const TRUE: &str = "read, true";
const FOREIGN: &str = "read, foreign cells";
const FIELD: &str = "read, a field bent";
const AGREEING: &str = "read, fields bent together";
const WRAPPED: &str = "read, right in 64 bits only";
const FLIPPED: &str = "read, a bit flipped";
const PADDED: &str = "read, padded";
const CUT: &str = "read, cut";
const SEVERAL: &str = "read, several of these";

/// What was read, where it is what the model reads: with the lent cells, those past the counts too.
fn read_call(tally: &mut Tally, random: &Random, call: &'static str, read: &Read) -> Option<Built> {
    let ours = read.ours();
    if !tally.equal(call, read, ours.clone(), read.expected()) {
        return None;
    }
    let (summary, (inventory, spill)) = ours.ok()?;
    let lent = |buffer: Vec<u64>, len: usize| buffer[FRONT..FRONT + len].to_vec();
    let built = Built { summary, inventory: lent(inventory, read.inventory), spill: lent(spill, read.spill) };
    // "writing back restores the bytes"
    let (from, place) = (anywhere(random), read.len + random.below(3) as usize);
    let write = Write { summary, inventory: &built.inventory, spill: &built.spill, from, place };
    tally.equal("write back", &write, write.ours(), Ok(write.holding(read.bytes())));
    Some(built)
}

fn any_read(random: &Random, input: &Input, foreign: bool) -> (&'static str, Read) {
    let whole = if foreign { FOREIGN } else { TRUE };
    let kind = random.pick(&[
        whole, whole, FIELD, FIELD, FIELD, FIELD, AGREEING, AGREEING, WRAPPED, FLIPPED, PADDED, CUT, SEVERAL, SEVERAL,
    ]);
    let is = |bend| kind == bend || kind == SEVERAL && random.one_in(3);
    let mut image = Image::of(input);
    if is(WRAPPED) {
        let summary = wrapped(random, input);
        image = Image::new(&summary, wrapped_cells(random, &summary));
    }
    if is(AGREEING) {
        agreeing(random, &mut image);
    }
    if is(FIELD) {
        let i = random.below(11) as usize;
        image.fields[i] = bent(random, image.fields[i]);
    }
    let mut bytes = image.bytes();
    if is(FLIPPED) {
        let bit = random.below(8 * if random.one_in(2) { bytes.len() } else { HEADER } as u64);
        bytes[bit as usize / 8] ^= 1 << (bit % 8);
    }
    if is(PADDED) {
        let byte = random.pick(&[0, 0xFF, random.next() as u8]);
        bytes.resize(bytes.len() + 1 + random.below(16) as usize, byte);
    }
    let mut len = bytes.len();
    if is(CUT) {
        len = random.pick(&[
            len - 1 - random.below(16) as usize,
            random.below(HEADER as u64) as usize,
            HEADER,
            random.below(len as u64) as usize,
        ]);
    }
    // For counts that no memory has, as many as there are.
    let lent = |field: usize| lent_cells(random, image.fields[field].min(image.cells.len() as u64));
    (kind, Read::new(anywhere(random), &bytes, len, lent(INVENTORY), lent(SPILL)))
}

/// As many cells as counted, more, one fewer, or none.
fn lent_cells(random: &Random, count: u64) -> usize {
    (match random.below(8) {
        0 => 0,
        1 => count.saturating_sub(1),
        2..=4 => count + 1 + random.below(4),
        _ => count,
    }) as usize
}

/// Another number, near it or near a limit; 2^32 and 2^61 more show a field cut to 32 bits, and bytes that wrap.
fn bent(random: &Random, number: u64) -> u64 {
    let limits =
        [0, 1, 2, MOST_M, MOST_M + 1, 63, 64, 88, 96, 1 << 32, 1 << 61, (1 << 62) - 1, 1 << 62, 1 << 63, u64::MAX];
    match random.below(10) {
        0 => number.wrapping_add(1),
        1 => number.wrapping_sub(1),
        2 => number ^ 1 << random.below(64),
        3 => number.wrapping_add(1 << 32),
        4 => number.wrapping_add((1 + random.below(7)) << 61),
        5 => random.pick(&[number.wrapping_add(8), number.wrapping_sub(8)]),
        6 => random.below(70),
        7 => random.next() >> random.below(64),
        _ => random.pick(&limits),
    }
}

/// A field bent, and what follows from it by the rules bent with it, or not: so that any rule may be the first broken,
/// and images come out that are true ones of another summary.
fn agreeing(random: &Random, image: &mut Image) {
    let fields = &mut image.fields;
    let i = random.pick(&[LEN, N, N, ORIGIN, L, L, M, M, S, INVENTORY, SPILL, SPILL]);
    let small = || random.below(8);
    fields[i] = match random.below(4) {
        0 => bent(random, fields[i]),
        1 => small(),
        2 => fields[i].wrapping_add(small()),
        _ => fields[i].saturating_sub(small()),
    };
    let follows = || !random.one_in(8);
    if i != S && follows() {
        fields[S] = fields[L].saturating_sub(fields[M].saturating_add(2));
    }
    if i != INVENTORY && follows() && fields[L] < 64 && fields[M] < 64 {
        fields[INVENTORY] = cells(fields[N].div_ceil(1 << fields[L]), fields[M]) as u64;
    }
    if follows() {
        image.set_offset();
    }
    let counted = image.fields[INVENTORY].wrapping_add(image.fields[SPILL]);
    if follows() && counted < 2 * MOST_CELLS {
        image.cells.resize(counted as usize, random.next());
    }
}

/// Summaries that 64 bits alone would let pass, in reading or in writing, and their neighbours: counts that are right
/// modulo 2^64 only, or whose bytes are.
fn wrapped(random: &Random, input: &Input) -> Summary {
    let few = random.below(5);
    // A multiple of 2^61: cells whose bytes are none.
    let high = (1 + random.below(7)) << 61;
    let summary = match random.below(4) {
        // The spill's bytes, or those of both.
        0 => Summary { spill: high + few, ..input.summary },
        1 => Summary { spill: high - random.below(input.summary.inventory + 1), ..input.summary },
        // The inventory's.
        _ => loop {
            let m = random.below(MOST_M + 1);
            let step = (1 << m) + 1;
            let last = ((1 << 64) - 2) / step as u128;
            let (entries, m) = random.pick(&[
                // Few cells modulo 2^64.
                (random.below(200).wrapping_mul(inverse(step)), m),
                // As many as have few bytes modulo 2^64.
                (high.div_ceil(step), m),
                // The last count below 2^64, and the next.
                (last as u64, m),
                (last as u64 + 1, m),
            ]);
            if entries > 0 && entries < 1 << 62 && cells(entries, m) >= 1 << 61 {
                break huge(random, entries, m, few);
            }
        },
    };
    // Nothing but the counts is against the rules.
    assert!(matches!(model::write_image(&summary, &[], &[], 0), Err(6 | 9)), "{summary:?}");
    summary
}

/// "entries × (2^M + 1) + 1"
fn cells(entries: u64, m: u64) -> u128 {
    entries as u128 * ((1 << m) + 1) + 1
}

/// A summary of so many entries; its inventory count is by the rule modulo 2^64, or stops at 2^64 - 1.
fn huge(random: &Random, entries: u64, m: u64, spill: u64) -> Summary {
    let ranks = |entries: u64, l: u64| ((entries as u128) << l).min(MOST_SAMPLES as u128) as u64;
    let (l, n) = loop {
        let l = random.below(64);
        let (most, before) = (ranks(entries, l), ranks(entries - 1, l));
        if before < most {
            break (l, most - random.below(most - before));
        }
    };
    let len = random.pick(&[n, n + random.below(MOST_SAMPLES - n + 1), MOST_SAMPLES]);
    let s = l.saturating_sub(m + 2);
    let cells = cells(entries, m);
    let inventory = if random.one_in(8) { cells.min(u64::MAX as u128) } else { cells } as u64;
    Summary { polarity: random.below(2), len, n, origin: origin(random, len), l, m, s, inventory, spill }
}

/// The number that gives 1 with an odd one, modulo 2^64; each step doubles the bits that are right, from 3 on.
fn inverse(odd: u64) -> u64 {
    (0..5).fold(odd, |x, _| x.wrapping_mul(2u64.wrapping_sub(odd.wrapping_mul(x))))
}

/// As many as the counts say modulo 2^61, which is what bytes that wrap leave; none where that is many.
fn wrapped_cells(random: &Random, summary: &Summary) -> Vec<u64> {
    let counted = summary.inventory.wrapping_add(summary.spill) % (1 << 61);
    (0..if counted < MOST_CELLS { counted } else { 0 }).map(|_| random.next()).collect()
}

/// "An opened image still needs the check": on its own capture, where a true image is a yes, and on another.
fn check(tally: &mut Tally, random: &Random, input: &Input, is_true: bool, read: &Read, built: &Built) {
    let Input { words, len, origin, polarity, choice, .. } = input;
    let Built { summary, inventory, spill } = built;
    for (words, own) in [(words, true), (&another(random, words, *len), false)] {
        let model = model::check(&model::Index { words, summary, inventory, spill }, *len, *origin, *polarity, choice);
        assert!(!(own && is_true) || model == Ok(true), "the model");
        let call = match (own, model) {
            (true, Ok(true)) => "check on its own capture, yes",
            (true, _) => "check on its own capture",
            (false, Ok(true)) => "check on another capture, yes",
            (false, _) => "check on another capture",
        };
        let record = ffi::Record { words, len: *len, polarity: *polarity };
        tally.equal(call, read, record.check(*origin, choice, summary, inventory, spill), model);
    }
}

/// A record of the same length: with another bit, one bit further along, words swapped, or all others.
fn another(random: &Random, words: &[u64], len: u64) -> Vec<u64> {
    let mut words = words.to_vec();
    let (at, to) = (random.below(len), random.below(len));
    let (i, j) = (at as usize / 64, to as usize / 64);
    match random.below(4) {
        // Without bits there is no other.
        _ if len == 0 => {}
        0 => words[i] ^= 1 << (at % 64),
        1 => words[i] = words[i].rotate_left(1),
        2 => words.swap(i, j),
        _ => words = random_words(random, words.len()),
    }
    words
}

/// Every single bit of several whole images, flipped; how many images, and how many bits.
fn every_bit(tally: &mut Tally) -> (usize, u64) {
    let random = Random::new(12);
    let base = |words: &[u64], len, polarity, origin, choice| {
        let mut input = damage::base(&random, words.to_vec(), len, polarity, choice);
        input.summary.origin = origin;
        Image::of(&input)
    };
    let c = record(&[0, 65_539], 65_540, ONES, 0, || 0);
    let images = [
        base(&[0x252], 10, ONES, 100, power(1, 0)),
        base(&[0x252], 10, ZEROS, 0, power(1, 0)),
        base(&c, 65_540, ONES, 1 << 40, power(1, 0)),
        base(&[], 0, ONES, 0, default()),
        base(&[0], 5, ONES, MOST_SAMPLES - 5, default()),
        base(&[random.next(), random.next()], 128, ZEROS, 1, fixed(2, 3)),
        // Ones 0, 5 and 2^32 + 100, power L 2 maximum 0: a U64 entry.
        Image {
            fields: [0, (1 << 32) + 101, 3, 7, 2, 0, 0, 3, 88, 2, 112],
            cells: vec![3 << 62, 0, (1 << 32) + 101, 5, (1 << 32) + 100],
        },
        // All that there may be of samples, selected bits, L and M.
        Image { fields: [1, MOST_SAMPLES, MOST_SAMPLES, 0, 63, 0, 61, 3, 88, 0, 112], cells: vec![0, 0, MOST_SAMPLES] },
        Image { fields: [0, 1, 0, MOST_SAMPLES - 1, 63, MOST_M, 51, 1, 88, 0, 96], cells: vec![1] },
    ];
    let mut flips = 0;
    for image in &images {
        let mut bytes = image.bytes();
        assert!(model::read_image(&bytes, MOST_CELLS as usize, MOST_CELLS as usize).is_ok(), "the model");
        let counted = |field: usize| image.fields[field] as usize;
        for bit in 0..8 * bytes.len() {
            bytes[bit / 8] ^= 1 << (bit % 8);
            let (inventory, spill) = (counted(INVENTORY) + bit % 3, counted(SPILL) + bit % 2);
            let read = Read::new(anywhere(&random), &bytes, bytes.len(), inventory, spill);
            read_call(tally, &random, "read, every bit flipped", &read);
            bytes[bit / 8] ^= 1 << (bit % 8);
            flips += 1;
        }
    }
    (images.len(), flips)
}

/// Images of half a megabyte, and of a byte more or less, at every alignment.
fn long(tally: &mut Tally) {
    let random = Random::new(14);
    let words: Vec<u64> = (0..1000).map(|_| random.next()).collect();
    for polarity in [ONES, ZEROS] {
        let input = damage::base(&random, words.clone(), 64_000, polarity, power(0, 0));
        let bytes = [&Image::of(&input).bytes()[..], &[0]].concat();
        let Input { summary, inventory, spill, .. } = &input;
        for from in 0..8 {
            let (whole, lent) = (bytes.len() - 1, summary.inventory as usize + from % 3);
            for len in [whole - 1, whole, whole + 1] {
                let read = Read::new(from, &bytes, len, lent, from % 2);
                read_call(tally, &random, "read, long", &read);
                let write = Write { summary: *summary, inventory, spill, from, place: len };
                tally.equal("write, long", &write, write.ours(), write.expected());
            }
        }
    }
}

// ------------------------------------------------------------------------------------------------ writing

const WRITE: &str = "write";
const SUMMARY: &str = "write, summary bent";
const WRAPS: &str = "write, right in 64 bits only";
const CELLS: &str = "write, cells short";
const PLACE: &str = "write, place short";
const MANY: &str = "write, several of these";

fn any_write(tally: &mut Tally, random: &Random, input: &Input) {
    let kind = random.pick(&[WRITE, WRITE, SUMMARY, SUMMARY, SUMMARY, WRAPS, CELLS, PLACE, PLACE, MANY, MANY, MANY]);
    let is = |bend| kind == bend || kind == MANY && random.one_in(2);
    let (mut summary, mut inventory, mut spill) = (input.summary, &input.inventory[..], &input.spill[..]);
    let cells;
    if kind == WRAPS || kind == MANY && random.one_in(6) {
        summary = wrapped(random, input);
        cells = wrapped_cells(random, &summary);
        (inventory, spill) = cells.split_at((summary.inventory % (1 << 61)).min(cells.len() as u64) as usize);
    }
    // The image's bytes, as far as 64 bits go.
    let whole = summary.inventory.wrapping_add(summary.spill).wrapping_mul(8).wrapping_add(88).min(1 << 20);
    if is(SUMMARY) {
        let mut fields: [u64; 9] = summary.into();
        for _ in 0..random.pick(&[1, 1, 1, 2, 3]) {
            let i = random.below(9) as usize;
            fields[i] =
                if i == ORIGIN && random.one_in(2) { origin_past(random, input.len) } else { bent(random, fields[i]) };
        }
        summary = fields.into();
    }
    if is(CELLS) {
        let short = |cells: &mut &[u64], count: u64| {
            let most = random.pick(&[0, count.saturating_sub(1)]).min(cells.len() as u64);
            *cells = &cells[..most as usize];
        };
        let which = random.below(3);
        if which != 1 {
            short(&mut inventory, summary.inventory);
        }
        if which != 0 {
            short(&mut spill, summary.spill);
        }
    }
    let place = if is(PLACE) {
        random.pick(&[whole.saturating_sub(1), whole.saturating_sub(8), 0, 87, 88, random.below(whole)])
    } else {
        whole + random.pick(&[0, 0, 1, 8, random.below(40)])
    };
    let write = Write { summary, inventory, spill, from: anywhere(random), place: place as usize };
    tally.equal(kind, &write, write.ours(), write.expected());
}

// ---------------------------------------------------------------------------------------- worked by hand

/// Record A from sample 100, record C, and what document 02 refuses, worked by hand.
fn worked(tally: &mut Tally) {
    let random = Random::new(13);
    let a = Summary { polarity: 0, len: 10, n: 4, origin: 100, l: 1, m: 0, s: 0, inventory: 5, spill: 0 };
    let c = Summary { len: 65_540, n: 2, origin: 0, inventory: 3, spill: 1, ..a };
    let a_cells = [1, 0x30000, 6, 0x30000, 10];
    let c_cells = [1 << 63, 0, 65_540, 0x0001_0003_0000_0000];
    let image = Image { fields: [0, 10, 4, 100, 1, 0, 0, 5, 88, 0, 128], cells: a_cells.to_vec() };
    let c_image = Image { fields: [0, 65_540, 2, 0, 1, 0, 0, 3, 88, 1, 112], cells: c_cells.to_vec() };
    let bytes = image.bytes();
    assert_eq!(bytes.len(), 128);
    assert_eq!((bytes[8], bytes[24], &bytes[96..104]), (10, 100, &[0, 0, 3, 0, 0, 0, 0, 0][..]), "lowest byte first");
    // A count that is right modulo 2^64 only.
    let n = 2_287_968_257_204_285_472;
    let many = Summary { len: MOST_SAMPLES, n, origin: 0, l: 0, m: 7, inventory: 33, ..a };
    let many_image = Image::new(&many, vec![7; 33]);
    // Five bits, none of them a one.
    let none = Image { fields: [0, 5, 0, 0, 0, 0, 0, 1, 88, 0, 96], cells: vec![5] };

    let mut read = |bytes: &[u8], inventory: usize, spill: usize, expected: Answer<Built>| {
        assert_eq!(model::read_image(bytes, inventory, spill), expected, "the model");
        let read = Read::new(anywhere(&random), bytes, bytes.len(), inventory, spill);
        read_call(tally, &random, "read, worked by hand", &read);
    };
    let read_a = || Ok(Built { summary: a, inventory: a_cells.to_vec(), spill: vec![] });
    read(&bytes, 5, 0, read_a());
    read(&bytes, 9, 9, read_a());
    read(&bytes, 4, 0, Err(6));
    let c_built = Built { summary: c, inventory: c_cells[..3].to_vec(), spill: c_cells[3..].to_vec() };
    read(&c_image.bytes(), 3, 1, Ok(c_built));
    read(&c_image.bytes(), 3, 0, Err(7));
    read(&c_image.bytes(), 2, 0, Err(6));
    // One byte more or less, under 88 bytes, none.
    read(&[&bytes[..], &[0]].concat(), 5, 0, Err(15));
    for len in [127, 120, 88, 87, 1, 0] {
        read(&bytes[..len], 5, 0, Err(15));
    }
    for (field, value) in [
        (0, 2),
        (0, 1 << 32),
        (LEN, 3),
        (LEN, 1 << 62),
        (ORIGIN, MOST_SAMPLES - 9),
        (ORIGIN, u64::MAX - 9),
        (L, (1 << 32) + 1),
        (L, 64),
        (M, MOST_M + 1),
        (S, 1),
        (INVENTORY, 6),
        (INVENTORY_OFFSET, 96),
        (SPILL, 1),
        (SPILL_OFFSET, 136),
    ] {
        // First in reading, whatever the places.
        for (inventory, spill) in [(5, 1), (4, 0), (0, 0)] {
            read(&image.with(field, value).bytes(), inventory, spill, Err(15));
        }
    }
    let read_none = Summary { len: 5, n: 0, origin: 0, l: 0, inventory: 1, ..a };
    read(&none.bytes(), 1, 0, Ok(Built { summary: read_none, inventory: vec![5], spill: vec![] }));
    read(&none.with(SPILL, 1 << 61).bytes(), 1, 9, Err(15));
    // By the rules but for the limit of M: an older image.
    let read_most = Summary { m: MOST_M, ..read_none };
    read(&none.with(M, MOST_M).bytes(), 1, 0, Ok(Built { summary: read_most, inventory: vec![5], spill: vec![] }));
    for m in [MOST_M + 1, reference::MAX_LOG2_WORDS as u64] {
        read(&none.with(M, m).bytes(), 1, 0, Err(15));
    }
    read(&many_image.bytes(), 33, 0, Err(15));
    // Nothing lent, pointers to nowhere.
    let nothing = Read::new(0, &[], 0, 0, 0);
    tally.equal("read, worked by hand", &nothing, ffi::read_image(&[], &mut [], &mut []), Err(15));

    let mut write = |summary, inventory: &[u64], spill: &[u64], place, expected: Answer<Vec<u8>>| {
        assert_eq!(model::write_image(&summary, inventory, spill, place), expected, "the model");
        let write = Write { summary, inventory, spill, from: anywhere(&random), place };
        tally.equal("write, worked by hand", &write, write.ours(), write.expected());
    };
    write(a, &a_cells, &[], 128, Ok(bytes.clone()));
    write(a, &a_cells, &[], 200, Ok(bytes.clone()));
    write(c, &c_cells[..3], &c_cells[3..], 120, Ok(c_image.bytes()));
    for place in [127, 120, 88, 87, 0] {
        write(a, &a_cells, &[], place, Err(16));
    }
    // A polarity that is none, then 1, 14, 9, 6, 7 and 16, with others that come later in the order.
    for (summary, refusal) in [
        (Summary { polarity: 2, len: 1 << 62, origin: u64::MAX, l: 64, ..c }, BAD_CODE),
        (Summary { polarity: 1 << 32, ..c }, BAD_CODE),
        (Summary { len: 1 << 62, origin: u64::MAX, l: 64, ..c }, 1),
        (Summary { origin: MOST_SAMPLES - 65_539, l: 64, ..c }, 14),
        (Summary { origin: u64::MAX, l: 64, ..c }, 14),
        (Summary { n: 65_541, ..c }, 9),
        (Summary { l: 64, ..c }, 9),
        (Summary { l: (1 << 32) + 1, ..c }, 9),
        (Summary { m: MOST_M + 1, ..c }, 9),
        (Summary { s: 1, ..c }, 9),
        (Summary { inventory: 4, ..c }, 9),
        (c, 6),
    ] {
        write(summary, &c_cells[..2], &[], 0, Err(refusal));
    }
    write(c, &c_cells[..3], &[], 0, Err(7));
    write(c, &c_cells[..3], &c_cells[3..], 0, Err(16));
    write(many, &[7; 33], &[], 400, Err(9));
}

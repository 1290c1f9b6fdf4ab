//! The proved exports against the functions of the reference implementation, on the same inputs.

use crate::clock::{black_box, now};
use exported::{self, Aim, Block, SIZE, WORDS};
use generator::random::Random;
use rules::family::Family::{self, OneRound, TwoRounds};
use rules::frames::{self, Said};
use rules::head::Head;
use rules::midpoint::{self, Entry, Kept, LIMIT};
use rules::reading;
use rules::records::LONGEST;
use rules::scale;
use rules::window::Device;

/// How many inputs, or heads, are taken in one measured stretch.
const MANY: usize = 64;
/// Measured stretches, after some that only warm up.
const TURNS: usize = 200;
const WARM: usize = 5;
const PHASE: usize = 7;

/// Nanoseconds of CPU time a call; `plain` is what the call is set beside: the same call of the reference implementation, or the proved midpoint (`beside`).
pub struct Row {
    pub name: String,
    pub export: f64,
    pub plain: f64,
}

impl Row {
    pub fn ratio(&self) -> f64 {
        self.export / self.plain
    }
}

/// Whether a row of this name is to be measured.
type Wanted<'a> = &'a dyn Fn(&str) -> bool;

/// One side: what is made ready outside the measured time, and the calls, which give the sum of their numbers.
type Side<'a, S> = (&'a dyn Fn() -> S, &'a dyn Fn(&mut S) -> u64);

fn stretch<S>(side: &Side<S>) -> (f64, u64) {
    let mut ready = black_box((side.0)());
    let before = now();
    let sum = black_box((side.1)(&mut ready));
    let took = now() - before;
    black_box(&ready);
    (took, sum)
}

/// Both sides in turns, the least of each; their numbers must be the same.
fn row<A, B>(wanted: Wanted, name: String, calls: usize, export: Side<A>, plain: Side<B>) -> Option<Row> {
    if !wanted(&name) {
        return None;
    }
    let mut least = (f64::MAX, f64::MAX);
    for turn in 0..WARM + TURNS {
        let (one, two) = (stretch(&export), stretch(&plain));
        assert_eq!(one.1, two.1, "{name}: other numbers");
        if turn >= WARM {
            least = (least.0.min(one.0), least.1.min(two.0));
        }
    }
    let each = |seconds: f64| seconds * 1e9 / calls as f64;
    Some(Row { name, export: each(least.0), plain: each(least.1) })
}

fn number<T>(result: Result<T, u8>) -> u64 {
    black_box(result).err().unwrap_or(0) as u64
}

fn sum(answers: &[u8]) -> u64 {
    answers.iter().map(|&answer| answer as u64).sum()
}

fn list(random: &mut Random, n: usize) -> Vec<Entry> {
    (0..n).map(|_| Some(random.between(-LIMIT, LIMIT))).collect()
}

/// A call of plain's that takes a few nanoseconds is called as the proved one is, and not compiled into the loop.
#[inline(never)]
fn plain_check(frame: &[u8]) -> u64 {
    frames::check(frame).map_or_else(u64::from, |_| 0)
}

fn frame_check(wanted: Wanted, n: usize) -> Option<Row> {
    let mut random = Random::new(1);
    let mut all = Vec::new();
    for i in 0..MANY {
        let said = [Said::Position(i as i32), Said::Silence, Said::List(list(&mut random, n)), Said::Confession];
        let mut frame = frames::write(&said[i % 4], i % n, PHASE);
        frame[0] ^= (i % 9 == 0) as u8; // some of each kind have a wrong length
        all.push(frame);
    }
    let export = |all: &mut Vec<Vec<u8>>| (0..MANY * MANY).map(|i| exported::frame_check(&mut all[i % MANY]) as u64).sum();
    let plain = |all: &mut Vec<Vec<u8>>| (0..MANY * MANY).map(|i| plain_check(&all[i % MANY])).sum();
    let ready = || all.clone();
    row(wanted, format!("frame check, all kinds, lists of {n}"), MANY * MANY, (&ready, &export), (&ready, &plain))
}

fn midpoint(wanted: Wanted, n: usize, f: usize, nulls: usize) -> Option<Row> {
    let mut random = Random::new(2);
    let marks = u32::MAX >> (32 - n) & u32::MAX << nulls;
    let entry = |j: usize, v: i32| if j < nulls { 0 } else { v };
    let table = |random: &mut Random| (0..n).flat_map(|j| entry(j, random.between(-LIMIT, LIMIT)).to_le_bytes()).collect();
    let all: Vec<Vec<u8>> = (0..MANY).map(|_| table(&mut random)).collect();
    let export = |all: &mut Vec<Vec<u8>>| {
        let mut out = 0;
        all.iter_mut().map(|table| exported::midpoint(TwoRounds, n as u32, f as u32, 2, marks, table, &mut out) as u64 + out as u64 % 8).sum()
    };
    let given = |table: &[u8]| midpoint::midpoint(TwoRounds, n, f, 2, marks, table).map_or_else(|number| number as u64, |kept| kept.position as u64 % 8);
    let plain = |all: &mut Vec<Vec<u8>>| all.iter().map(|table| given(table)).sum();
    let ready = || all.clone();
    row(wanted, format!("midpoint, ({n},{f}), {nulls} null"), MANY, (&ready, &export), (&ready, &plain))
}

/// Tables of n positions, as entries of four bytes.
fn tables(n: usize) -> Vec<Vec<u8>> {
    let mut random = Random::new(4);
    (0..MANY).map(|_| (0..n).flat_map(|_| random.between(-LIMIT, LIMIT).to_le_bytes()).collect()).collect()
}

/// Limits of 0 to 200 steps around the positions of a table.
fn limits_of(table: &[u8]) -> Vec<u8> {
    let ends = |entry: &[u8]| {
        let v = i32::from_le_bytes(entry.try_into().expect("four bytes"));
        [(v - v.rem_euclid(100)).max(-LIMIT).to_le_bytes(), (v + v.rem_euclid(101)).min(LIMIT).to_le_bytes()].concat()
    };
    table.chunks(4).flat_map(ends).collect()
}

/// Limits (document 02, A12), beside the midpoint of as many positions.
fn limits(wanted: Wanted, n: usize, f: usize) -> Option<Row> {
    let marks = u32::MAX >> (32 - n);
    let ready = || tables(n);
    let known = || tables(n).iter().map(|table| limits_of(table)).collect::<Vec<_>>();
    let ask = |all: &mut Vec<Vec<u8>>| {
        let mut range = [0; 2];
        all.iter_mut().map(|limits| black_box(exported::limits(n as u32, f as u32, 2, marks, limits, &mut range) as u64)).sum()
    };
    let settle = |all: &mut Vec<Vec<u8>>| midpoints(TwoRounds, n, f, all);
    row(wanted, format!("limits, ({n},{f})"), MANY, (&known, &ask), (&ready, &settle))
}

/// The proved midpoint of each table: the sum of the numbers.
fn midpoints(family: Family, n: usize, f: usize, all: &mut [Vec<u8>]) -> u64 {
    let (marks, mut out) = (u32::MAX >> (32 - n), 0);
    all.iter_mut().map(|table| black_box(exported::midpoint(family, n as u32, f as u32, 2, marks, table, &mut out) as u64)).sum()
}

/// Reach (document 02, A13), with each entry open in turn and wanted positions all over the range, beside the midpoint of the same tables.
fn reach(wanted: Wanted, family: Family, n: usize, f: usize) -> Option<Row> {
    let marks = u32::MAX >> (32 - n);
    let ready = || tables(n);
    let ask = |all: &mut Vec<Vec<u8>>| {
        let mut out = 0;
        let aim = |i: usize| Aim { number: (i % n) as u32, wanted: 31_250 * i as i32 - LIMIT };
        let each = all.iter_mut().enumerate();
        each.map(|(i, table)| black_box(exported::reach(family, n as u32, f as u32, 2, aim(i), marks, table, &mut out) as u64)).sum()
    };
    let settle = |all: &mut Vec<Vec<u8>>| midpoints(family, n, f, all);
    let name = if family == OneRound { "reach in a one-round ring" } else { "reach" };
    row(wanted, format!("{name}, ({n},{f})"), MANY, (&ready, &ask), (&ready, &settle))
}

/// What a scale is asked: steps or nanometres, and a ratio that is known only when the call is made.
#[derive(Clone, Copy)]
struct Asked<T> {
    of: T,
    numerator: u32,
    denominator: u32,
}

#[inline(never)]
fn plain_scale(asked: Asked<i32>) -> u64 {
    scale::scale(asked.of, asked.numerator, asked.denominator).map_or_else(u64::from, |out| out as u64 % 8)
}

#[inline(never)]
fn plain_unscale(asked: Asked<i64>) -> u64 {
    scale::unscale(asked.of, asked.numerator, asked.denominator).map_or_else(u64::from, |out| out.unwrap_or(i32::MIN) as u64 % 8)
}

fn steps_asked() -> Vec<Asked<i32>> {
    let mut random = Random::new(3);
    let mut asked = || {
        let denominator = random.between(1, LIMIT);
        Asked { of: random.between(-LIMIT, LIMIT), numerator: random.between(denominator, LIMIT) as u32, denominator: denominator as u32 }
    };
    (0..MANY * MANY).map(|_| asked()).collect()
}

/// The readings of these, of which every fifth is one nanometre off.
fn readings_asked() -> Vec<Asked<i64>> {
    let reading = |a: &Asked<i32>| scale::scale(a.of, a.numerator, a.denominator).expect("a reading") + (a.of % 5 == 0) as i64;
    steps_asked().iter().map(|a| Asked { of: reading(a), numerator: a.numerator, denominator: a.denominator }).collect()
}

fn scaling(wanted: Wanted) -> Option<Row> {
    let export = |all: &mut Vec<Asked<i32>>| {
        let mut out = 0;
        all.iter().map(|a| exported::scale(a.of, a.numerator, a.denominator, &mut out) as u64 + out as u64 % 8).sum()
    };
    let plain = |all: &mut Vec<Asked<i32>>| all.iter().map(|&asked| plain_scale(asked)).sum();
    row(wanted, "scale, from steps to nanometres".to_owned(), MANY * MANY, (&steps_asked, &export), (&steps_asked, &plain))
}

fn unscaling(wanted: Wanted) -> Option<Row> {
    let export = |all: &mut Vec<Asked<i64>>| {
        let mut out = 0;
        all.iter().map(|a| exported::unscale(a.of, a.numerator, a.denominator, &mut out) as u64 + out as u64 % 8).sum()
    };
    let plain = |all: &mut Vec<Asked<i64>>| all.iter().map(|&asked| plain_unscale(asked)).sum();
    row(wanted, "scale, from nanometres to steps".to_owned(), MANY * MANY, (&readings_asked, &export), (&readings_asked, &plain))
}

/// All sixteen bytes of a head's window.
fn window(wanted: Wanted) -> Option<Row> {
    let block = |i: usize| {
        let mut block = Block([0; SIZE]);
        block.start(TwoRounds, 5, 1, 2, position(i));
        block
    };
    let device = |i: usize| Device { head: Head::start(TwoRounds, 5, 1, 2, position(i)).expect("a start that is taken"), events: 0, mask: 0, offer: None };
    let export = |blocks: &mut Vec<Block>| {
        let mut bytes = [0; 16];
        let mut read = |block: &mut Block| {
            block.window(&mut bytes);
            sum(&bytes)
        };
        (0..MANY * MANY).map(|i| read(&mut blocks[i % MANY])).sum()
    };
    let plain = |devices: &mut Vec<Device>| (0..MANY * MANY).map(|i| sum(&black_box(devices[i % MANY].bytes()))).sum();
    let (blocks, devices) = (|| (0..MANY).map(block).collect(), || (0..MANY).map(device).collect());
    row(wanted, "reading the sixteen bytes of a window".to_owned(), MANY * MANY, (&blocks, &export), (&devices, &plain))
}

/// The host page of 32 heads that read in all three ways: the last phase end of head i kept 15,000 i and i % 2 steps more, but every fifth head
/// has passed none.
fn host_page(wanted: Wanted) -> Option<Row> {
    let frame = |link: usize, i: usize| frames::write(&Said::Position(15_000 * i as i32 + (link * i % 2) as i32), link, 1);
    let block = |i: usize| {
        let mut block = Block([0; SIZE]);
        block.start(OneRound, 2, 0, 0, 0);
        if i % 5 != 0 {
            (0..2).for_each(|link| assert_eq!(block.hear(link as u32, &mut frame(link, i)), 0));
            assert_eq!((block.close(), block.adopt()), (0, 0));
        }
        block
    };
    let head = |i: usize| {
        let mut head = Head::start(OneRound, 2, 0, 0, 0).expect("a start that is taken");
        if i % 5 != 0 {
            (0..2).for_each(|link| head.hear(link, &frame(link, i)).expect("a frame that is heard"));
            head.end_round().expect("a round that ends");
        }
        head
    };
    let export = |blocks: &mut Vec<Block>| {
        let (mut buffer, mut length) = ([0; 64 * 32], 0);
        let mut page = || exported::host_page(blocks, 32 * WORDS, 32, &mut buffer, &mut length) as u64 + length as u64 + buffer[length - 2] as u64;
        (0..MANY).map(|_| page()).sum()
    };
    let plain = |heads: &mut Vec<Head>| {
        let mut buffer = [0; 64 * 32];
        let mut page = || {
            let readings: Vec<_> = heads.iter().map(|head| reading::reading(head.kept)).collect();
            let length = reading::page(32, &readings, &mut buffer).expect("a page that fits");
            length as u64 + buffer[length - 2] as u64
        };
        (0..MANY).map(|_| page()).sum()
    };
    let (blocks, heads) = (|| (0..32).map(block).collect(), || (0..32).map(head).collect());
    row(wanted, "the host page of 32 heads".to_owned(), MANY, (&blocks, &export), (&heads, &plain))
}

/// A position for each of many heads.
fn position(i: usize) -> i32 {
    15_625 * i as i32 - 500_000
}

/// A record that plain made is kept, as C keeps a block.
fn keep(heads: &mut Vec<Head>, made: Result<Head, u8>) -> u64 {
    made.map_or_else(u64::from, |head| {
        heads.push(head);
        0
    })
}

/// Starting, in blocks that were in use. Plain makes a record anew.
fn starting(wanted: Wanted, n: usize, f: usize) -> Option<Row> {
    let used = Heard::new(n, f, 0, 0, 0);
    let export = |blocks: &mut Vec<Block>| {
        let start = |(i, block): (usize, &mut Block)| block.start(TwoRounds, n as u32, f as u32, 0, position(i)) as u64;
        blocks.iter_mut().enumerate().map(start).sum()
    };
    let plain = |heads: &mut Vec<Head>| (0..MANY).map(|i| keep(heads, Head::start(TwoRounds, n, f, 0, position(i)))).sum();
    row(wanted, format!("starting, ({n},{f})"), MANY, (&|| used.told(), &export), (&|| Vec::with_capacity(MANY), &plain))
}

/// Restarting in a confession round, the same way.
fn restarting(wanted: Wanted, n: usize, f: usize) -> Option<Row> {
    let used = Heard::new(n, f, 0, 0, 0);
    let restart = |block: &mut Block| block.restart(TwoRounds, n as u32, f as u32, 0, PHASE as u32, 1) as u64;
    let export = |blocks: &mut Vec<Block>| blocks.iter_mut().map(restart).sum();
    let plain = |heads: &mut Vec<Head>| (0..MANY).map(|_| keep(heads, Head::restart(TwoRounds, n, f, 0, PHASE, 1))).sum();
    row(wanted, format!("restarting, ({n},{f})"), MANY, (&|| used.told(), &export), (&|| Vec::with_capacity(MANY), &plain))
}

/// Writing the frame of a position, or that of a list of n positions, into a buffer.
fn writing(wanted: Wanted, n: usize, f: usize, list: bool) -> Option<Row> {
    let frame = |link: usize| frames::write(&Said::Position(position(link)), link, 1);
    let block = |i: usize| {
        let mut block = Block([0; SIZE]);
        assert_eq!(block.start(TwoRounds, n as u32, f as u32, 0, position(i)), 0);
        if list {
            (0..n).for_each(|link| assert_eq!(block.hear(link as u32, &mut frame(link)), 0));
            assert_eq!(block.close(), 0);
        }
        block
    };
    let head = |i: usize| {
        let mut head = Head::start(TwoRounds, n, f, 0, position(i)).expect("a start that is taken");
        if list {
            (0..n).for_each(|link| head.hear(link, &frame(link)).expect("a frame that is heard"));
            head.end_round().expect("a round that ends");
        }
        head
    };
    let export = |blocks: &mut Vec<Block>| {
        let (mut buffer, mut length) = ([0; LONGEST], 0);
        let mut write = |block: &mut Block| {
            let number = block.write(&mut buffer, &mut length);
            number as u64 + length as u64 + buffer[length - 1] as u64
        };
        blocks.iter_mut().map(&mut write).sum()
    };
    let plain = |heads: &mut Vec<Head>| {
        let mut buffer = [0; LONGEST];
        let mut write = |head: &Head| head.write(&mut buffer).map_or_else(u64::from, |length| length as u64 + buffer[length - 1] as u64);
        heads.iter().map(&mut write).sum()
    };
    let name = format!("writing a {}, ({n},{f})", if list { "list" } else { "position" });
    let (blocks, heads) = (|| (0..MANY).map(block).collect(), || (0..MANY).map(head).collect());
    row(wanted, name, MANY, (&blocks, &export), (&heads, &plain))
}

/// A round as a head hears it: its frames by link.
struct Heard {
    family: Family,
    n: usize,
    f: usize,
    round: usize,
    frames: Vec<Vec<u8>>,
}

impl Heard {
    /// A collection round of positions, or a confession round in which `healed` links confess, `liars` give each another list, and the others agree.
    fn new(n: usize, f: usize, round: usize, healed: usize, liars: usize) -> Heard {
        let mut random = Random::new(3);
        let truth = list(&mut random, n);
        let said = |k: usize| match round {
            0 => Said::Position(truth[k].unwrap_or(0)),
            _ if k < healed => Said::Confession,
            _ if k < healed + liars => Said::List(list(&mut Random::new(k as u64), n)),
            _ => Said::List(truth.clone()),
        };
        let frames = (0..n).map(|k| frames::write(&said(k), k, PHASE)).collect();
        Heard { family: TwoRounds, n, f, round, frames }
    }

    /// A round of a one-round ring, in which `healed` links are silent and the others give a position each.
    fn once(n: usize, f: usize, healed: usize) -> Heard {
        let mut heard = Heard { family: OneRound, ..Heard::new(n, f, 0, 0, 0) };
        for k in 0..healed {
            heard.frames[k] = frames::write(&Said::Silence, k, PHASE);
        }
        heard
    }

    fn blocks(&self) -> Vec<Block> {
        let mut blocks = vec![Block([0; SIZE]); MANY];
        for block in &mut blocks {
            block.restart(self.family, self.n as u32, self.f as u32, 0, PHASE as u32, self.round as u32);
        }
        blocks
    }

    fn heads(&self) -> Vec<Head> {
        (0..MANY).map(|_| Head::restart(self.family, self.n, self.f, 0, PHASE, self.round).expect("a restart that is taken")).collect()
    }

    /// Blocks that have heard all.
    fn told(&self) -> Vec<Block> {
        let mut ready = (self.blocks(), self.frames.clone());
        self.tell_blocks(&mut ready);
        ready.0
    }

    fn tell_blocks(&self, (blocks, frames): &mut (Vec<Block>, Vec<Vec<u8>>)) -> u64 {
        let mut hear = |block: &mut Block| (0..self.n).map(|k| block.hear(k as u32, &mut frames[k]) as u64).sum::<u64>();
        blocks.iter_mut().map(&mut hear).sum()
    }

    fn tell_heads(&self, heads: &mut [Head]) -> u64 {
        let hear = |head: &mut Head| (0..self.n).map(|k| number(head.hear(k, &self.frames[k]))).sum::<u64>();
        heads.iter_mut().map(hear).sum()
    }

    fn hearing(&self, wanted: Wanted, what: &str) -> Option<Row> {
        let name = format!("hearing {what}, ({},{})", self.n, self.f);
        let blocks = || (self.blocks(), self.frames.clone());
        row(wanted, name, MANY * self.n, (&blocks, &|ready| self.tell_blocks(ready)), (&|| self.heads(), &|heads| self.tell_heads(heads)))
    }

    /// The frames of a round in one call, by both sides.
    fn hearing_batch(&self, wanted: Wanted, what: &str) -> Option<Row> {
        let name = format!("hearing a batch of {what}, ({},{})", self.n, self.f);
        let batch: Vec<u8> = (0..self.n).flat_map(|k| [&[k as u8], &self.frames[k][..]].concat()).collect();
        let ready = |made: Vec<Block>| (made, batch.clone());
        let tell_blocks = |(blocks, batch): &mut (Vec<Block>, Vec<u8>)| {
            let (mut answers, mut count) = ([0; 32], 0);
            blocks.iter_mut().map(|block| block.hear_batch(batch, &mut answers, &mut count) as u64 + count as u64 + sum(&answers)).sum()
        };
        let tell_heads = |heads: &mut Vec<Head>| {
            let mut answers = [0; 32];
            heads.iter_mut().map(|head| head.hear_batch(&batch, &mut answers).expect("a batch that is taken") as u64 + sum(&answers)).sum()
        };
        row(wanted, name, MANY * self.n, (&|| ready(self.blocks()), &tell_blocks), (&|| self.heads(), &tell_heads))
    }

    fn closing(&self, wanted: Wanted, what: &str) -> Option<Row> {
        let name = format!("closing {what}, ({},{})", self.n, self.f);
        let blocks = || self.told();
        let heads = || {
            let mut heads = self.heads();
            self.tell_heads(&mut heads);
            heads
        };
        let close_blocks = |blocks: &mut Vec<Block>| blocks.iter_mut().map(|block| block.close() as u64).sum();
        let close_heads = |heads: &mut Vec<Head>| heads.iter_mut().map(|head| number(head.close().map(drop))).sum();
        row(wanted, name, MANY, (&blocks, &close_blocks), (&heads, &close_heads))
    }

    /// Adopting what a closing offered (document 02, A8).
    fn adopting(&self, wanted: Wanted) -> Option<Row> {
        let name = format!("adopting, ({},{})", self.n, self.f);
        let blocks = || {
            let mut blocks = self.told();
            blocks.iter_mut().for_each(|block| assert_eq!(block.close(), 0));
            blocks
        };
        let heads = || {
            let mut heads = self.heads();
            self.tell_heads(&mut heads);
            heads.into_iter().map(|mut head| (head.close().expect("a closing that is taken").expect("an offer"), head)).collect::<Vec<_>>()
        };
        let adopt_blocks = |blocks: &mut Vec<Block>| blocks.iter_mut().map(|block| block.adopt() as u64).sum();
        let adopt_heads = |heads: &mut Vec<(Kept, Head)>| {
            heads.iter_mut().map(|(kept, head)| {
                head.adopt(*kept);
                0
            }).sum()
        };
        row(wanted, name, MANY, (&blocks, &adopt_blocks), (&heads, &adopt_heads))
    }
}

/// The rows that are wanted of the proved calls that settle more than once, each beside the proved midpoint.
pub fn beside(wanted: Wanted) -> Vec<Row> {
    let mut rows = Vec::new();
    for (n, f) in [(5, 1), (16, 4), (32, 8)] {
        rows.extend([limits(wanted, n, f), reach(wanted, TwoRounds, n, f)]);
    }
    rows.push(reach(wanted, OneRound, 29, 7));
    rows.into_iter().flatten().collect()
}

/// The rows that are wanted.
pub fn rows(wanted: Wanted) -> Vec<Row> {
    let mut rows = vec![frame_check(wanted, 5), frame_check(wanted, 32)];
    rows.extend([midpoint(wanted, 5, 1, 0), midpoint(wanted, 32, 8, 0), midpoint(wanted, 32, 8, 16)]);
    rows.extend([scaling(wanted), unscaling(wanted)]);
    rows.extend([window(wanted), host_page(wanted)]);
    for (n, f) in [(5, 1), (32, 8)] {
        rows.extend([starting(wanted, n, f), restarting(wanted, n, f), writing(wanted, n, f, false), writing(wanted, n, f, true)]);
        let (collection, confession, lies) = (Heard::new(n, f, 0, 0, 0), Heard::new(n, f, 1, 0, 0), Heard::new(n, f, 1, f, f));
        rows.extend([collection.hearing(wanted, "a position"), confession.hearing(wanted, "a list")]);
        rows.extend([collection.hearing_batch(wanted, "positions"), confession.hearing_batch(wanted, "lists")]);
        rows.push(collection.closing(wanted, "a collection round"));
        rows.push(confession.closing(wanted, "a confession round, lists that agree"));
        rows.push(lies.closing(wanted, "a confession round, f confessions and f liars"));
        rows.push(confession.adopting(wanted));
    }
    for (n, f) in [(5, 1), (29, 7)] {
        rows.push(Heard::once(n, f, 0).hearing(wanted, "a one-round ring's position"));
        rows.push(Heard::once(n, f, 0).closing(wanted, "a one-round ring's round"));
        rows.push(Heard::once(n, f, 2 * f).closing(wanted, "a one-round ring's round, 2f null"));
    }
    rows.into_iter().flatten().collect()
}

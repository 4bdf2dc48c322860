//! Random calls of all kinds, valid and damaged, small and at 80 places and at both edges of 2^64, on the library and on the reference; then
//! walks, started or made up, jumps there and back, and checks of lists, right and damaged. The first difference is printed and ends the run with
//! status 1.

mod reference;

use arrangements_example::{Arrangements, Family};
use reference::{at_seam, joined, leap, refusal, stride, Kind, Listing, Tables, LARGE};
use std::cmp::Ordering;

struct Random(u64);

impl Random {
    fn next(&mut self) -> u64 {
        self.0 ^= self.0 << 13;
        self.0 ^= self.0 >> 7;
        self.0 ^= self.0 << 17;
        self.0.wrapping_mul(0x2545F4914F6CDD1D)
    }

    fn below(&mut self, n: u64) -> u64 {
        self.next() % n
    }
}

const CALLS: [&str; 8] = ["LENGTH", "COUNT", "FIRST", "LAST", "NEXT", "PREVIOUS", "RANK", "UNRANK"];

/// Kind, n and k, with their counts, of any size.
fn sizes(r: &mut Random) -> Kind {
    let kind = 1 + r.below(7);
    let top = [4, 8, 12, 27, 68, 81][r.below(6) as usize];
    let (mut n, mut k, mut counts) = (r.below(top), 0, vec![]);
    match kind {
        5 if r.below(2) == 0 => (n, k) = (r.below(81), 1 + r.below(8)), // few parts: many floors leave more than one object
        1 | 4 | 5 => k = if r.below(8) == 0 { r.below(82) } else { r.below(n + 2) },
        2 => {
            n = r.below(if top > 40 { 81 } else { top }.min(81));
            let most = if n == 0 { 1 } else { 80 / n + 2 };
            counts = (0..n).map(|_| r.below(most) as u8).collect();
        }
        6 => n = r.below(top.min(42)),
        _ => {}
    }
    Kind::of(kind, n, k, counts)
}

/// Families at the edges of 2^64 and of 80 places, and integer partitions with the largest floors.
const EDGES: [(u64, u64, u64); 27] = [
    (1, 67, 33), (1, 68, 34), (1, 80, 21), (1, 80, 22), (1, 80, 40), (3, 20, 0), (3, 21, 0), (4, 26, 9), (4, 27, 8), (4, 65, 2), (4, 66, 2), (4, 42, 3),
    (4, 49, 41), (4, 80, 75), (4, 80, 40), (5, 80, 18), (5, 80, 20), (5, 80, 2), (5, 80, 1), (5, 0, 0), (6, 36, 0), (6, 37, 0), (6, 40, 0),
    (7, 1, 0), (7, 20, 0), (7, 21, 0), (7, 80, 0),
];

/// A floor. For kind 5 one round question 10's edges or round n / k, beyond which there are no objects, one that leaves objects, a small one, or 1; for
/// the other kinds nearly always 1.
fn floor(r: &mut Random, f: &Kind) -> u64 {
    let edge = [0, 2, 79, 80, 81, u64::MAX, r.next()][r.below(7) as usize];
    if f.kind != 5 {
        return if r.below(32) == 0 { edge } else { 1 };
    }
    let most = f.n.checked_div(f.k).unwrap_or(80);
    match r.below(8) {
        0 => edge,
        1 => (most + r.below(3)).saturating_sub(1),
        2 | 3 => 1 + r.below(most.max(1)),
        4 | 5 => 1 + r.below(8),
        _ => 1,
    }
}

/// An edition. For kind 4 mostly 1 or 2, for the other kinds nearly always 1; else one round question 11's edges.
fn edition(r: &mut Random, f: &Kind) -> u64 {
    let edge = [0, 1, 2, 3, u64::MAX, r.next()][r.below(6) as usize];
    match r.below(if f.kind == 4 { 12 } else { 32 }) {
        0 => edge,
        1..=6 if f.kind == 4 => 2,
        _ => 1,
    }
}

/// A family, mostly one that the questions let pass; some at the edges.
fn family(r: &mut Random) -> Kind {
    let edge = r.below(6) == 0;
    let (kind, n, k) = EDGES[r.below(EDGES.len() as u64) as usize];
    let mut f = if edge { Kind::of(kind, n, k, vec![]) } else { sizes(r) };
    f.floor = floor(r, &f);
    f.edition = edition(r, &f);
    if edge {
        return f;
    }
    match r.below(40) {
        0 => f.kind = r.below(9),
        1 => f.n = [41, 81, r.next()][r.below(3) as usize],
        2 => f.k = r.next(),
        3 => f.counts.push(r.below(256) as u8),
        4 => f.kind = r.next(),
        _ => {}
    }
    f
}

fn shuffle(r: &mut Random, x: &mut [u8]) {
    for i in (1..x.len()).rev() {
        x.swap(i, r.below(i as u64 + 1) as usize);
    }
}

/// A derangement of many models at an end of its listing, or at a seam of it: the cuts of more than some number of models, and those of fewer, are all the
/// first, all the last, or any; the cut between is any, or the first or the last of its half.
fn near_an_end(r: &mut Random, models: u64) -> Vec<u8> {
    let (outer, inner) = (r.below(3), r.below(3));
    let some = if r.below(2) == 0 { models } else { r.below(models + 1) };
    let (mut cuts, mut n, mut turned) = (vec![], models, false);
    while n > 0 {
        let turns = n <= some && !turned;
        turned |= turns;
        let cut = match if turns { r.below(5) } else if turned { inner } else { outer } {
            _ if n == 2 => (true, 1),
            0 => (false, 1),
            1 => (n > 3, n - 1),
            2 => (n > 3 && r.below(2) == 0, 1 + r.below(n - 1)),
            3 => (false, n - 1),
            _ => (n > 3, 1),
        };
        cuts.push((cut.0, cut.1 as u8));
        n -= 1 + cut.0 as u64;
    }
    joined(&cuts)
}

/// An object of a family whose ranks the reference cannot tell: the bytes shuffled, for set partitions the blocks numbered again, for derangements until no
/// byte keeps its place; half of these are near an end.
fn shuffled(r: &mut Random, f: &Kind) -> Vec<u8> {
    if f.kind == 7 && r.below(2) == 0 {
        return near_an_end(r, f.n);
    }
    let mut x: Vec<u8> = match f.kind {
        1 => (1..=f.n as u8).collect(),
        4 => (0..f.n).map(|i| if i < f.k { i as u8 + 1 } else { r.below(f.k) as u8 + 1 }).collect(),
        _ => f.letters().iter().enumerate().flat_map(|(i, &c)| vec![i as u8 + 1; c]).collect(),
    };
    shuffle(r, &mut x);
    match f.kind {
        7 => {
            while !f.holds(&x) {
                shuffle(r, &mut x);
            }
        }
        1 => {
            x.truncate(f.k as usize);
            x.sort();
        }
        4 => {
            let mut firsts: Vec<u8> = vec![];
            for b in x.iter_mut() {
                let at = firsts.iter().position(|a| a == b).unwrap_or(firsts.len());
                if at == firsts.len() {
                    firsts.push(*b);
                }
                *b = at as u8 + 1;
            }
        }
        _ => {}
    }
    x
}

/// A buffer: an object, an object with a byte changed or brought to its place, one of a lower floor, or any bytes of some length.
fn buffer(r: &mut Random, t: &Tables, f: &Kind, usable: bool) -> Vec<u8> {
    if !usable || r.below(12) == 0 {
        return (0..r.below(90)).map(|_| r.below(5) as u8).collect();
    }
    let count = f.count(t);
    let rank = match r.below(4) {
        0 => 0,
        1 => count - 1,
        _ => (((r.next() as u128) << 40) ^ r.next() as u128) % count,
    };
    if f.floor > 1 && r.below(6) == 0 {
        let lower = Kind { floor: 1 + r.below(f.floor - 1), ..f.clone() };
        return lower.unrank(t, r.next() as u128 % lower.count(t));
    }
    let mut x = if count >= LARGE && ![5, 6].contains(&f.kind) && r.below(4) > 0 { shuffled(r, f) } else { f.unrank(t, rank) };
    match r.below(10) {
        0 if !x.is_empty() => {
            let i = r.below(x.len() as u64) as usize;
            x[i] = r.below(4) as u8 + if r.below(2) == 0 { x[i] } else { 0 };
        }
        1 => x.push(1),
        2 => {
            x.pop();
        }
        3 if f.kind == 7 && !x.is_empty() => {
            let i = r.below(x.len() as u64) as usize;
            let there = x.iter().position(|&a| a as usize == i + 1).unwrap();
            x.swap(i, there);
        }
        _ => {}
    }
    x
}

/// A call in words; its number is a rank, what a walk keeps, or how far a jump goes.
fn describe(f: &Kind, call: &str, number: i128, x: &[u8]) -> String {
    let (kind, n, k, floor, edition, counts) = (f.kind, f.n, f.k, f.floor, f.edition, &f.counts);
    format!("{call} on kind {kind} n {n} k {k} floor {floor} edition {edition} counts {counts:?} number {number} bytes {x:?}")
}

/// Is y just after x? Both are objects, y the larger one, and its rank is one more; in a family whose ranks the reference cannot tell, among the objects that
/// share what x and y have in common behind (or in front of) all their differences. Of derangements it needs no ranks then.
fn is_next(t: &Tables, f: &Kind, x: &[u8], y: &[u8]) -> bool {
    if !f.holds(x) || !f.holds(y) || f.order(x, y) != Ordering::Less {
        return false;
    }
    let (g, a, b) = if f.count(t) < LARGE { (f.clone(), x.to_vec(), y.to_vec()) } else { f.narrowed(x, y) };
    match g.kind {
        _ if g.count(t) < LARGE => g.rank(t, &b) == g.rank(t, &a) + 1,
        7 => at_seam(t, &a, &b),
        _ => true,
    }
}

fn library(f: &Kind) -> Arrangements {
    Arrangements { family: Family { floor: f.floor, edition: f.edition, ..Family::of(f.kind, f.n, f.k) }, counts: f.counts.clone() }
}

/// Has the family objects, and so a count that the reference can be asked for?
fn usable(t: &Tables, f: &Kind) -> bool {
    [0, 6].contains(&refusal(t, f, "FIRST", &[], 0))
}

/// The number of a walk that nobody started: its object's or one off it, the edges of the count and of 64 bits, or any.
fn made_up(r: &mut Random, t: &Tables, f: &Kind, x: &[u8]) -> u64 {
    let count = if usable(t, f) { f.count(t).min(u64::MAX as u128) as u64 } else { 1 + r.below(100) };
    let at = if refusal(t, f, "RANK", x, 0) == 0 { f.rank(t, x) as u64 } else { r.below(count) };
    match r.below(9) {
        0 => 0,
        1 => count - 1,
        2 => count,
        3 => u64::MAX,
        4 => r.next(),
        5 => r.below(count),
        6 => at.wrapping_sub(1),
        7 => at.wrapping_add(1),
        _ => at,
    }
}

/// The family with another count list beside it: a letter more or less, a count changed, or two counts exchanged.
fn other_lists(r: &mut Random, f: &Kind) -> Kind {
    let mut g = f.clone();
    let letters = g.counts.len();
    match r.below(4) {
        0 if letters > 0 => g.counts.truncate(letters - 1),
        1 if letters > 0 => g.counts[r.below(letters as u64) as usize] ^= 1,
        2 if letters > 0 => g.counts.swap(0, r.below(letters as u64) as usize),
        _ => g.counts.push(r.below(2) as u8),
    }
    g
}

/// What the steps of all walks, or all jumps, came to.
#[derive(Default)]
struct Outcomes {
    moved: u64,
    ended: u64,
    refused: u64,
}

impl Outcomes {
    fn add(&mut self, code: u32) {
        match code {
            0 => self.moved += 1,
            100 => self.ended += 1,
            _ => self.refused += 1,
        }
    }
}

impl std::fmt::Display for Outcomes {
    fn fmt(&self, out: &mut std::fmt::Formatter) -> std::fmt::Result {
        write!(out, "{} moved, {} heard END and {} were refused", self.moved, self.ended, self.refused)
    }
}

/// A walk of up to 12 steps, started by RANK or made up, mostly in a family that has walks; a step in ten is handed other lists, and half
/// of the steps that don't move end the walk. Where it was started, its number must be the reference's rank after every step, too.
fn walk(r: &mut Random, t: &Tables, steps: &mut Outcomes) -> Result<(), String> {
    let mut f = family(r);
    while r.below(8) > 0 && !(usable(t, &f) && f.count(t) < 1 << 64) {
        f = family(r);
    }
    let mut x = buffer(r, t, &f, usable(t, &f));
    let mut number = made_up(r, t, &f, &x);
    let started = r.below(2) == 0 && library(&f).rank(&x, &mut number) == 0;
    let lean = r.below(3);
    for _ in 0..=r.below(12) {
        let on = lean == 0 || lean == 1 && r.below(2) == 0;
        let g = if r.below(10) == 0 { other_lists(r, &f) } else { f.clone() };
        let (mut y, mut after) = (x.clone(), number);
        let code = if on { library(&g).walk_next(&mut y, &mut after) } else { library(&g).walk_previous(&mut y, &mut after) };
        let expected = stride(t, &g, on, &x, number);
        if (code, &y, after) != (expected.0, &expected.1, expected.2) || started && f.rank(t, &y) != after as u128 {
            let step = describe(&g, if on { "WALK NEXT" } else { "WALK PREVIOUS" }, number as i128, &x);
            return Err(format!("{step}\nthe library answered {code} with number {after} and bytes {y:?}; expected {expected:?}"));
        }
        steps.add(code);
        if code != 0 && r.below(2) == 0 {
            break;
        }
        (x, number) = (y, after);
    }
    Ok(())
}

/// How far to jump from x: 0, little or much, to both ends of the listing and of 64 bits, to any object, or anywhere.
fn distance(r: &mut Random, t: &Tables, f: &Kind, x: &[u8]) -> i64 {
    let count = if usable(t, f) { f.count(t).min(1 << 64) as i128 } else { 100 };
    let at = if refusal(t, f, "RANK", x, 0) == 0 { f.rank(t, x) as i128 } else { 0 };
    let little = r.below(7) as i128 - 3;
    let d = match r.below(10) {
        0 => 0,
        1 => little,
        2 => r.below(2001) as i128 - 1000,
        3 => little - at,
        4 => little + count - at,
        5 => i64::MIN as i128 + r.below(3) as i128,
        6 => i64::MAX as i128 - r.below(3) as i128,
        7 => r.next() as i64 as i128,
        _ => r.next() as i128 % count - at,
    };
    d.clamp(i64::MIN as i128, i64::MAX as i128) as i64
}

/// A jump, seven times in eight in a family of that kind that has ranks; where it lands and -d is a number, then the jump back.
fn jump(r: &mut Random, t: &Tables, kind: u64, outcomes: &mut Outcomes) -> Result<(), String> {
    let (mut f, any) = (family(r), r.below(8) == 0);
    while !any && !(f.kind == kind && usable(t, &f) && f.count(t) < 1 << 64) {
        f = family(r);
    }
    let x = buffer(r, t, &f, usable(t, &f));
    let d = distance(r, t, &f, &x);
    let mut y = x.clone();
    let code = library(&f).jump(d, &mut y);
    let expected = leap(t, &f, d, &x);
    if (code, &y) != (expected.0, &expected.1) {
        let what = describe(&f, "JUMP", d as i128, &x);
        return Err(format!("{what}\nthe library answered {code} with bytes {y:?}; expected {expected:?}"));
    }
    outcomes.add(code);
    if code != 0 || d == i64::MIN {
        return Ok(());
    }
    let mut z = y.clone();
    let back = library(&f).jump(-d, &mut z);
    if (back, &z) != (0, &x) {
        let what = describe(&f, "JUMP BACK", -d as i128, &y);
        return Err(format!("{what}\nthe library answered {back} with bytes {z:?}; expected {:?}", (0, x)));
    }
    Ok(())
}

/// What all checks came to.
#[derive(Default)]
struct Verdicts {
    accepted: u64,
    other: u64,
    missing: u64,
    beyond: u64,
    misfits: u64,
    refused: u64,
}

impl std::fmt::Display for Verdicts {
    fn fmt(&self, out: &mut std::fmt::Formatter) -> std::fmt::Result {
        let (other, missing, beyond) = (self.other, self.missing, self.beyond);
        write!(out, "{} accepted, {} wrong ({other} at another entry, {missing} at a missing one, ", self.accepted, other + missing + beyond)?;
        write!(out, "{beyond} beyond the last object) and {} refused ({} by 12)", self.refused + self.misfits, self.misfits)
    }
}

/// A place in a list of so many, often the first or the last.
fn place(r: &mut Random, many: usize) -> usize {
    match r.below(6) {
        0 => 0,
        1 => many - 1,
        _ => r.below(many as u64) as usize,
    }
}

/// Damages a list in one way: a byte changed, an entry dropped, doubled, in the place of another, one appended, two exchanged, the list cut off, turned round
/// or begun elsewhere. Of a list without entries, or without bytes, only some of these do anything.
fn damage(r: &mut Random, own: &mut Vec<Vec<u8>>, size: usize) {
    if own.is_empty() {
        return own.push(vec![r.below(4) as u8; size]);
    }
    let (i, j) = (place(r, own.len()), place(r, own.len()));
    match r.below(12) {
        0..=2 if size > 0 => {
            let at = place(r, size);
            let b = own[i][at];
            own[i][at] = [b.wrapping_add(1), b.wrapping_sub(1), 0, 255, own[j][at], r.below(82) as u8][r.below(6) as usize];
        }
        3 => {
            own.remove(i);
        }
        4 => own.insert(i, own[i].clone()),
        5 => own[i] = own[j].clone(),
        6 => own.push(own[i].clone()),
        7 => own.push((0..size).map(|_| r.below(4) as u8).collect()),
        8 => own.swap(i, j),
        9 if i + 1 < own.len() => own.swap(i, i + 1),
        10 => own.truncate(i),
        11 if r.below(2) == 0 => own.reverse(),
        _ => own.rotate_left(i),
    }
}

/// A number of entries whose bytes are so many only where all but the lowest bits are lost; the largest where there is none.
fn wrapped(r: &mut Random, size: usize, bits: u32, bytes: usize) -> u64 {
    let totals = (1..size as u128).map(|turns| bytes as u128 + (turns << bits)).filter(|total| total % size as u128 == 0);
    let found: Vec<u64> = totals.map(|total| (total / size as u128) as u64).collect();
    if found.is_empty() { u64::MAX } else { found[r.below(found.len() as u64) as usize] }
}

/// Other numbers of entries, or of bytes: one off, an entry's bytes off, at the edges of 64 bits, or such as `wrapped` finds.
fn misfit(r: &mut Random, size: usize, entries: &mut u64, bytes: &mut Vec<u8>) {
    match r.below(12) {
        0 => bytes.push(r.below(4) as u8),
        1 => bytes.truncate(bytes.len().saturating_sub(1)),
        2 => bytes.extend(vec![1; size]),
        3 => bytes.truncate(bytes.len().saturating_sub(size)),
        4 => *entries += 1,
        5 => *entries = entries.saturating_sub(1),
        6 | 7 => {
            bytes.truncate([bytes.len(), place(r, bytes.len() + 1)][r.below(2) as usize]);
            let bits = [64, 64, 32][r.below(3) as usize];
            *entries = wrapped(r, size, bits, bytes.len());
        }
        8 => (*entries, *bytes) = (1 << r.below(64), vec![]),
        9 => *entries = u64::MAX - r.below(3),
        10 => *entries = r.next(),
        _ => *entries = r.below(4),
    }
}

/// A list of a family that has objects: the whole listing where it isn't too long, else some objects of its beginning; mostly damaged in a way or two.
fn supplied(r: &mut Random, t: &Tables, f: &Kind, listing: &mut Listing) -> (u64, Vec<u8>) {
    let most = [20, 100, 100, 100, 100, 1000, 1000, 3000][r.below(8) as usize];
    let count = f.count(t);
    let many = if count <= most as u128 { count as u64 } else { r.below(most.min(1000)) };
    let (mut own, size) = (listing.first(many as usize).to_vec(), f.length());
    for _ in 0..[0, 0, 1, 1, 1, 2][r.below(6) as usize] {
        damage(r, &mut own, size);
    }
    let (mut entries, mut bytes) = (own.len() as u64, own.concat());
    if r.below(8) == 0 {
        misfit(r, size, &mut entries, &mut bytes);
    }
    (entries, bytes)
}

/// The check of a list, seven times in eight in a family of that kind that has objects. Of a wrong list any wrong place may be told; that it is the smallest is
/// what the code promises inside, and compared, too. No byte lent changes, nor the place but where it is told.
fn check(r: &mut Random, t: &Tables, kind: u64, verdicts: &mut Verdicts) -> Result<(), String> {
    let (mut f, any) = (family(r), r.below(8) == 0);
    while !any && !(f.kind == kind && usable(t, &f)) {
        f = family(r);
    }
    let mut listing = Listing::new(t, &f);
    let (entries, bytes) = if usable(t, &f) {
        supplied(r, t, &f, &mut listing)
    } else {
        let (entries, size) = (r.below(4), r.below(90));
        ([entries, entries, r.next()][r.below(3) as usize], vec![1; (entries * size) as usize])
    };
    let (lib, lent, mut told) = (library(&f), bytes.clone(), 77);
    let code = lib.check(entries, &lent, &mut told);
    let refused = listing.refusal(entries, &bytes);
    let smallest = if refused == 0 { listing.wrong(entries, &bytes) } else { None };
    let good = match code {
        _ if refused != 0 => code == refused && told == 77,
        0 => smallest.is_none() && told == 77,
        101 => listing.is_wrong(entries, &bytes, told),
        _ => false,
    };
    if !good || code == 101 && smallest != Some(told) || lent != bytes || lib.counts != f.counts {
        let what = describe(&f, "CHECK", entries as i128, &bytes);
        return Err(format!("{what}\nthe library answered {code} with place {told}; expected refusal {refused}, smallest wrong place {smallest:?}"));
    }
    match code {
        0 => verdicts.accepted += 1,
        101 if told >= entries => verdicts.missing += 1,
        101 if told as u128 >= f.count(t) => verdicts.beyond += 1,
        101 => verdicts.other += 1,
        12 => verdicts.misfits += 1,
        _ => verdicts.refused += 1,
    }
    Ok(())
}

/// Makes so many of them; the first that differs is printed and ends the run.
fn each_agrees(what: &str, times: u64, mut one: impl FnMut(u64) -> Result<(), String>) {
    for turn in 0..times {
        if let Err(difference) = one(turn) {
            println!("{what} {turn}: {difference}");
            std::process::exit(1);
        }
    }
}

fn main() {
    let calls: u64 = std::env::args().nth(1).map_or(300_000, |a| a.parse().unwrap());
    let seed: u64 = std::env::args().nth(2).map_or(1, |a| a.parse().unwrap());
    let (t, mut r) = (Tables::new(), Random(0x9E3779B97F4A7C15 ^ seed));
    let mut answered = 0u64;
    for turn in 0..calls {
        let f = family(&mut r);
        let (lib, usable) = (library(&f), usable(&t, &f));
        let x = buffer(&mut r, &t, &f, usable);
        let call = CALLS[r.below(8) as usize];
        let ranks = if usable { f.count(&t).min(u64::MAX as u128) as u64 } else { 1 };
        let rank = match r.below(4) {
            0 => r.below(100),
            1 => ranks - r.below(2),
            2 => r.below(ranks),
            _ => r.next(),
        };
        let (mut y, mut value) = (x.clone(), 77u64);
        let code = match call {
            "LENGTH" => lib.object_length(&mut value),
            "COUNT" => lib.count(&mut value),
            "FIRST" => lib.first(&mut y),
            "LAST" => lib.last(&mut y),
            "NEXT" => lib.next(&mut y),
            "PREVIOUS" => lib.previous(&mut y),
            "RANK" => lib.rank(&x, &mut value),
            _ => lib.unrank(rank, &mut y),
        };
        let expected = refusal(&t, &f, call, &x, rank);
        let good = if expected != 0 {
            code == expected && y == x && value == 77
        } else {
            answered += 1;
            let count = f.count(&t);
            match call {
                "LENGTH" => code == 0 && value as usize == f.length(),
                "COUNT" => code == 0 && value as u128 == count,
                "FIRST" => code == 0 && y == f.unrank(&t, 0),
                "LAST" => code == 0 && f.holds(&y) && f.last(&t).map_or(true, |z| y == z),
                "NEXT" if code == 100 => y == x && f.last(&t).map_or(true, |z| x == z),
                "NEXT" => code == 0 && is_next(&t, &f, &x, &y),
                "PREVIOUS" if code == 100 => y == x && x == f.unrank(&t, 0),
                "PREVIOUS" => code == 0 && is_next(&t, &f, &y, &x),
                "RANK" => code == 0 && value as u128 == f.rank(&t, &x),
                _ => code == 0 && y == f.unrank(&t, rank as u128),
            }
        };
        if !good {
            println!("call {turn}: {}", describe(&f, call, rank as i128, &x));
            println!("the library answered {code} with value {value} and bytes {y:?}; expected code {expected}");
            std::process::exit(1);
        }
    }
    let (walks, mut steps) = (calls / 10, Outcomes::default());
    each_agrees("walk", walks, |_| walk(&mut r, &t, &mut steps));
    let (jumps, mut landings) = (calls / 5, Outcomes::default());
    each_agrees("jump", jumps, |turn| jump(&mut r, &t, 1 + turn % 7, &mut landings));
    let (checks, mut verdicts) = (calls / 5, Verdicts::default());
    each_agrees("check", checks, |turn| check(&mut r, &t, 1 + turn % 7, &mut verdicts));
    print!("{calls} calls agree, {answered} of them answered and {} refused; ", calls - answered);
    print!("{walks} walks agree, of their steps {steps}; {jumps} jumps agree, {landings}; ");
    println!("{checks} checks agree, {verdicts}");
}

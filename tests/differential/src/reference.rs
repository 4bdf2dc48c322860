//! An independent implementation of the families: objects by the table's words, order by a comparison, numbers by counting extensions in
//! 128-bit arithmetic that stops at 2^100. It shares no code with the library: it has no steps, only ranks, so that a neighbour is the object
//! whose rank differs by one (of derangements, where ranks stop, the one that meets it at a seam); a walk's step is the object of that rank, whatever
//! number the walk keeps, a jump's goal the object whose rank is a sum in 128 bits, and a place of a list is checked against the object of that rank.

use std::cmp::Ordering;

/// Large enough to stand for "2^64 or more" without overflow on the way.
const CAP: u128 = 1 << 100;

/// From here on a count or a rank may be cut off.
pub const LARGE: u128 = 1 << 99;

fn add(a: u128, b: u128) -> u128 {
    (a + b).min(CAP)
}

fn mul(a: u128, b: u128) -> u128 {
    a.checked_mul(b).map_or(CAP, |v| v.min(CAP))
}

pub struct Tables {
    choose: Vec<Vec<u128>>,
    blocks: Vec<Vec<u128>>,
    /// parts[k][f][n]: k parts, each at least f, with the sum n
    parts: Vec<Vec<Vec<u128>>>,
    catalan: Vec<u128>,
    derangements: Vec<u128>,
}

impl Tables {
    pub fn new() -> Self {
        let mut choose = vec![vec![0u128; 82]; 82];
        let mut blocks = vec![vec![0u128; 82]; 82];
        for n in 0..82 {
            for k in 0..=n {
                choose[n][k] = if k == 0 || k == n { 1 } else { add(choose[n - 1][k - 1], choose[n - 1][k]) };
                blocks[n][k] = if n == k { 1 } else if k == 0 { 0 } else { add(blocks[n - 1][k - 1], mul(k as u128, blocks[n - 1][k])) };
            }
        }
        let mut parts = vec![vec![vec![0u128; 82]; 83]; 82];
        for f in 0..83 {
            parts[0][f][0] = 1;
        }
        for k in 1..82 {
            for f in (1..82).rev() {
                for n in 0..82 {
                    let with = if f <= n { parts[k - 1][f][n - f] } else { 0 };
                    parts[k][f][n] = add(with, parts[k][f + 1][n]);
                }
            }
        }
        let mut catalan = vec![1u128; 42];
        for n in 1..42 {
            catalan[n] = (0..n).fold(0, |s, j| add(s, mul(catalan[j], catalan[n - 1 - j])));
        }
        // D(n) = n D(n-1) + (-1)^n; what is cut off stays so
        let mut derangements = vec![1u128];
        for n in 1..82 {
            let all = mul(n as u128, derangements[n - 1]);
            derangements.push(if n % 2 == 0 { add(all, 1) } else { all - (all < CAP) as u128 });
        }
        Tables { choose, blocks, parts, catalan, derangements }
    }

    fn words(&self, counts: &[usize]) -> u128 {
        let mut sum = 0;
        let mut v = 1;
        for &c in counts {
            sum += c;
            v = mul(v, self.choose[sum][c]);
        }
        v
    }
}

#[derive(Clone, Debug)]
pub struct Kind {
    pub kind: u64,
    pub n: u64,
    pub k: u64,
    pub floor: u64,
    pub edition: u64,
    pub counts: Vec<u8>,
}

impl Kind {
    /// A family of which no more is said than this.
    pub fn of(kind: u64, n: u64, k: u64, counts: Vec<u8>) -> Self {
        Kind { kind, n, k, floor: 1, edition: 1, counts }
    }

    pub fn letters(&self) -> Vec<usize> {
        if self.kind == 3 || self.kind == 7 { vec![1; self.n as usize] } else { self.counts.iter().map(|&c| c as usize).collect() }
    }

    /// The family of the parts in which two objects differ, and these parts: what they share in front (kinds 2 and 3) or behind is left out, and of kind
    /// 7 the cuts that they share.
    pub fn narrowed(&self, x: &[u8], y: &[u8]) -> (Kind, Vec<u8>, Vec<u8>) {
        match self.kind {
            1 | 4 => {
                let (a, b) = if self.kind == 1 { (x.to_vec(), y.to_vec()) } else { (Self::keys(x), Self::keys(y)) };
                let end = (0..a.len()).rev().find(|&i| a[i] != b[i]).map_or(0, |i| i + 1);
                let most = x[..end].iter().copied().max().unwrap_or(0) as u64;
                let (n, k) = match self.kind {
                    1 if end < x.len() => (x[end] as u64 - 1, end as u64),
                    1 => (self.n, end as u64),
                    _ => (end as u64, most),
                };
                (Kind { n, k, ..self.clone() }, x[..end].to_vec(), y[..end].to_vec())
            }
            2 | 3 => {
                let start = (0..x.len()).find(|&i| x[i] != y[i]).unwrap_or(x.len());
                let mut left: Vec<u8> = self.letters().iter().map(|&c| c as u8).collect();
                x[..start].iter().for_each(|&a| left[a as usize - 1] -= 1);
                (Kind::of(2, left.len() as u64, 0, left), x[start..].to_vec(), y[start..].to_vec())
            }
            7 => {
                let (a, b) = (cuts(x), cuts(y));
                let shared = a.iter().zip(&b).take_while(|(p, q)| p == q).count();
                let (x, y) = (joined(&a[shared..]), joined(&b[shared..]));
                (Kind::of(7, x.len() as u64, 0, vec![]), x, y)
            }
            _ => (self.clone(), x.to_vec(), y.to_vec()),
        }
    }

    /// The first of questions 1, 2, 10, 11 and 3 that refuses, or 0.
    fn table(&self) -> u32 {
        let (n, k) = (self.n, self.k);
        let sum: u64 = self.counts.iter().map(|&c| c as u64).sum();
        match self.kind {
            0 | 8.. => 1,
            1 | 4 | 5 if n > 80 || k > 80 => 2,
            2 | 3 | 7 if n > 80 || k != 0 => 2,
            6 if n > 40 || k != 0 => 2,
            5 if self.floor < 1 || self.floor > 80 => 10,
            1..=4 | 6 | 7 if self.floor != 1 => 10,
            4 if self.edition < 1 || self.edition > 2 => 11,
            1 | 2 | 3 | 5 | 6 | 7 if self.edition != 1 => 11,
            2 if self.counts.len() as u64 != n || sum > 80 => 3,
            1 | 3..=7 if !self.counts.is_empty() => 3,
            _ => 0,
        }
    }

    pub fn length(&self) -> usize {
        match self.kind {
            1 | 5 => self.k as usize,
            2 => self.letters().iter().sum(),
            3 | 4 | 7 => self.n as usize,
            _ => 2 * self.n as usize,
        }
    }

    pub fn count(&self, t: &Tables) -> u128 {
        let (n, k) = (self.n as usize, self.k as usize);
        match self.kind {
            1 => t.choose[n][k],
            2 | 3 => t.words(&self.letters()),
            4 => t.blocks[n][k],
            5 => t.parts[k][self.floor as usize][n],
            7 => t.derangements[n],
            _ => t.catalan[n],
        }
    }

    pub fn holds(&self, x: &[u8]) -> bool {
        if x.len() != self.length() {
            return false;
        }
        match self.kind {
            1 => x.iter().all(|&a| a >= 1 && a as u64 <= self.n) && x.windows(2).all(|w| w[0] < w[1]),
            7 if (1..).zip(x).any(|(i, &a)| i == a) => false,
            2 | 3 | 7 => self.letters().iter().enumerate().all(|(i, &c)| x.iter().filter(|&&a| a as usize == i + 1).count() == c),
            4 => {
                let k = self.k as usize;
                let firsts: Vec<_> = (1..=k).map(|b| x.iter().position(|&a| a as usize == b)).collect();
                x.iter().all(|&a| a >= 1 && a as usize <= k) && firsts.iter().all(|p| p.is_some()) && firsts.windows(2).all(|w| w[0] < w[1])
            }
            5 => x.iter().all(|&a| a as u64 >= self.floor) && x.windows(2).all(|w| w[0] >= w[1]) && x.iter().map(|&a| a as u64).sum::<u64>() == self.n,
            _ => {
                let mut height = 0i64;
                x.iter().all(|&a| {
                    height += if a == 1 { 1 } else { -1 };
                    a <= 1 && height >= 0
                }) && height == 0
            }
        }
    }

    /// The object of a rank, by counting the objects that share what is already fixed.
    pub fn unrank(&self, t: &Tables, rank: u128) -> Vec<u8> {
        let mut r = rank;
        let (mut n, mut k) = (self.n as usize, self.k as usize);
        let mut x = Vec::new();
        match self.kind {
            1 => {
                while k > 0 {
                    let mut top = k;
                    while r >= t.choose[top - 1][k - 1] {
                        r -= t.choose[top - 1][k - 1];
                        top += 1;
                    }
                    x.insert(0, top as u8);
                    k -= 1;
                }
            }
            2 | 3 => {
                let mut left = self.letters();
                for _ in 0..self.length() {
                    for i in 0..left.len() {
                        if left[i] == 0 {
                            continue;
                        }
                        left[i] -= 1;
                        let c = t.words(&left);
                        if r < c {
                            x.push(i as u8 + 1);
                            break;
                        }
                        r -= c;
                        left[i] += 1;
                    }
                }
            }
            4 => {
                while n > 0 {
                    n -= 1;
                    for key in self.keys_in_order(k) {
                        let here = t.blocks[n][if key == 0 { k - 1 } else { k }];
                        if r < here {
                            x.insert(0, if key == 0 { k } else { key } as u8);
                            k -= (key == 0) as usize;
                            break;
                        }
                        r -= here;
                    }
                }
            }
            5 => {
                let mut p = self.floor as usize;
                while k > 0 {
                    while r >= t.parts[k - 1][p][n - p] {
                        r -= t.parts[k - 1][p][n - p];
                        p += 1;
                    }
                    x.insert(0, p as u8);
                    n -= p;
                    k -= 1;
                }
            }
            7 => {
                let mut taken = vec![];
                while n > 0 {
                    for cut in cuts_in_order(n) {
                        let here = left_by(t, n, cut);
                        if r < here {
                            taken.push(cut);
                            n -= 1 + cut.0 as usize;
                            break;
                        }
                        r -= here;
                    }
                }
                x = joined(&taken);
            }
            _ => x = dyck(t, n, r),
        }
        x
    }

    /// The last object; nothing where ranks are cut off, but of derangements.
    pub fn last(&self, t: &Tables) -> Option<Vec<u8>> {
        match self.kind {
            _ if self.count(t) < LARGE => Some(self.unrank(t, self.count(t) - 1)),
            7 => Some(last_derangement(self.n as usize)),
            _ => None,
        }
    }

    /// How many objects come before x, the same way.
    pub fn rank(&self, t: &Tables, x: &[u8]) -> u128 {
        match self.kind {
            1 => x.iter().enumerate().fold(0, |s, (i, &a)| add(s, t.choose[a as usize - 1][i + 1])),
            2 | 3 => {
                let mut left = self.letters();
                let mut r = 0;
                for &a in x {
                    for i in 0..a as usize - 1 {
                        if left[i] > 0 {
                            left[i] -= 1;
                            r = add(r, t.words(&left));
                            left[i] += 1;
                        }
                    }
                    left[a as usize - 1] -= 1;
                }
                r
            }
            4 => {
                let (mut r, mut k) = (0, self.k as usize);
                for (i, own) in Self::keys(x).into_iter().enumerate().rev() {
                    for key in self.keys_in_order(k).into_iter().take_while(|&key| key != own as usize) {
                        r = add(r, t.blocks[i][if key == 0 { k - 1 } else { k }]);
                    }
                    k -= (own == 0) as usize;
                }
                r
            }
            5 => {
                let (mut r, mut n, mut f) = (0, self.n as usize, self.floor as usize);
                for i in (0..x.len()).rev() {
                    for p in f..x[i] as usize {
                        r = add(r, if p <= n { t.parts[i][p][n - p] } else { 0 });
                    }
                    f = x[i] as usize;
                    n -= f;
                }
                r
            }
            7 => {
                let (mut r, mut n) = (0, x.len());
                for own in cuts(x) {
                    for cut in cuts_in_order(n).take_while(|&cut| cut != own) {
                        r = add(r, left_by(t, n, cut));
                    }
                    n -= 1 + own.0 as usize;
                }
                r
            }
            _ => dyck_rank(t, x),
        }
    }

    fn keys(x: &[u8]) -> Vec<u8> {
        x.iter().enumerate().map(|(i, b)| if x[..i].contains(b) { *b } else { 0 }).collect()
    }

    /// The keys that the last of some models in k blocks can have, the earliest first.
    fn keys_in_order(&self, k: usize) -> Vec<usize> {
        let mut keys: Vec<usize> = (0..=k).collect();
        keys.rotate_left((self.edition == 2) as usize);
        keys
    }

    /// Of two keys, the one that comes first: in edition 2 "the key of a model that is smallest in its block counts as higher than every block number".
    fn key_order(&self, a: u8, b: u8) -> Ordering {
        let lifted = |key| (self.edition == 2 && key == 0, key);
        lifted(a).cmp(&lifted(b))
    }

    /// "Which of two objects comes first".
    pub fn order(&self, x: &[u8], y: &[u8]) -> Ordering {
        match self.kind {
            1 | 5 => x.iter().rev().cmp(y.iter().rev()),
            2 | 3 => x.cmp(y),
            4 => {
                let (a, b) = (Self::keys(x), Self::keys(y));
                (0..a.len()).rev().map(|i| self.key_order(a[i], b[i])).find(|o| o.is_ne()).unwrap_or(Ordering::Equal)
            }
            7 => cuts(x).cmp(&cuts(y)),
            _ => dyck_order(x, y),
        }
    }
}

/// What decides the order of a derangement of n: whether n is in a cycle of two, and c, which follows it there.
pub type Cut = (bool, u8);

/// The cuts of a derangement, n's first: of each what is left is the next one's. Here it is a list of cycles, each model followed by its f.
fn cuts(x: &[u8]) -> Vec<Cut> {
    let mut cycles: Vec<Vec<u8>> = vec![];
    for i in 1..=x.len() as u8 {
        if cycles.iter().all(|cycle| !cycle.contains(&i)) {
            let mut cycle = vec![i];
            while x[*cycle.last().unwrap() as usize - 1] != i {
                cycle.push(x[*cycle.last().unwrap() as usize - 1]);
            }
            cycles.push(cycle);
        }
    }
    let (mut found, mut n) = (vec![], x.len() as u8);
    while n > 0 {
        let own = cycles.iter().position(|cycle| cycle.contains(&n)).unwrap();
        let place = cycles[own].iter().position(|&a| a == n).unwrap();
        let c = cycles[own][(place + 1) % cycles[own].len()];
        let two = cycles[own].len() == 2;
        if two {
            cycles.remove(own);
            cycles.iter_mut().flatten().for_each(|a| *a -= (*a > c) as u8);
        } else {
            cycles[own].remove(place);
        }
        n -= 1 + two as u8;
        found.push((two, c));
    }
    found
}

/// The derangement that has these cuts, by its cycles too.
pub fn joined(cuts: &[Cut]) -> Vec<u8> {
    let (mut cycles, mut n): (Vec<Vec<u8>>, u8) = (vec![], 0);
    for &(two, c) in cuts.iter().rev() {
        n += 1 + two as u8;
        if two {
            cycles.iter_mut().flatten().for_each(|a| *a += (*a >= c) as u8);
            cycles.push(vec![n, c]);
        } else {
            let own = cycles.iter().position(|cycle| cycle.contains(&c)).unwrap();
            let place = cycles[own].iter().position(|&a| a == c).unwrap();
            cycles[own].insert(place, n);
        }
    }
    let mut x = vec![0; n as usize];
    for cycle in &cycles {
        for (i, &a) in cycle.iter().enumerate() {
            x[a as usize - 1] = cycle[(i + 1) % cycle.len()];
        }
    }
    x
}

/// The cuts that a derangement of n can have, the earliest first; 2 and 3 have some that leave none.
fn cuts_in_order(n: usize) -> impl Iterator<Item = Cut> {
    [false, true].into_iter().flat_map(move |two| (1..n as u8).map(move |c| (two, c)))
}

/// How many derangements of n have this cut.
fn left_by(t: &Tables, n: usize, cut: Cut) -> u128 {
    t.derangements[n - 1 - cut.0 as usize]
}

/// The last derangement of n: cycles of two, and where n is odd one of three.
fn last_derangement(n: usize) -> Vec<u8> {
    let mut x = if n % 2 == 0 { vec![] } else { vec![3, 1, 2] };
    while x.len() < n {
        let a = x.len() as u8 + 1;
        x.extend([a + 1, a]);
    }
    x
}

/// Do two derangements of n, whose cuts of n differ, meet at a seam? The second has the next cut that leaves any; the first leaves the last of its size,
/// the second the first, which is one cycle. That needs no ranks.
pub fn at_seam(t: &Tables, x: &[u8], y: &[u8]) -> bool {
    let (a, b, n) = (cuts(x), cuts(y), x.len());
    let (left_a, left_b) = (joined(&a[1..]), joined(&b[1..]));
    let next = cuts_in_order(n).find(|&cut| cut > a[0] && left_by(t, n, cut) > 0);
    let one_cycle = (0..left_b.len()).map(|i| (i + 1) % left_b.len() + 1).eq(left_b.iter().map(|&v| v as usize));
    next == Some(b[0]) && left_a == last_derangement(left_a.len()) && one_cycle
}

fn split(x: &[u8]) -> (&[u8], &[u8]) {
    let mut height = 0;
    for (i, &a) in x.iter().enumerate() {
        height += if a == 1 { 1 } else { -1 };
        if height == 0 {
            return (&x[1..i], &x[i + 1..]);
        }
    }
    unreachable!()
}

fn dyck_order(x: &[u8], y: &[u8]) -> Ordering {
    if x.is_empty() || y.is_empty() {
        return Ordering::Equal;
    }
    let ((i, r), (j, s)) = (split(x), split(y));
    i.len().cmp(&j.len()).then_with(|| dyck_order(i, j)).then_with(|| dyck_order(r, s))
}

fn dyck(t: &Tables, n: usize, rank: u128) -> Vec<u8> {
    if n == 0 {
        return vec![];
    }
    let (mut r, mut j) = (rank, 0);
    while r >= mul(t.catalan[j], t.catalan[n - 1 - j]) {
        r -= mul(t.catalan[j], t.catalan[n - 1 - j]);
        j += 1;
    }
    let rests = t.catalan[n - 1 - j];
    let mut x = vec![1];
    x.extend(dyck(t, j, r / rests));
    x.push(0);
    x.extend(dyck(t, n - 1 - j, r % rests));
    x
}

fn dyck_rank(t: &Tables, x: &[u8]) -> u128 {
    if x.is_empty() {
        return 0;
    }
    let (i, r) = split(x);
    let (n, j) = (x.len() / 2, i.len() / 2);
    let before = (0..j).fold(0, |s, l| add(s, mul(t.catalan[l], t.catalan[n - 1 - l])));
    add(before, add(mul(dyck_rank(t, i), t.catalan[n - 1 - j]), dyck_rank(t, r)))
}

/// The first question that refuses a call, or 0. WALK is a walk's step, either way, with the number kept in place of a rank.
pub fn refusal(t: &Tables, f: &Kind, call: &str, x: &[u8], rank: u64) -> u32 {
    let q = f.table();
    if q != 0 || call == "LENGTH" {
        return q;
    }
    let count = f.count(t);
    if call != "COUNT" && count == 0 {
        return 4;
    }
    if ["COUNT", "RANK", "UNRANK", "WALK"].contains(&call) && count >= 1 << 64 {
        return 5;
    }
    if call != "COUNT" && x.len() != f.length() {
        return 6;
    }
    if ["RANK", "NEXT", "PREVIOUS", "WALK"].contains(&call) && !f.holds(x) {
        return 7;
    }
    if ["UNRANK", "WALK"].contains(&call) && rank as u128 >= count {
        return 8;
    }
    0
}

/// A step of a walk: its code, and the bytes and the number that it leaves.
pub fn stride(t: &Tables, f: &Kind, on: bool, x: &[u8], number: u64) -> (u32, Vec<u8>, u64) {
    let stays = |code| (code, x.to_vec(), number);
    let q = refusal(t, f, "WALK", x, number);
    if q != 0 {
        return stays(q);
    }
    let at = f.rank(t, x);
    match (on, at, number) {
        (true, _, _) if at + 1 == f.count(t) => stays(100),
        (true, _, _) => (0, f.unrank(t, at + 1), number + 1),
        (false, 0, _) => stays(100),
        (false, _, 0) => stays(8),
        (false, _, _) => (0, f.unrank(t, at - 1), number - 1),
    }
}

/// A jump: its code, and the bytes that it leaves.
pub fn leap(t: &Tables, f: &Kind, d: i64, x: &[u8]) -> (u32, Vec<u8>) {
    let q = refusal(t, f, "RANK", x, 0);
    if q != 0 {
        return (q, x.to_vec());
    }
    let to = f.rank(t, x) as i128 + d as i128;
    if to < 0 || to >= f.count(t) as i128 {
        return (100, x.to_vec());
    }
    (0, f.unrank(t, to as u128))
}

/// The beginning of a listing, by ranks; these are small, so that they are right where counts are cut off, too.
pub struct Listing<'a> {
    t: &'a Tables,
    f: &'a Kind,
    known: Vec<Vec<u8>>,
}

impl<'a> Listing<'a> {
    pub fn new(t: &'a Tables, f: &'a Kind) -> Self {
        Listing { t, f, known: vec![] }
    }

    pub fn first(&mut self, many: usize) -> &[Vec<u8>] {
        for rank in self.known.len()..many {
            self.known.push(self.f.unrank(self.t, rank as u128));
        }
        &self.known[..many]
    }

    /// The first question that refuses the check of a list, or 0: in place of 6, "is the byte length exactly the entries times the object length?"
    pub fn refusal(&self, entries: u64, bytes: &[u8]) -> u32 {
        match self.f.table() {
            0 if self.f.count(self.t) == 0 => 4,
            0 if entries as u128 * self.f.length() as u128 != bytes.len() as u128 => 12,
            q => q,
        }
    }

    /// Is this a place "at which the entry isn't the object of that rank, is missing, or lies beyond the last object"? Of a list that isn't refused.
    pub fn is_wrong(&mut self, entries: u64, bytes: &[u8], place: u64) -> bool {
        let (there, objects, size) = (place < entries, self.f.count(self.t), self.f.length());
        match (there, (place as u128) < objects) {
            (true, true) => {
                let at = place as usize;
                bytes[at * size..(at + 1) * size] != self.first(at + 1)[at][..]
            }
            (there, object) => there || object,
        }
    }

    /// The smallest wrong place; none where the list is the full listing.
    pub fn wrong(&mut self, entries: u64, bytes: &[u8]) -> Option<u64> {
        let places = (entries as u128).max(self.f.count(self.t)).min(u64::MAX as u128) as u64;
        (0..places).find(|&place| self.is_wrong(entries, bytes, place))
    }
}

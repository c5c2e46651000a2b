//! The engine's algorithms written plainly in Rust, to measure beside it: rows of 1,024 bits, trees loaded into them and packed from them.

use crate::engine::{Inner, One, Two};
use crate::plain;

const WORDS: usize = 16;
const ROWS: usize = 1024 * WORDS;
/// Room for the ones before each word, or of a long tree before each block of four.
const COUNTS: usize = 5462;

type Rows = [u64; ROWS];

fn place(h: usize, x: usize, y: usize) -> usize {
    (0..h).rev().fold(0, |z, k| z * 4 + (x >> k) % 2 * 2 + (y >> k) % 2)
}

fn swap(w: u64, k: u32, m: u64) -> u64 {
    (w & !(m | (m << k))) | ((w & m) << k) | ((w >> k) & m)
}

/// 8 x 8 cells, from row by row to the order of a tree's last level.
fn shuffle(w: u64) -> u64 {
    swap(swap(swap(w, 12, 0x0000_f0f0_0000_f0f0), 4, 0x00f0_00f0_00f0_00f0), 2, 0x0c0c_0c0c_0c0c_0c0c)
}

fn or_word(words: &mut [u64], p: usize, v: u64) {
    let (q, k) = (p / 64, p % 64);
    words[q] |= v << k;
    words[q + 1] |= v >> 1 >> (63 - k);
}

/// The cells put in from bit `base` on, by blocks of 8 x 8.
fn fill(rows: &Rows, g: usize, base: usize, heap: &mut [u64]) {
    for r in 0..1 << g {
        for c in (0..1 << g).step_by(8) {
            let first = r * 128 + c / 8;
            let seen = (0..8).fold(0, |w, k| w | rows[first + WORDS * k]);
            for k in (0..8).filter(|k| seen >> (8 * k) & 255 != 0) {
                let block = (0..8).fold(0, |v, i| v | (rows[first + WORDS * i] >> (8 * k) & 255) << (8 * i));
                if block != 0 {
                    or_word(heap, base + 64 * place(g, r, c + k), shuffle(block));
                }
            }
        }
    }
}

/// Which groups of four bits are not all 0.
fn summary(w: u64) -> u64 {
    let a = w | w >> 1;
    let b = (a | a >> 2) & 0x1111_1111_1111_1111;
    let c = (b | b >> 3) & 0x0303_0303_0303_0303;
    let d = (c | c >> 6) & 0x000f_000f_000f_000f;
    let e = (d | d >> 12) & 0x0000_00ff_0000_00ff;
    (e | e >> 24) & 0xffff
}

fn quiet(words: &[u64], i: usize) -> bool {
    i + 4 <= words.len() && words[i] | words[i + 1] | words[i + 2] | words[i + 3] == 0
}

fn lift(heap: &mut [u64]) {
    let mut i = heap.len();
    while 1 < i {
        if 5 < i && quiet(heap, i - 4) {
            i -= 4;
        } else {
            i -= 1;
            if heap[i] != 0 {
                or_word(heap, 16 * i - 1, summary(heap[i]));
            }
        }
    }
    for q in (1..16).rev() {
        if heap[0] >> (4 * q) & 15 != 0 {
            heap[0] |= 1 << (q - 1);
        }
    }
}

fn squeeze(heap: &mut [u64]) -> usize {
    let mut g = 0;
    let mut i = 0;
    while i < heap.len() {
        if quiet(heap, i) {
            i += 4;
            continue;
        }
        let mut w = heap[i];
        while w != 0 {
            let k = w.trailing_zeros() / 4 * 4;
            let at = 4 * (g % 16);
            heap[g / 16] = heap[g / 16] & !(15 << at) | (w >> k & 15) << at;
            w = w >> k >> 4;
            g += 1;
        }
        i += 1;
    }
    if g % 16 != 0 {
        heap[g / 16] &= (1 << (4 * (g % 16))) - 1;
    }
    g.div_ceil(16)
}

fn height(n: usize) -> usize {
    plain::side(n).trailing_zeros() as usize
}

pub fn pack(rows: &Rows, n: usize, out: &mut [u64]) -> usize {
    let h = height(n);
    let heap = &mut out[..plain::unit(n) + 1];
    heap.fill(0);
    fill(rows, h.saturating_sub(3), (1..h).map(|k| 1 << (2 * k)).sum(), heap);
    lift(heap);
    squeeze(heap)
}

struct Tree<'a> {
    words: &'a [u64],
    before: &'a [u32; COUNTS],
    sense: usize,
}

impl Tree<'_> {
    fn four(&self, b: usize) -> u64 {
        self.words.get(b / 64).map_or(0, |w| w >> (b % 64) & 15)
    }

    fn child(&self, p: usize) -> usize {
        let q = p / 64;
        let counted = if self.words.len() <= COUNTS {
            self.before[q]
        } else {
            self.words[q / 4 * 4..q].iter().fold(self.before[q / 4], |n, w| n + w.count_ones())
        };
        4 * (counted + (self.words[q] << (63 - p % 64)).count_ones()) as usize
    }

    fn dive(&self, h: usize, b: usize, x: usize, y: usize, rows: &mut Rows) {
        let mut v = self.four(b);
        if self.sense == 1 {
            v = v & 9 | v << 1 & 4 | v >> 1 & 2;
        }
        if h == 1 {
            rows[(x * 1024 + y) / 64] |= (v & 3) << (y % 64);
            rows[((x + 1) * 1024 + y) / 64] |= (v >> 2) << (y % 64);
            return;
        }
        let s = 1 << (h - 1);
        for q in 0..4 {
            if v >> q & 1 == 1 {
                let read = if self.sense == 1 { q % 2 * 2 + q / 2 } else { q };
                self.dive(h - 1, self.child(b + read), x + q / 2 * s, y + q % 2 * s, rows);
            }
        }
    }
}

pub fn load(words: &[u64], n: usize, sense: usize, rows: &mut Rows) {
    let mut before = [0; COUNTS];
    let mut ones = 0;
    for (i, w) in words.iter().enumerate() {
        if words.len() <= COUNTS {
            before[i] = ones;
        } else if i % 4 == 0 {
            before[i / 4] = ones;
        }
        ones += w.count_ones();
    }
    Tree { words, before: &before, sense }.dive(height(n), 0, 0, 0, rows);
}

fn row(rows: &Rows, i: usize) -> &[u64] {
    &rows[i * WORDS..(i + 1) * WORDS]
}

fn occupied(rows: &Rows, n: usize, list: &mut [(usize, u32); 1024]) -> usize {
    let mut m = 0;
    for i in 0..n {
        let mask = squares(rows, i);
        if mask != 0 {
            list[m] = (i, mask);
            m += 1;
        }
    }
    m
}

fn squares(rows: &Rows, i: usize) -> u32 {
    row(rows, i).iter().enumerate().fold(0, |mask, (s, &w)| mask | u32::from(w != 0) << s)
}

fn compose(a: &mut Rows, bt: &Rows, n: usize) {
    let mut list = [(0, 0); 1024];
    let m = occupied(bt, n, &mut list);
    for i in 0..n {
        let mask = squares(a, i);
        if mask == 0 {
            continue;
        }
        let mut made = [0; WORDS];
        for &(j, squares) in &list[..m] {
            if mask & squares != 0 && row(a, i).iter().zip(row(bt, j)).any(|(x, y)| x & y != 0) {
                made[j / 64] |= 1 << (j % 64);
            }
        }
        a[i * WORDS..(i + 1) * WORDS].copy_from_slice(&made);
    }
}

fn bit(set: &[u64], x: usize) -> bool {
    set[x / 64] >> (x % 64) & 1 == 1
}

fn set_bit(set: &mut [u64], x: usize) {
    set[x / 64] |= 1 << (x % 64);
}

/// The words in a mask.
fn words(mask: u32) -> impl Iterator<Item = usize> {
    (0..WORDS).filter(move |c| mask >> c & 1 == 1)
}

/// A column of row x that is not seen: of a closed record near x, if there is one.
fn fresh(rows: &Rows, mask: u32, x: usize, seen: &[u64; WORDS], closed: &[u64; WORDS]) -> Option<usize> {
    let mut found = None;
    for c in words(mask) {
        let left = rows[x * WORDS + c] & !seen[c];
        let best = left & closed[c];
        if best != 0 {
            found = Some(c * 64 + best.trailing_zeros() as usize);
            if x < c * 64 + 64 {
                return found;
            }
        } else if found.is_none() && left != 0 {
            found = Some(c * 64 + left.trailing_zeros() as usize);
        }
    }
    found
}

fn close_row(rows: &mut Rows, masks: &mut [u32; 1024], x: usize, closed: &[u64; WORDS]) {
    let mut seen = [0; WORDS];
    while let Some(z) = fresh(rows, masks[x], x, &seen, closed) {
        let whole = bit(closed, z);
        words(masks[z]).for_each(|c| rows[x * WORDS + c] |= rows[z * WORDS + c]);
        masks[x] |= masks[z];
        if whole && bit(row(rows, z), x) {
            return;
        }
        set_bit(&mut seen, z);
        if whole {
            words(masks[z]).for_each(|c| seen[c] |= rows[z * WORDS + c]);
        }
    }
}

/// Row after row is closed, in the order in which a search in depth leaves the records.
fn close(rows: &mut Rows, n: usize) {
    let mut masks = [0; 1024];
    (0..n).for_each(|x| masks[x] = squares(rows, x));
    let (mut closed, mut entered) = ([0; WORDS], [0; WORDS]);
    let mut stack = Vec::new();
    for x in 0..n {
        if masks[x] == 0 || bit(&entered, x) {
            continue;
        }
        set_bit(&mut entered, x);
        stack.push(x);
        while let Some(&top) = stack.last() {
            let next = words(masks[top]).map(|c| (c, rows[top * WORDS + c] & !entered[c])).find(|&(_, left)| left != 0);
            if let Some((c, left)) = next {
                let z = c * 64 + left.trailing_zeros() as usize;
                set_bit(&mut entered, z);
                stack.push(z);
            } else {
                stack.pop();
                close_row(rows, &mut masks, top, &closed);
                set_bit(&mut closed, top);
            }
        }
    }
}

pub fn inner(op: Inner, work: &mut [u64], n: usize, la: usize, lb: usize) -> usize {
    let mut rows = [0; ROWS];
    let first = match op {
        Inner::Product { sense, .. } => usize::from(sense != 0),
        Inner::Transpose => 1,
        _ => 0,
    };
    load(&work[..la], n, first, &mut rows);
    match op {
        Inner::Union => load(&work[la..la + lb], n, 0, &mut rows),
        Inner::Closure => close(&mut rows, n),
        Inner::Transpose => {}
        Inner::Identity => (0..n).for_each(|i| rows[i * WORDS + i / 64] |= 1 << (i % 64)),
        _ => {
            let mut second = [0; ROWS];
            let sense = usize::from(matches!(op, Inner::Product { other: 0, .. }));
            load(&work[la..la + lb], n, sense, &mut second);
            match op {
                Inner::Intersection => rows.iter_mut().zip(&second).for_each(|(a, b)| *a &= b),
                Inner::Difference => rows.iter_mut().zip(&second).for_each(|(a, b)| *a &= !b),
                _ => compose(&mut rows, &second, n),
            }
        }
    }
    pack(&rows, n, work)
}

fn within(rows: &Rows, n: usize) -> bool {
    let past = |i: usize| {
        (0..WORDS).any(|s| {
            rows[i * WORDS + s]
                & if s < n / 64 {
                    0
                } else if s == n / 64 {
                    u64::MAX << (n % 64)
                } else {
                    u64::MAX
                }
                != 0
        })
    };
    !(0..n).any(past) && rows[n * WORDS..].iter().all(|&w| w == 0)
}

pub fn well_formed(words: &[u64], n: usize) -> bool {
    if words.is_empty() {
        return true;
    }
    if words.len() > plain::unit(n) {
        return false;
    }
    let mut rows = [0; ROWS];
    load(words, n, 0, &mut rows);
    if !within(&rows, n) {
        return false;
    }
    let mut again = [0; 21847];
    let len = pack(&rows, n, &mut again);
    words == &again[..len]
}

fn settle(work: &[u64], len: usize, out: &mut [u64]) -> usize {
    out[..len].copy_from_slice(&work[..len]);
    len
}

/// A public operation on two trees, which it tests; 0 if one is not well formed.
pub fn two(op: Two, n: usize, a: &[u64], b: &[u64], out: &mut [u64], work: &mut [u64]) -> usize {
    if !well_formed(a, n) || !well_formed(b, n) {
        return 0;
    }
    work[..a.len()].copy_from_slice(a);
    work[a.len()..a.len() + b.len()].copy_from_slice(b);
    let op = match op {
        Two::Union => Inner::Union,
        Two::Intersection => Inner::Intersection,
        Two::Difference => Inner::Difference,
        Two::Product { sense, other } => Inner::Product { sense, other },
    };
    let len = inner(op, work, n, a.len(), b.len());
    settle(work, len, out)
}

/// A public operation on one tree.
pub fn one(op: One, n: usize, a: &[u64], out: &mut [u64], work: &mut [u64]) -> usize {
    if !well_formed(a, n) {
        return 0;
    }
    work[..a.len()].copy_from_slice(a);
    let op = match op {
        One::Transpose => Inner::Transpose,
        One::Closure => Inner::Closure,
    };
    let len = inner(op, work, n, a.len(), 0);
    settle(work, len, out)
}

fn put(words: &[u32], rows: &mut Rows) {
    for &p in words {
        rows[p as usize % 1048576 / 64] |= 1 << (p % 64);
    }
}

pub fn letter(work: &mut [u64], n: usize, words: &[u32]) -> usize {
    let mut rows = [0; ROWS];
    put(words, &mut rows);
    pack(&rows, n, work)
}

pub fn make(n: usize, pairs: &[u32], out: &mut [u64], work: &mut [u64]) -> usize {
    if pairs.iter().any(|&p| p as usize / 1024 >= n || p as usize % 1024 >= n) {
        return 0;
    }
    let len = letter(work, n, pairs);
    settle(work, len, out)
}

pub fn list(n: usize, a: &[u64], out: &mut [u32]) -> usize {
    if !well_formed(a, n) {
        return 0;
    }
    let mut rows = [0; ROWS];
    load(a, n, 0, &mut rows);
    let total = rows[..n * WORDS].iter().map(|w| w.count_ones() as usize).sum();
    if out.len() < total {
        return 0;
    }
    let mut t = 0;
    for (q, &word) in rows[..n * WORDS].iter().enumerate() {
        let mut rest = word;
        while rest != 0 {
            out[t] = q as u32 * 64 + rest.trailing_zeros();
            rest &= rest - 1;
            t += 1;
        }
    }
    total
}

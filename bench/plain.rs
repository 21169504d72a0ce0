// Union, membership and comparison of values in cells, in plain Rust: the same algorithms as the engine's, without contracts.
use std::cmp::Ordering;
use std::hint::black_box;
use std::time::Instant;

// How many members follow a pair of cells.
fn members(kind: i32, content: i32) -> usize {
    if kind >= 2 && content >= 0 { content as usize } else { 0 }
}

// How many cells the first value takes.
fn first(s: &[i32]) -> usize {
    let mut at = 0;
    let mut pending = 1;
    while pending > 0 && at + 1 < s.len() {
        pending = pending - 1 + members(s[at], s[at + 1]);
        at += 2;
    }
    at
}

// Union of two sets: a merge of ascending members.
fn union(a: &[i32], b: &[i32]) -> Vec<i32> {
    let mut out = Vec::with_capacity(200);
    out.extend_from_slice(&[2, 0]);
    let (mut x, mut y) = (&a[2..], &b[2..]);
    let mut made = 0;
    while !x.is_empty() && !y.is_empty() {
        let (u, us) = x.split_at(first(x));
        let (t, ts) = y.split_at(first(y));
        match u.cmp(t) {
            Ordering::Less => {
                out.extend_from_slice(u);
                x = us;
            }
            Ordering::Equal => {
                out.extend_from_slice(u);
                x = us;
                y = ts;
            }
            Ordering::Greater => {
                out.extend_from_slice(t);
                y = ts;
            }
        }
        made += 1;
    }
    // what is left of one side, member by member, to count them
    let mut rest = if x.is_empty() { y } else { x };
    while !rest.is_empty() {
        let (u, us) = rest.split_at(first(rest));
        out.extend_from_slice(u);
        rest = us;
        made += 1;
    }
    out[1] = made;
    out
}

// Whether a value is a member of a set: from the first member on.
fn contains(set: &[i32], x: &[i32]) -> bool {
    let mut rest = &set[2..];
    while !rest.is_empty() {
        let (y, more) = rest.split_at(first(rest));
        match x.cmp(y) {
            Ordering::Greater => rest = more,
            Ordering::Equal => return true,
            Ordering::Less => return false,
        }
    }
    false
}

fn equal(a: &[i32], b: &[i32]) -> bool {
    a == b
}

// The set of the numbers from 1 to n.
fn set(n: usize) -> Vec<i32> {
    let mut v = vec![2, n as i32];
    for i in 1..=n {
        v.extend_from_slice(&[0, i as i32]);
    }
    v
}

// Nanoseconds a call: the least of nine rounds.
fn time<R>(mut f: impl FnMut() -> R) -> f64 {
    const CALLS: u32 = 200_000;
    let mut best = f64::MAX;
    for _ in 0..9 {
        let start = Instant::now();
        for _ in 0..CALLS {
            black_box(f());
        }
        best = best.min(start.elapsed().as_nanos() as f64 / CALLS as f64);
    }
    best
}

fn main() {
    println!("members   union  membership  comparison   (ns a call)");
    for n in [2, 20, 99] {
        let a = set(n);
        let b = a.clone();
        let last = [0, n as i32];
        println!(
            "{n:7}  {:6.1}  {:10.1}  {:10.1}",
            time(|| union(black_box(&a), black_box(&b))),
            time(|| contains(black_box(&a), black_box(&last))),
            time(|| equal(black_box(&a), black_box(&b))),
        );
    }
}

//! Times of the archive beside the reference: both in one run by turns, the best of several, as a table in markdown.
//! `bench count SIDE OP WIDTH ROUNDS SET TIMES` calls one side and says nothing, for a counter of instructions.

mod archive;
mod files;

use files::{Kind, Problem, Rng, Rule};
use std::time::Instant;

const N: usize = 24;
const PLANS: usize = 1000;
const MOST: i32 = 2_000_000;
const TURNS: usize = 15;

/// Name, m, seeds. Seeds of the tight sets are such that a page takes milliseconds; with others it may take hours.
const SETS: [(&str, usize, [u64; 4]); 6] = [
    ("dense", 8, [1, 2, 3, 4]),
    ("dense", 2, [1, 2, 3, 4]),
    ("tight", 8, [19, 24, 27, 33]),
    ("tight", 2, [1, 2, 3, 4]),
    ("ceiling", 8, [1, 2, 3, 4]),
    ("ceiling", 2, [1, 2, 3, 4]),
];

#[derive(Clone, Copy)]
enum Op {
    Needs,
    Judge,
    Better,
    Relaxed(u32, u32),
    Restricted(u32),
    Page(u32, u32),
}

use Op::*;

fn op_of(name: &str, width: u32, rounds: u32) -> Op {
    match name {
        "needs" => Needs,
        "judge" => Judge,
        "better" => Better,
        "relaxed" => Relaxed(width, rounds),
        "restricted" => Restricted(width),
        "page" => Page(width, rounds),
        _ => panic!("no such operation"),
    }
}

struct Case {
    file: Vec<u8>,
    plan: Vec<u8>,
    ceiling: i32,
}

#[derive(PartialEq)]
struct Room {
    arcs: Vec<u8>,
    cells: Vec<i32>,
    page: Vec<u8>,
    out: Vec<i32>,
}

fn room() -> Room {
    Room { arcs: vec![0; 8 * N * 16], cells: vec![0; (N + 1) * 16 * 35], page: vec![0; PLANS * N], out: vec![0; 4] }
}

/// The same call on either side; the diagram's buffers just as long as their need.
macro_rules! call {
    ($side:ident, $op:expr, $case:expr, $room:expr) => {{
        let (c, r): (&Case, &mut Room) = ($case, $room);
        let m = c.file[6] as usize;
        let bytes = |w: u32| 8 * N * w as usize;
        let cells = |w: u32| (N + 1) * w as usize * (4 * m + 3);
        match $op {
            Needs => $side::needs(&c.file, 16, &mut r.out),
            Judge => $side::judge(&c.file, &c.plan, &mut r.out),
            Better => $side::better(&c.file, &c.plan, &c.plan) - 1,
            Relaxed(w, k) => $side::relaxed(&c.file, w, k, c.ceiling, &mut r.arcs[..bytes(w)], &mut r.cells[..cells(w)], &mut r.out),
            Restricted(w) => $side::restricted(&c.file, w, &mut r.arcs[..bytes(w)], &mut r.cells[..cells(w)], &mut r.page[..N], &mut r.out),
            Page(w, k) => {
                $side::page(&c.file, w, k, c.ceiling, &[], &mut r.arcs[..bytes(w)], &mut r.cells[..cells(w)], &mut r.page, &mut r.out)
            }
        }
    }};
}

/// A problem around a lawful plan. Dense: all steps, rules that seldom bite. Tight: some steps, rules close around a low plan.
fn drawn(g: &mut Rng, m: usize, tight: bool) -> (Problem, Vec<u8>) {
    let sets: Vec<u8> = (0..N).map(|_| if tight { g.to(1, 255) as u8 } else { 255 }).collect();
    let plan: Vec<u8> = sets.iter().map(|&s| if tight && g.in_100(85) { s.trailing_zeros() as u8 } else { g.step(s) }).collect();
    let weights = (0..N).map(|_| g.to(-100, 100)).collect();
    let mut rules = vec![];
    for r in 0..m {
        let (kind, around) = if r % 2 == 0 {
            let coefs: Vec<i32> = (0..N).map(|_| g.to(if tight { 0 } else { -20 }, 20)).collect();
            let most: i32 = coefs.iter().map(|c| 7 * c.abs()).sum();
            (Kind::Sum(coefs), if tight { most / 50 } else { most * 3 / 10 })
        } else {
            (Kind::Among(g.to(1, 254) as u8, 0xff << g.to(0, N as i32 - 8)), if tight { 0 } else { 2 })
        };
        let rule = Rule { kind, lb: 0, ub: 0 };
        let total = rule.total(&plan);
        rules.push(Rule { lb: total - around, ub: total + around, ..rule });
    }
    (Problem { sets, weights, rules }, plan)
}

/// A ceiling between plan costs: an eighth of the way from the bound below to a lawful plan's cost.
fn low_ceiling(c: &Case) -> i32 {
    let mut r = room();
    call!(reference, Relaxed(16, 64), c, &mut r);
    let dual = r.out[1];
    call!(reference, Restricted(16), c, &mut r);
    dual + (r.out[1] - dual) / 8
}

fn cases(set: usize) -> Vec<Case> {
    let (name, m, seeds) = SETS[set];
    let one = |seed: &u64| {
        let (p, plan) = drawn(&mut Rng(*seed), m, name == "tight");
        let mut c = Case { file: p.bytes(), plan, ceiling: MOST };
        if name == "ceiling" {
            c.ceiling = low_ceiling(&c);
        }
        c
    };
    seeds.iter().map(one).collect()
}

/// Microseconds a call, ours and the reference's: by turns, the least of several batches. The answers are compared first.
fn times(op: Op, cases: &[Case]) -> [f64; 2] {
    let (mut ours, mut theirs) = (room(), room());
    for c in cases {
        let numbers = [call!(archive, op, c, &mut ours), call!(reference, op, c, &mut theirs)];
        assert!(numbers == [0, 0] && ours == theirs, "the answers differ");
    }
    let mut least = [f64::MAX; 2];
    for turn in 0..2 * TURNS {
        let start = Instant::now();
        let mut calls = 0;
        while start.elapsed().as_micros() < 1000 {
            for c in cases {
                if turn % 2 == 0 {
                    call!(archive, op, c, &mut ours);
                } else {
                    call!(reference, op, c, &mut theirs);
                }
                calls += 1;
            }
        }
        let took = start.elapsed().as_nanos() as f64 / 1000.0 / calls as f64;
        least[turn % 2] = least[turn % 2].min(took);
    }
    least
}

fn table() {
    let all: Vec<Vec<Case>> = (0..SETS.len()).map(cases).collect();
    let mut rows = vec![("needs", Needs), ("judge", Judge), ("better", Better)];
    for w in [1, 4, 16] {
        rows.extend([0, 8, 64].iter().map(|&k| ("relaxed", Relaxed(w, k))));
    }
    rows.extend([1, 4, 16].iter().map(|&w| ("restricted", Restricted(w))));
    for w in [1, 4, 16] {
        rows.extend([0, 8, 64].iter().map(|&k| ("page", Page(w, k))));
    }
    print!("| Operation | Width | Rounds |");
    SETS.iter().for_each(|(name, m, _)| print!(" {}, m {} |", name, m));
    println!("\n|---|---|---|{}", "---|".repeat(SETS.len()));
    let mut ratios: Vec<(&str, f64)> = vec![];
    for (name, op) in rows {
        match op {
            Relaxed(w, k) | Page(w, k) => print!("| {} | {} | {} |", name, w, k),
            Restricted(w) => print!("| {} | {} | |", name, w),
            _ => print!("| {} | | |", name),
        }
        for c in &all {
            let [ours, theirs] = times(op, c);
            print!(" {:.2} / {:.2} = {:.2} |", ours, theirs, ours / theirs);
            ratios.push((name, ours / theirs));
        }
        println!();
    }
    println!("\n| Operation | least ratio | mean (geometric) | greatest |\n|---|---|---|---|");
    for name in ["needs", "judge", "better", "relaxed", "restricted", "page"] {
        let x: Vec<f64> = ratios.iter().filter(|r| r.0 == name).map(|r| r.1).collect();
        let mean = (x.iter().map(|r| r.ln()).sum::<f64>() / x.len() as f64).exp();
        let (least, most) = x.iter().fold((f64::MAX, 0f64), |(a, b), &r| (a.min(r), b.max(r)));
        println!("| {} | {:.2} | {:.2} | {:.2} |", name, least, mean, most);
    }
}

fn main() {
    let args: Vec<String> = std::env::args().collect();
    if args.len() == 1 {
        println!("µs a call, ours / reference = ratio; version {}, {}\n", archive::version(), std::env::consts::ARCH);
        return table();
    }
    let number = |k: usize| args[k].parse::<u32>().expect("a number");
    let op = op_of(&args[3], number(4), number(5));
    let mut r = room();
    for c in cases(number(6) as usize) {
        for _ in 0..number(7) {
            match args[2].as_str() {
                "archive" => call!(archive, op, &c, &mut r),
                _ => call!(reference, op, &c, &mut r),
            };
        }
    }
}

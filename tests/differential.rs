//! The archive beside the reference on seeded random calls: number, out cells, every byte and every cell; guards around each buffer.
//! `differential SEED COUNT [bare]`. A case is one file with one set of arguments and one operation, called once on either side.
//! With `bare` there are no guards and each buffer is just as long as it says, for a program that watches every access.

mod archive;
mod files;

use files::{Kind, Problem, Rng, Rule};

const MOST: i32 = 2_000_000;
const VERSION: u32 = 0;
const GUARD: usize = 16;
/// A page of more plans to search through than this is asked only where its walk finds plans at once; others may take very long.
const PLANS: u64 = 3000;
/// Those that make a diagram stand first, of them those with rounds.
const OPERATIONS: [&str; 6] = ["page", "relaxed", "restricted", "judge", "better", "needs"];
const PAGE: usize = 0;
const RELAXED: usize = 1;
const RESTRICTED: usize = 2;

/// A lent buffer between guards, all of it filled with one value.
#[derive(PartialEq)]
struct Lent<T> {
    all: Vec<T>,
    from: usize,
    len: usize,
}

impl<T: Copy + PartialEq> Lent<T> {
    fn new() -> Self {
        Lent { all: vec![], from: 0, len: 0 }
    }

    fn lend(&mut self, from: usize, len: usize, guard: usize, fill: T) {
        self.all = vec![fill; from + len + guard];
        self.from = from;
        self.len = len;
    }

    fn slice(&mut self) -> &mut [T] {
        &mut self.all[self.from..self.from + self.len]
    }

    fn holds_only(&self, fill: T) -> bool {
        self.all.iter().all(|&x| x == fill)
    }
}

/// What one side is lent.
#[derive(PartialEq)]
struct Side {
    arcs: Lent<u8>,
    cells: Lent<i32>,
    page: Lent<u8>,
    out: Lent<i32>,
}

impl Side {
    fn new() -> Self {
        Side { arcs: Lent::new(), cells: Lent::new(), page: Lent::new(), out: Lent::new() }
    }

    fn is_untouched(&self, fill: u8) -> bool {
        let cell = fill as i32;
        self.arcs.holds_only(fill) && self.cells.holds_only(cell) && self.page.holds_only(fill) && self.out.holds_only(cell)
    }
}

/// A call's arguments; `first` and `second` are plans of any bytes: a start, a plan to judge, a standing and a new one.
struct Case {
    file: Box<[u8]>,
    operation: usize,
    width: u32,
    rounds: u32,
    ceiling: i32,
    first: Box<[u8]>,
    second: Box<[u8]>,
    lens: [usize; 4],
    guard: usize,
    shift: usize,
    fill: u8,
}

impl Case {
    fn is_choice(&self) -> bool {
        OPERATIONS[self.operation] == "better"
    }
}

macro_rules! call {
    ($side:ident, $case:expr, $lent:expr) => {{
        let (c, l): (&Case, &mut Side) = ($case, $lent);
        l.arcs.lend(c.guard + c.shift, c.lens[0], c.guard, c.fill);
        l.cells.lend(c.guard, c.lens[1], c.guard, c.fill as i32);
        l.page.lend(c.guard + c.shift, c.lens[2], c.guard, c.fill);
        l.out.lend(c.guard, c.lens[3], c.guard, c.fill as i32);
        let (arcs, cells, page, out) = (l.arcs.slice(), l.cells.slice(), l.page.slice(), l.out.slice());
        match OPERATIONS[c.operation] {
            "page" => $side::page(&c.file, c.width, c.rounds, c.ceiling, &c.first, arcs, cells, page, out),
            "relaxed" => $side::relaxed(&c.file, c.width, c.rounds, c.ceiling, arcs, cells, out),
            "restricted" => $side::restricted(&c.file, c.width, arcs, cells, page, out),
            "judge" => $side::judge(&c.file, &c.first, out),
            "better" => $side::better(&c.file, &c.first, &c.second),
            _ => $side::needs(&c.file, c.width, out),
        }
    }};
}

/// One of these.
fn one<T: Copy>(g: &mut Rng, of: &[T]) -> T {
    of[g.to(0, of.len() as i32 - 1) as usize]
}

/// How rules stand to the drawn plan: close around it, far from it on either side, so far that all plans keep them, or anywhere.
#[derive(Clone, Copy, PartialEq)]
enum Bounds {
    Close,
    Far,
    Idle,
    Anywhere,
}

struct Drawn {
    problem: Problem,
    plan: Vec<u8>,
    bounds: Bounds,
}

fn drawn(g: &mut Rng) -> Drawn {
    let n = if g.in_100(30) { g.to(20, 24) } else { g.to(1, 19) } as usize;
    let m = if g.in_100(25) { 8 } else { g.to(0, 7) } as usize;
    let extreme = g.in_100(10);
    let bounds = match g.to(0, 99) {
        0..=63 => Bounds::Close,
        64..=79 => Bounds::Far,
        80..=93 => Bounds::Idle,
        _ => Bounds::Anywhere,
    };
    // of a hundred steps so many are in a slot's set; with few a page's walk is short also where there are many slots
    let share = if bounds == Bounds::Close { one(g, &[6, 12, 25, 60]) } else { one(g, &[12, 70]) };
    let sets: Vec<u8> = (0..n).map(|_| (0..8).fold(1 << g.to(0, 7), |s, v| s | (g.in_100(share) as u8) << v)).collect();
    let top = if extreme { 10_000 } else { one(g, &[1, 9, 300]) };
    let weights: Vec<i32> = (0..n).map(|_| any_of(g, top, extreme)).collect();
    let cheap = |s: u8, w: i32| if w < 0 { 7 - s.leading_zeros() as u8 } else { s.trailing_zeros() as u8 };
    let plan: Vec<u8> = sets.iter().zip(&weights).map(|(&s, &w)| if g.in_100(60) { cheap(s, w) } else { g.step(s) }).collect();
    let mut problem = Problem { sets, weights, rules: vec![] };
    for _ in 0..m {
        let rule = rule_for(g, n, &plan, extreme, bounds);
        problem.rules.push(rule);
    }
    Drawn { problem, plan, bounds }
}

/// A rule that the plan keeps, but for one with bounds anywhere.
fn rule_for(g: &mut Rng, n: usize, plan: &[u8], extreme: bool, bounds: Bounds) -> Rule {
    let kind = if g.in_100(50) {
        let named = g.next() as u32 | if g.in_100(50) { g.next() as u32 } else { 0 };
        let values = if g.in_100(5) { one(g, &[0, 255]) } else { g.to(1, 254) as u8 };
        Kind::Among(values, if g.in_100(5) { 0 } else { named & ((1 << n) - 1) })
    } else {
        let top = if extreme { 1000 } else { one(g, &[1, 3, 20, 200]) };
        Kind::Sum((0..n).map(|_| any_of(g, top, extreme)).collect())
    };
    let mut rule = Rule { kind, lb: 0, ub: 0 };
    let most: i32 = (0..n).map(|i| (0..8).map(|v| rule.share(i, v).abs()).max().unwrap_or(0)).sum();
    let total = rule.total(plan);
    let mut around = || match bounds {
        Bounds::Close if g.in_100(33) => 0,
        Bounds::Close => g.to(0, most / 4),
        Bounds::Far => most,
        _ => 2 * most,
    };
    rule.lb = total - around();
    rule.ub = total + around();
    if bounds == Bounds::Anywhere {
        rule.lb = g.to(-most - 2, most + 2);
        rule.ub = rule.lb + g.to(0, 1);
    }
    let widest = if extreme { 30 } else { 3 };
    rule.lb = if g.in_100(widest) { -200_000 } else { rule.lb.max(-200_000) };
    rule.ub = if g.in_100(widest) { 200_000 } else { rule.ub.min(200_000) };
    rule
}

/// A number within ±top, in an extreme file mostly one of the two ends.
fn any_of(g: &mut Rng, top: i32, extreme: bool) -> i32 {
    if extreme && g.in_100(70) {
        one(g, &[-top, top])
    } else {
        g.to(-top, top)
    }
}

/// A file that is damaged: cut, longer, a byte changed, a field at the edge of its range or over it, or any bytes at all.
fn damage(g: &mut Rng, p: &Problem, file: &mut Vec<u8>) {
    let (n, len) = (p.sets.len(), file.len());
    let mut put = |at: usize, bytes: &[u8]| file[at..at + bytes.len()].copy_from_slice(bytes);
    match (g.to(0, 7), p.rules.last()) {
        (0, _) => file.truncate(g.to(0, len as i32 - 1) as usize),
        (1, _) => file.extend(vec![g.next() as u8; g.to(1, 9) as usize]),
        (2, _) => put(g.to(0, 6) as usize, &[g.next() as u8]),
        (3, _) => file[g.to(0, len as i32 - 1) as usize] ^= 1 << g.to(0, 7),
        (4, _) => put(7 + n + 4 * g.to(0, n as i32 - 1) as usize, &edge(g, 10_000).to_le_bytes()),
        (5, Some(rule)) => {
            let lb = if g.in_100(50) { rule.ub + g.to(0, 1) } else { edge(g, 200_000) };
            put(len - 8, &lb.to_le_bytes());
            put(len - 4, &(if g.in_100(50) { rule.ub } else { edge(g, 200_000) }).to_le_bytes());
        }
        (6, Some(Rule { kind: Kind::Sum(_), .. })) => put(len - 8 - 2 * g.to(1, n as i32) as usize, &(edge(g, 1000) as i16).to_le_bytes()),
        (6, Some(_)) => put(len - 12, &(1u32 << g.to(n as i32 - 1, 31)).to_le_bytes()),
        _ => *file = (0..g.to(0, 700)).map(|_| g.next() as u8).collect(),
    }
}

/// An end of the range ±top, or the number behind it.
fn edge(g: &mut Rng, top: i32) -> i32 {
    one(g, &[top, top + 1, -top, -top - 1])
}

/// A plan of any bytes: the drawn one, near it, allowed, or anything, mostly of the right length.
fn any_plan(g: &mut Rng, d: &Drawn) -> Vec<u8> {
    let mut plan = d.plan.clone();
    match g.to(0, 9) {
        0..=3 => {}
        4 | 5 => {
            let k = g.to(0, plan.len() as i32 - 1) as usize;
            plan[k] = g.step(d.problem.sets[k]);
        }
        6 => plan.iter_mut().zip(&d.problem.sets).for_each(|(v, &s)| *v = g.step(s)),
        7 => plan.iter_mut().for_each(|v| *v = g.to(0, 8) as u8),
        8 => plan.iter_mut().for_each(|v| *v = g.next() as u8),
        _ => plan.resize(g.to(0, 30) as usize, 3),
    }
    plan
}

/// Short, exact or long.
fn len(g: &mut Rng, need: usize) -> usize {
    match g.to(0, 49) {
        0 => need - 1,
        1 => g.to(0, need as i32 - 1) as usize,
        2..=20 => need + g.to(1, 40) as usize,
        _ => need,
    }
}

fn any_rounds(g: &mut Rng) -> u32 {
    match g.to(0, 99) {
        0 => one(g, &[65, u32::MAX]),
        1..=9 => 0,
        10..=50 => g.to(1, 4) as u32,
        _ => g.to(5, 64) as u32,
    }
}

/// At a plan's cost, about it, or anywhere; one that is refused now and then.
fn any_ceiling(g: &mut Rng, cost: i32) -> i32 {
    match g.to(0, 99) {
        0 => one(g, &[MOST + 1, -MOST - 1, i32::MIN, i32::MAX]),
        1..=34 => MOST,
        35..=54 => cost,
        55..=64 => cost - 1,
        65..=74 => cost + 1,
        75..=94 => (cost + g.to(-20, 40) * (cost.abs() / 100 + 1)).min(MOST),
        95 => -MOST,
        _ => g.to(-MOST, MOST),
    }
}

fn case(g: &mut Rng, guard: usize) -> Case {
    let d = drawn(g);
    let p = &d.problem;
    let (n, m) = (p.sets.len(), p.rules.len());
    let mut file = p.bytes();
    let is_damaged = g.in_100(12);
    if is_damaged {
        damage(g, p, &mut file);
    }
    let mut operation = one(g, &[0, 0, 0, 0, 0, 0, 0, 0, 0, 0, 1, 1, 1, 1, 2, 2, 2, 3, 4, 5]);
    let width = if g.in_100(2) { one(g, &[0, 17, u32::MAX]) } else { g.to(1, 16) as u32 };
    let rounds = any_rounds(g);
    let cost: i32 = d.plan.iter().zip(&p.weights).map(|(&v, w)| w * v as i32).sum();
    let ceiling = any_ceiling(g, cost);
    let plans = p.sets.iter().fold(1u64, |x, s| x.saturating_mul(s.count_ones() as u64));
    let is_free = d.bounds == Bounds::Idle || d.bounds == Bounds::Far && ceiling == MOST;
    if operation == PAGE && plans > PLANS && (is_damaged || !is_free) {
        operation = RELAXED;
    }
    let first = if operation == PAGE && g.in_100(50) { vec![] } else { any_plan(g, &d) };
    let second = any_plan(g, &d);
    let w = (width as usize).min(20);
    let room = if g.in_100(70) { n * g.to(1, 20) as usize + g.to(0, n as i32 - 1) as usize } else { n };
    let out = [2, 3, 3, 2, 2, 4][operation];
    let lens = [len(g, (8 * n * w).max(1)), len(g, ((n + 1) * w * (4 * m + 3)).max(1)), len(g, room), len(g, out)];
    let shift = if guard > 0 { g.to(0, 7) as usize } else { 0 };
    let (file, first, second) = (file.into_boxed_slice(), first.into_boxed_slice(), second.into_boxed_slice());
    Case { file, operation, width, rounds, ceiling, first, second, lens, guard, shift, fill: g.to(1, 255) as u8 }
}

fn hex(bytes: &[u8]) -> String {
    bytes.iter().map(|b| format!("{:02x}", b)).collect()
}

fn fail(what: &str, case: [u64; 2], c: &Case, numbers: [u32; 2]) -> ! {
    println!("{}: seed {} case {}: {}", what, case[0], case[1], OPERATIONS[c.operation]);
    println!("numbers: archive {} reference {}", numbers[0], numbers[1]);
    println!("width {} rounds {} ceiling {} first {} second {}", c.width, c.rounds, c.ceiling, hex(&c.first), hex(&c.second));
    println!("lengths of arcs, cells, page, out {:?} shift {} fill {}", c.lens, c.shift, c.fill);
    println!("file {}", hex(&c.file));
    std::process::exit(1);
}

/// Calls both sides and compares all that they were lent, guards too; hands back their number.
fn compared(case: [u64; 2], c: &Case, ours: &mut Side, theirs: &mut Side) -> u32 {
    let numbers = [call!(archive, c, ours), call!(reference, c, theirs)];
    if numbers[0] != numbers[1] {
        fail("the numbers differ", case, c, numbers);
    }
    if ours != theirs {
        fail("the buffers differ", case, c, numbers);
    }
    if numbers[0] != 0 && !c.is_choice() && !ours.is_untouched(c.fill) {
        fail("a refusal changed a buffer", case, c, numbers);
    }
    numbers[0]
}

#[derive(Default)]
struct Counts {
    done: [u64; 6],
    refused: [u64; 12],
    accepted: u64,
    open: u64,
    dropped: u64,
    long: u64,
}

impl Counts {
    fn count(&mut self, c: &Case, number: u32, theirs: &mut Side) {
        self.done[c.operation] += 1;
        if !c.is_choice() {
            self.refused[number as usize] += 1;
        }
        // a choice has no number: it counts as accepted where it names a plan
        if (number == 0) == c.is_choice() {
            return;
        }
        self.accepted += 1;
        self.long += (c.file[5] >= 20) as u64;
        if c.operation <= RESTRICTED {
            let (is_open, arcs) = unfiltered(c);
            self.open += is_open as u64;
            self.dropped += (c.operation <= RELAXED && *theirs.arcs.slice() != arcs[..]) as u64;
        }
    }

    /// Were there enough of each sort, and every refusal?
    fn is_enough(&self, count: u64) -> bool {
        let at_least = |x: u64, hundredths: u64| x * 100 >= count * hundredths;
        let is_met = |x: usize| (self.refused[x] > 0) == (x != 9);
        at_least(self.accepted, 60)
            && at_least(self.open, 30)
            && at_least(self.dropped, 20)
            && at_least(self.long, 10)
            && (count < 10_000 || (0..12).all(is_met))
    }
}

/// Is the diagram open, and its arcs without a round: where they are not those of the answer a round dropped one.
fn unfiltered(c: &Case) -> (bool, Vec<u8>) {
    let (mut arcs, mut cells, mut out) = (vec![0; c.lens[0]], vec![0; c.lens[1]], [0; 3]);
    reference::relaxed(&c.file, c.width, 0, MOST, &mut arcs, &mut cells, &mut out);
    (out[2] == 0, arcs)
}

fn main() {
    let args: Vec<String> = std::env::args().collect();
    let number = |k: usize, otherwise: u64| args.get(k).map_or(otherwise, |s| s.parse().expect("a number"));
    let (seed, count) = (number(1, 1), number(2, 100_000));
    let guard = if args.get(3).map_or(false, |a| a == "bare") { 0 } else { GUARD };
    assert_eq!(archive::version(), VERSION);
    let (mut ours, mut theirs) = (Side::new(), Side::new());
    let mut x = Counts::default();
    for k in 0..count {
        let c = case(&mut Rng(seed.wrapping_mul(1 << 32).wrapping_add(k)), guard);
        let number = compared([seed, k], &c, &mut ours, &mut theirs);
        x.count(&c, number, &mut theirs);
    }
    OPERATIONS.iter().zip(&x.done).for_each(|(name, k)| print!("{} {} ", k, name));
    println!("calls; by number from 0: {:?}", x.refused);
    println!(
        "differential: seed {}, {} cases, no difference: {} accepted, {} open, {} where a round drops arcs, {} with n >= 20",
        seed, count, x.accepted, x.open, x.dropped, x.long
    );
    assert!(x.is_enough(count), "too few of one sort");
}

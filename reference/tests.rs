//! tests [REPOSITORY]: the library against the recorded calls of the repository, against the paper's steps written down as they
//! read, and against plain enumeration. Prints a line for each group; at the first mismatch the case, and ends with code 1.

use reference::*;

use std::collections::BTreeMap;
use std::fmt::Display;
use std::fs;
use std::path::Path;

const LIMIT: i32 = 2_000_000;

fn main() {
    let root = std::env::args().nth(1).unwrap_or_else(|| ".".into());
    let crates = Path::new(&root).join("crates");
    let groups: [(&str, usize); 6] = [
        ("recorded calls on files and plans", recorded(&crates.join("calls"), 5, call_of_plans)),
        ("recorded calls on diagrams and pages", recorded(&crates.join("diagrams"), 3, call_of_diagrams)),
        ("recorded reports", reports(&crates.join("programs"))),
        ("refusals and buffers", refusals()),
        ("diagrams, step by step", steps_of_the_paper(6_000)),
        ("plans, by enumeration", enumeration(6_000)),
    ];
    for (name, checks) in groups {
        println!("{name}: {checks}");
    }
    println!("reference: {} checks", groups.iter().map(|g| g.1).sum::<usize>());
}

/// Ends the program with the case where a check fails.
fn check(holds: bool, case: impl FnOnce() -> String) {
    if !holds {
        println!("mismatch: {}", case());
        std::process::exit(1);
    }
}

fn same(got: &str, wanted: &str, file: &[u8]) {
    check(got == wanted, || format!("file {}\ngot    {got}\nwanted {wanted}", hex(file)));
}

// ---- words

fn hex(bytes: &[u8]) -> String {
    if bytes.is_empty() {
        return "-".into();
    }
    bytes.iter().map(|b| format!("{b:02x}")).collect()
}

fn list<T: Display>(numbers: impl IntoIterator<Item = T>) -> String {
    let words: Vec<String> = numbers.into_iter().map(|x| x.to_string()).collect();
    words.join(",")
}

// ---- buffers, filled with other values than zero before a call

const BYTE: u8 = 0xa5;
const CELL: i32 = -1_515_870_811;

struct Lent {
    arcs: Vec<u8>,
    cells: Vec<i32>,
    plan: Vec<u8>,
    out: Vec<i32>,
}

impl Lent {
    fn new(arcs: usize, cells: usize, plan: usize, out: usize) -> Lent {
        Lent { arcs: vec![BYTE; arcs], cells: vec![CELL; cells], plan: vec![BYTE; plan], out: vec![CELL; out] }
    }

    /// Buffers of the need and a little more.
    fn fit(n: usize, m: usize, width: usize, more: usize) -> Lent {
        Lent::new(8 * n * width + more, (n + 1) * width * (4 * m + 3) + more, n + more, 3 + more)
    }

    fn is_unchanged(&self) -> bool {
        self.arcs.iter().chain(&self.plan).all(|&b| b == BYTE) && self.cells.iter().chain(&self.out).all(|&c| c == CELL)
    }

    /// The number and `unchanged` for a refusal; else the first cells of `out`, and the needed part of both buffers.
    fn told(&self, number: u32, named: usize, file: &[u8], width: usize) -> String {
        if number != 0 {
            return format!("{number} {}", if self.is_unchanged() { "unchanged" } else { "changed" });
        }
        let (n, m) = (file[5] as usize, file[6] as usize);
        let (arcs, cells) = (8 * n * width, (n + 1) * width * (4 * m + 3));
        let rest = self.arcs[arcs..].iter().any(|&b| b != 0)
            || self.cells[cells..].iter().chain(&self.out[named..]).any(|&c| c != 0);
        let rest = if rest { " rest" } else { "" };
        format!("0 {} {} {}{rest}", list(&self.out[..named]), hex(&self.arcs[..arcs]), list(&self.cells[..cells]))
    }
}

// ---- the recorded calls

/// Every call of a crate: its words in `args`, its files in `data`, its line in `stdout`.
fn recorded(dir: &Path, words: usize, call: fn(&Path, &[&str]) -> (String, Vec<u8>)) -> usize {
    let text = |name: &str| fs::read_to_string(dir.join(name)).expect(name);
    let (args, lines) = (text("args"), text("stdout"));
    let (args, lines): (Vec<&str>, Vec<&str>) = (args.lines().collect(), lines.lines().collect());
    check(args.len() == words * lines.len(), || format!("{dir:?}: {} words, {} lines", args.len(), lines.len()));
    for (five, line) in args.chunks(words).zip(&lines) {
        let (answer, file) = call(&dir.join("data"), five);
        same(&format!("{} {} = {answer}", five[0], five[1]), line, &file);
    }
    lines.len()
}

fn call_of_plans(data: &Path, words: &[&str]) -> (String, Vec<u8>) {
    let load = |word: &str| if word == "none" { vec![] } else { fs::read(data.join(word)).expect(word) };
    let (file, plan, new) = (load(words[2]), load(words[3]), load(words[4]));
    let answer = match words[0] {
        "read" => fields(&file),
        "cuts" => (0..=file.len()).map(|len| fields(&file[..len])).collect(),
        "judge" => {
            let mut lent = Lent::new(0, 0, 0, 5);
            let number = judge(&file, &plan, &mut lent.out);
            match number {
                0 if lent.out[2..] == [0; 3] => format!("0 {}", list(&lent.out[..2])),
                _ => lent.told(number, 2, &file, 0),
            }
        }
        _ => better(&file, &plan, &new).to_string(),
    };
    (answer, file)
}

/// What the reader says: the number, or all fields of the problem.
fn fields(file: &[u8]) -> String {
    let p = match read(file) {
        Err(number) => return number.to_string(),
        Ok(p) => p,
    };
    let mut words = vec!["0".to_string(), format!("{},{}", p.n, p.m), list(&p.sets[..p.n]), list(&p.weights[..p.n])];
    for r in 0..p.m {
        let coefs = list(p.coefs[..p.n].iter().map(|row| row[r]));
        words.push(format!("{},{},{},{coefs},{},{}", p.kinds[r], p.values[r], p.named[r], p.lb[r], p.ub[r]));
    }
    words.join(" ")
}

fn call_of_diagrams(data: &Path, words: &[&str]) -> (String, Vec<u8>) {
    let bytes = fs::read(data.join(words[2])).expect(words[2]);
    let number = |k: usize| i32::from_le_bytes([bytes[4 * k], bytes[4 * k + 1], bytes[4 * k + 2], bytes[4 * k + 3]]);
    let size = |k: usize| number(k) as usize;
    let (width, rounds, ceiling) = (number(0) as u32, number(1) as u32, number(2));
    let mut lent = Lent::new(size(3), size(4), size(5), 6);
    let (start, rest) = bytes[32..].split_at(size(6));
    let (given, file) = rest.split_at(size(7));
    let w = width as usize;
    let Lent { arcs, cells, plan, out } = &mut lent;
    let answer = match words[0] {
        "relaxed" => {
            let number = relaxed(file, width, rounds, ceiling, arcs, cells, out);
            lent.told(number, 3, file, w)
        }
        "restricted" => {
            let number = restricted(file, width, arcs, cells, plan, out);
            with_plan(lent.told(number, 3, file, w), &lent, number)
        }
        "page" => {
            let number = page(file, width, rounds, ceiling, start, arcs, cells, plan, out);
            with_plan(lent.told(number, 2, file, w), &lent, number)
        }
        _ => {
            let (count, more) = walk(file, width, ceiling, start, given, plan);
            format!("{count},{} {}", more as u32, hex(plan))
        }
    };
    (answer, file.to_vec())
}

fn with_plan(told: String, lent: &Lent, number: u32) -> String {
    if number == 0 {
        format!("{told} {}", hex(&lent.plan))
    } else {
        told
    }
}

/// What the program prints for each recorded file.
fn reports(dir: &Path) -> usize {
    let names = fs::read_to_string(dir.join("args")).expect("args");
    let wanted = fs::read_to_string(dir.join("stdout")).expect("stdout");
    let mut rest = wanted.as_str();
    for name in names.lines() {
        let file = fs::read(dir.join("data").join(name)).expect(name);
        let got = format!("file {name}\n{}", report(&file));
        check(rest.starts_with(&got), || format!("{name} {}\n{got}", hex(&file)));
        rest = &rest[got.len()..];
    }
    check(rest.is_empty(), || format!("not reported: {rest}"));
    names.lines().count()
}

fn report(file: &[u8]) -> String {
    let mut needed = [0; 4];
    needs(file, 16, &mut needed);
    let n = needed[0] as usize;
    let mut lent = Lent::new(needed[2] as usize, needed[3] as usize, n, 3);
    let Lent { arcs, cells, plan, out } = &mut lent;
    let number = relaxed(file, 16, 64, LIMIT, arcs, cells, out);
    if number != 0 {
        return format!("refused {number}\n");
    }
    let steps = |plan: &[u8]| plan.iter().map(|v| format!(" {v}")).collect::<String>();
    let bound = |out: &[i32]| {
        let bound = if out[0] == 1 { out[1].to_string() } else { "none".into() };
        format!("{bound} {}", if out[2] == 1 { "exact" } else { "open" })
    };
    let mut text = format!("dual {}\n", bound(out));
    restricted(file, 16, arcs, cells, plan, out);
    text += &format!("primal {}{}\n", bound(out), if out[0] == 1 { steps(plan) } else { "".into() });
    let mut plans = vec![BYTE; 1000 * n];
    page(file, 16, 64, LIMIT, &[], arcs, cells, &mut plans, out);
    for plan in plans.chunks(n).take(out[0] as usize) {
        let mut judged = [0; 2];
        judge(file, plan, &mut judged);
        text += &format!("plan {}{}\n", judged[1], steps(plan));
    }
    text + &format!("{} {}\n", if out[1] == 1 { "more" } else { "end" }, out[0])
}

// ---- seeded files

struct Rng(u64);

impl Rng {
    fn to(&mut self, low: i64, high: i64) -> i64 {
        self.0 ^= self.0 << 13;
        self.0 ^= self.0 >> 7;
        self.0 ^= self.0 << 17;
        low + ((self.0.wrapping_mul(0x2545_f491_4f6c_dd1d) >> 16) % (high - low + 1) as u64) as i64
    }

    fn of<T: Copy>(&mut self, all: &[T]) -> T {
        all[self.to(0, all.len() as i64 - 1) as usize]
    }
}

/// A file whose rules are drawn around a plan, so that many have lawful plans. `few`: at most two steps in a slot.
fn draw(g: &mut Rng, n: usize, m: usize, few: bool) -> Vec<u8> {
    let mut file = vec![b'R', b'T', b'P', 1, 0, n as u8, m as u8];
    let sets: Vec<u8> =
        (0..n).map(|_| if few { 1 << g.to(0, 3) | 1 << g.to(0, 7) } else { g.to(1, 255) as u8 }).collect();
    let plan: Vec<i64> = sets.iter().map(|&set| g.of(&steps(set))).map(|v| v as i64).collect();
    file.extend(&sets);
    let top = g.of(&[1, 9, 9, 10_000]);
    (0..n).for_each(|_| file.extend((g.to(-top, top) as i32).to_le_bytes()));
    for _ in 0..m {
        let total: i64;
        if g.to(1, 2) == 1 {
            let (values, any, window) = (g.to(0, 255), g.to(0, (1 << n) - 1), 255 << g.to(0, n as i64 - 1));
            let named = g.of(&[any, window]) & ((1 << n) - 1);
            file.extend([1, values as u8]);
            file.extend((named as u32).to_le_bytes());
            total = (0..n).map(|i| values >> plan[i] & named >> i & 1).sum();
        } else {
            let top = g.of(&[1, 3, 20, 1000]);
            let coefs: Vec<i64> = (0..n).map(|_| if g.to(0, 2) == 0 { 0 } else { g.to(-top, top) }).collect();
            file.push(2);
            coefs.iter().for_each(|&c| file.extend((c as i16).to_le_bytes()));
            total = coefs.iter().zip(&plan).map(|(c, v)| c * v).sum();
        }
        let shift = if g.to(0, 30) == 0 { g.to(-3, 3) } else { 0 };
        let (below, above) = (g.of(&[0, 1, 2, 5, 40, 900]), g.of(&[0, 1, 2, 5, 40, 900]));
        file.extend(((total + shift - below) as i32).to_le_bytes());
        file.extend(((total + shift + above) as i32).to_le_bytes());
    }
    file
}

fn steps(set: u8) -> Vec<usize> {
    (0..8).filter(|v| set >> v & 1 == 1).collect()
}

fn share(p: &Problem, r: usize, i: usize, v: usize) -> i32 {
    match p.kinds[r] {
        1 => (p.values[r] >> v & 1 == 1 && p.named[r] >> i & 1 == 1) as i32,
        _ => p.coefs[i][r] * v as i32,
    }
}

// ---- refusals, and buffers of every length

/// Which refusal stands, by 01's order: file, 8, 10, 11.
fn refusal(file: u32, numbers: bool, start: bool, buffers: bool) -> u32 {
    match (file, numbers, start, buffers) {
        (0, true, true, true) => 0,
        (0, true, true, false) => 11,
        (0, true, false, _) => 10,
        (0, false, ..) => 8,
        _ => file,
    }
}

fn refusals() -> usize {
    let mut g = Rng(11);
    for _ in 0..20_000 {
        let (n, m) = (g.to(1, 6) as usize, g.to(0, 3) as usize);
        let mut file = draw(&mut g, n, m, false);
        if g.to(0, 3) == 0 {
            file.truncate(g.to(0, file.len() as i64) as usize);
        }
        let read = read(&file).err().unwrap_or(0);
        let width = g.of(&[0, 1, 2, 3, 16, 17, u32::MAX]);
        let rounds = g.of(&[0, 1, 63, 64, 65, u32::MAX]);
        let ceiling = g.of(&[0, -LIMIT, LIMIT, 50, -LIMIT - 1, LIMIT + 1, i32::MIN, i32::MAX]);
        let start = vec![g.to(0, 255) as u8; g.of(&[0, n, n, n + 1, n - 1])];
        let w = width as usize & 31;
        let (bytes, numbers) = (8 * n * w, (n + 1) * w * (4 * m + 3));
        let mut near = |need: usize| (need + 5).saturating_sub(g.of(&[6, 5, 5, 5, 0]));
        let sizes = (near(bytes), near(numbers), near(n), near(3), near(2), near(4));
        let (is_width, is_rest) = (1 <= width && width <= 16, rounds <= 64 && -LIMIT <= ceiling && ceiling <= LIMIT);
        let holds = sizes.0 >= bytes && sizes.1 >= numbers;
        let is_start = start.is_empty() || start.len() == n;
        let case = || {
            format!("{} width {width} rounds {rounds} ceiling {ceiling} start {start:?} sizes {sizes:?}", hex(&file))
        };
        let held = |lent: &Lent, got: u32, wanted: u32| check(got == wanted && (got == 0 || lent.is_unchanged()), case);

        let lent = &mut Lent::new(0, 0, 0, sizes.5);
        let got = needs(&file, width, &mut lent.out);
        held(lent, got, refusal(read, is_width, true, sizes.5 >= 4));
        let need = [n as i32, m as i32, bytes as i32, numbers as i32];
        check(got != 0 || lent.out[..4] == need && lent.out[4..].iter().all(|&c| c == 0), case);

        let lent = &mut Lent::new(0, 0, 0, sizes.4);
        let got = judge(&file, &start, &mut lent.out);
        held(lent, got, refusal(read, true, true, sizes.4 >= 2));
        check(got != 0 || lent.out[2..].iter().all(|&c| c == 0), case);

        let lent = &mut Lent::new(sizes.0, sizes.1, 0, sizes.3);
        let got = relaxed(&file, width, rounds, ceiling, &mut lent.arcs, &mut lent.cells, &mut lent.out);
        held(lent, got, refusal(read, is_width && is_rest, true, holds && sizes.3 >= 3));
        check(!lent.told(got, 3, &file, w).ends_with("rest"), case);

        let lent = &mut Lent::new(sizes.0, sizes.1, sizes.2, sizes.3);
        let got = restricted(&file, width, &mut lent.arcs, &mut lent.cells, &mut lent.plan, &mut lent.out);
        held(lent, got, refusal(read, is_width, true, holds && sizes.2 >= n && sizes.3 >= 3));
        check(!lent.told(got, 3, &file, w).ends_with("rest"), case);
        check(got != 0 || lent.plan[n..].iter().all(|&b| b == 0), case);

        let lent = &mut Lent::new(sizes.0, sizes.1, sizes.2, sizes.4);
        let Lent { arcs, cells, plan, out } = lent;
        let got = page(&file, width, rounds, ceiling, &start, arcs, cells, plan, out);
        held(lent, got, refusal(read, is_width && is_rest, is_start, holds && sizes.2 >= n && sizes.4 >= 2));
        check(!lent.told(got, 2, &file, w).ends_with("rest"), case);
    }
    100_000
}

// ---- the paper's steps, written down as they read

/// Layer, place and step of an arc; its child's place.
type Arcs = BTreeMap<(usize, usize, usize), usize>;
/// The pairs of all rules, and the cost.
type Numbers = (Vec<(i32, i32)>, i32);

fn plus(p: &Problem, x: &Numbers, i: usize, v: usize) -> Numbers {
    let pairs = x.0.iter().enumerate().map(|(r, pair)| (pair.0 + share(p, r, i, v), pair.1 + share(p, r, i, v)));
    (pairs.collect(), x.1 + p.weights[i] * v as i32)
}

fn merge(x: &Numbers, y: &Numbers) -> Numbers {
    let pairs = x.0.iter().zip(&y.0).map(|(a, b)| (a.0.min(b.0), a.1.max(b.1)));
    (pairs.collect(), x.1.min(y.1))
}

fn build(p: &Problem, width: usize, relax: bool) -> (Arcs, bool) {
    let (mut arcs, mut exact) = (Arcs::new(), true);
    let mut reach = vec![vec![(0, 0); p.m]; p.n + 1];
    for i in (0..p.n).rev() {
        for r in 0..p.m {
            let shares: Vec<i32> = steps(p.sets[i]).into_iter().map(|v| share(p, r, i, v)).collect();
            let (least, greatest) = reach[i + 1][r];
            reach[i][r] = (least + shares.iter().min().unwrap(), greatest + shares.iter().max().unwrap());
        }
    }
    let mut layer = vec![(vec![(0, 0); p.m], 0)];
    for i in 0..p.n {
        let mut states: Vec<Numbers> = vec![];
        for (j, node) in layer.iter().enumerate() {
            for v in steps(p.sets[i]) {
                let child = plus(p, node, i, v);
                let passes = |r: usize| {
                    child.0[r].0 + reach[i + 1][r].0 <= p.ub[r] && child.0[r].1 + reach[i + 1][r].1 >= p.lb[r]
                };
                if (0..p.m).all(passes) {
                    let k = states.iter().position(|s| s.0 == child.0).unwrap_or(states.len());
                    if k == states.len() {
                        states.push(child);
                    }
                    arcs.insert((i, j, v), k);
                }
            }
        }
        if i + 1 == p.n {
            arcs.iter_mut().filter(|(arc, _)| arc.0 == i).for_each(|(_, k)| *k = 0);
            break;
        }
        exact &= states.len() <= width;
        if relax && states.len() > width {
            let rest = states.split_off(width - 1);
            states.push(rest.iter().skip(1).fold(rest[0].clone(), |x, y| merge(&x, y)));
            arcs.iter_mut().filter(|(arc, _)| arc.0 == i).for_each(|(_, k)| *k = (*k).min(width - 1));
        }
        states.truncate(width);
        arcs.retain(|arc, k| arc.0 < i || *k < width);
        layer = states;
    }
    (arcs, exact)
}

type Table = BTreeMap<(usize, usize), Numbers>;

fn meet(table: &mut Table, at: (usize, usize), x: Numbers) {
    let met = table.get(&at).map_or_else(|| x.clone(), |y| merge(y, &x));
    table.insert(at, met);
}

/// Down and up numbers of these arcs.
fn numbers(p: &Problem, arcs: &Arcs) -> (Table, Table) {
    let zero = (vec![(0, 0); p.m], 0);
    let (mut down, mut up) = (Table::from([((0, 0), zero.clone())]), Table::from([((p.n, 0), zero)]));
    for (&(i, j, v), &k) in arcs {
        if let Some(x) = down.get(&(i, j)).cloned() {
            meet(&mut down, (i + 1, k), plus(p, &x, i, v));
        }
    }
    for (&(i, j, v), &k) in arcs.iter().rev() {
        if let Some(x) = up.get(&(i + 1, k)).cloned() {
            meet(&mut up, (i, j), plus(p, &x, i, v));
        }
    }
    (down, up)
}

/// The arcs that stay after a round with this ceiling, or after the sweep.
fn remaining(p: &Problem, arcs: &Arcs, ceiling: Option<i32>) -> Arcs {
    let (down, up) = numbers(p, arcs);
    let stays = |i: usize, j: usize, v: usize, k: usize| match (down.get(&(i, j)), up.get(&(i + 1, k)), ceiling) {
        (Some(_), Some(_), None) => true,
        (Some(d), Some(u), Some(ceiling)) => {
            let x = plus(p, d, i, v);
            let keeps = |r: usize| x.0[r].0 + u.0[r].0 <= p.ub[r] && x.0[r].1 + u.0[r].1 >= p.lb[r];
            (0..p.m).all(keeps) && x.1 + u.1 <= ceiling
        }
        _ => false,
    };
    arcs.iter().filter(|(arc, k)| stays(arc.0, arc.1, arc.2, **k)).map(|(arc, k)| (*arc, *k)).collect()
}

/// What a builder tells of these arcs, in the words of the recorded calls.
fn told(p: &Problem, width: usize, arcs: &Arcs, exact: bool) -> String {
    let (down, up) = numbers(p, arcs);
    let size = 4 * p.m + 3;
    let (mut bytes, mut cells) = (vec![0; 8 * p.n * width], vec![0; (p.n + 1) * width * size]);
    for (&(i, j, v), &k) in arcs {
        bytes[(i * width + j) * 8 + v] = k as u8 + 1;
    }
    for (at, d) in &down {
        if let Some(u) = up.get(at) {
            let mut node = vec![1];
            (0..p.m).for_each(|r| node.extend([d.0[r].0, d.0[r].1, u.0[r].0, u.0[r].1]));
            node.extend([d.1, u.1]);
            let cell = (at.0 * width + at.1) * size;
            cells[cell..cell + size].copy_from_slice(&node);
        }
    }
    let bound = down.get(&(p.n, 0)).map(|x| x.1);
    let out = [bound.is_some() as i32, bound.unwrap_or(0), exact as i32];
    format!("0 {} {} {}", list(out), hex(&bytes), list(&cells))
}

fn steps_of_the_paper(cases: usize) -> usize {
    let mut g = Rng(0x1234_5678_9abc_def1);
    for t in 0..cases {
        let (n, m) = (if t % 60 == 0 { g.to(20, 24) } else { g.to(1, 9) } as usize, g.to(0, 8) as usize);
        let few = g.to(0, 2) == 0;
        let file = draw(&mut g, n, m, few);
        let p = read(&file).unwrap_or_else(|number| panic!("refused {number}"));
        let any = g.to(1, 16) as usize;
        let width = g.of(&[1, 2, 3, 4, 5, 8, 16, any]);
        let rounds = g.of(&[0, 1, 2, 3, 8, 64]);
        let mut lent = Lent::fit(n, m, width, 3);
        relaxed(&file, width as u32, 64, LIMIT, &mut lent.arcs, &mut lent.cells, &mut lent.out);
        let ceiling = if g.to(0, 2) == 0 { LIMIT } else { lent.out[1] + g.to(-1, 30) as i32 };

        let (mut arcs, exact) = build(&p, width, true);
        for _ in 0..rounds {
            let next = remaining(&p, &arcs, Some(ceiling));
            if next.len() == arcs.len() {
                break;
            }
            arcs = next;
        }
        let mut lent = Lent::fit(n, m, width, 3);
        let number = relaxed(&file, width as u32, rounds, ceiling, &mut lent.arcs, &mut lent.cells, &mut lent.out);
        let wanted = told(&p, width, &remaining(&p, &arcs, None), exact);
        check(lent.told(number, 3, &file, width) == wanted, || {
            format!("relaxed {width} {rounds} {ceiling} {}", hex(&file))
        });

        let (arcs, exact) = build(&p, width, false);
        let mut lent = Lent::fit(n, m, width, 3);
        let number = restricted(&file, width as u32, &mut lent.arcs, &mut lent.cells, &mut lent.plan, &mut lent.out);
        let wanted = told(&p, width, &remaining(&p, &arcs, None), exact);
        check(lent.told(number, 3, &file, width) == wanted, || format!("restricted {width} {}", hex(&file)));
    }
    2 * cases
}

// ---- all plans of small files

/// Whether the plan is a path of these arcs.
fn is_path(arcs: &[u8], width: usize, plan: &[u8]) -> bool {
    let mut j = 0;
    plan.iter().enumerate().all(|(i, &v)| match arcs[(i * width + j) * 8 + v as usize] {
        0 => false,
        k => {
            j = k as usize - 1;
            true
        }
    })
}

/// How many paths these arcs have.
fn paths(arcs: &[u8], n: usize, width: usize) -> usize {
    let mut ways = vec![0; width];
    ways[0] = 1;
    for layer in arcs[..8 * n * width].chunks(8 * width) {
        let mut next = vec![0; width];
        for (at, &k) in layer.iter().enumerate().filter(|(_, &k)| k != 0) {
            next[k as usize - 1] += ways[at / 8];
        }
        ways = next;
    }
    ways[0]
}

fn enumeration(cases: usize) -> usize {
    let mut g = Rng(77);
    let mut checks = 0;
    for _ in 0..cases {
        let (n, m) = (g.to(1, 7) as usize, g.to(0, 8) as usize);
        let few = n > 3 || g.to(0, 1) == 0;
        let file = draw(&mut g, n, m, few);
        let p = read(&file).unwrap_or_else(|number| panic!("refused {number}"));
        let mut plans: Vec<Vec<u8>> = vec![vec![]];
        for i in 0..n {
            plans = plans
                .iter()
                .flat_map(|x| steps(p.sets[i]).into_iter().map(move |v| [&x[..], &[v as u8]].concat()))
                .collect();
        }
        let total = |x: &[u8], r: usize| (0..n).map(|i| share(&p, r, i, x[i] as usize)).sum::<i32>();
        let cost = |x: &[u8]| (0..n).map(|i| p.weights[i] * x[i] as i32).sum::<i32>();
        let is_lawful = |x: &[u8]| (0..m).all(|r| (p.lb[r]..=p.ub[r]).contains(&total(x, r)));
        let lawful: Vec<Vec<u8>> = plans.iter().filter(|x| is_lawful(x)).cloned().collect();
        let width = g.to(1, 16) as usize;
        let rounds = g.of(&[0, 1, 64]);
        let ceiling = g.of(&[LIMIT, lawful.first().map_or(0, |x| cost(x))]);
        let case = || format!("{} width {width} rounds {rounds} ceiling {ceiling}", hex(&file));

        for x in &plans {
            let mut out = [CELL; 2];
            let wanted = if is_lawful(x) { [1, cost(x)] } else { [0, 0] };
            check(judge(&file, x, &mut out) == 0 && out == wanted, case);
        }
        let (a, b) =
            (&plans[g.to(0, plans.len() as i64 - 1) as usize], &plans[g.to(0, plans.len() as i64 - 1) as usize]);
        let wanted = match (is_lawful(a), is_lawful(b)) {
            (true, true) => 1 + (cost(b) < cost(a)) as u32,
            (a, b) => a as u32 + 2 * b as u32,
        };
        check(better(&file, a, b) == wanted, case);

        let within: Vec<&Vec<u8>> = lawful.iter().filter(|x| cost(x) <= ceiling).collect();
        let mut lent = Lent::fit(n, m, width, 0);
        relaxed(&file, width as u32, rounds, ceiling, &mut lent.arcs, &mut lent.cells, &mut lent.out);
        let dual = lent.out.clone();
        check(within.iter().all(|x| is_path(&lent.arcs, width, x) && dual[0] == 1 && dual[1] <= cost(x)), case);
        if dual[2] == 1 && rounds == 64 {
            check(paths(&lent.arcs, n, width) >= within.len(), case);
            check(ceiling != LIMIT || paths(&lent.arcs, n, width) == lawful.len(), case);
        }

        restricted(&file, width as u32, &mut lent.arcs, &mut lent.cells, &mut lent.plan, &mut lent.out);
        let on: Vec<&Vec<u8>> = lawful.iter().filter(|x| is_path(&lent.arcs, width, x)).collect();
        check(paths(&lent.arcs, n, width) == on.len(), case);
        let best = on.iter().min_by_key(|x| (cost(x), x.to_vec()));
        check(lent.out[0] == best.is_some() as i32 && lent.out[2] == dual[2], case);
        check(lent.out[1] == best.map_or(0, |x| cost(x)) && lent.plan == *best.map_or(&vec![0; n], |x| x), case);
        if dual[2] == 1 {
            check(on.len() == lawful.len(), case);
            check(ceiling != LIMIT || rounds == 0 || lent.out[..2] == dual[..2], case);
        }

        checks += plans.len() + 3;
        checks += pages(&mut g, &file, n, m, width, rounds, ceiling, &within, case);
    }
    checks
}

/// All pages in sequence, one page after any bytes, and the walk over spoiled arcs.
fn pages(
    g: &mut Rng,
    file: &[u8],
    n: usize,
    m: usize,
    width: usize,
    rounds: u32,
    ceiling: i32,
    within: &[&Vec<u8>],
    case: impl Fn() -> String + Copy,
) -> usize {
    let room = g.to(1, 9) as usize;
    let spare = g.to(0, n as i64 - 1) as usize;
    let mut lent = Lent::fit(n, m, width, 0);
    lent.plan = vec![BYTE; room * n + spare];
    let Lent { arcs, cells, plan, out } = &mut lent;
    let mut start = vec![];
    let mut listed: Vec<Vec<u8>> = vec![];
    let mut drawn = 0;
    loop {
        let number = page(file, width as u32, rounds, ceiling, &start, arcs, cells, plan, out);
        let count = out[0] as usize;
        check(number == 0 && plan[count * n..].iter().all(|&b| b == 0), case);
        listed.extend(plan.chunks(n).take(count).map(|x| x.to_vec()));
        drawn += 1;
        if out[1] == 0 {
            break;
        }
        check(count == room, case);
        start = listed[listed.len() - 1].clone();
    }
    check(listed.iter().eq(within.iter().copied()), case);

    let start: Vec<u8> = (0..n).map(|_| g.of(&[0, 1, 2, 3, 7, 9, 255])).collect();
    page(file, width as u32, rounds, ceiling, &start, arcs, cells, plan, out);
    let behind: Vec<&Vec<u8>> = within.iter().copied().filter(|x| **x > start).collect();
    let count = behind.len().min(room);
    check(out[..2] == [count as i32, (behind.len() > room) as i32], case);
    check(plan.chunks(n).zip(&behind[..count]).all(|(x, y)| x == &y[..]), case);

    for byte in arcs.iter_mut() {
        if g.to(0, 9) == 0 {
            *byte = if g.to(0, 1) == 0 { 0 } else { g.to(1, width as i64) as u8 };
        }
    }
    arcs[8 * (n - 1) * width..].iter_mut().for_each(|byte| *byte = (*byte).min(1));
    let on: Vec<&Vec<u8>> = behind.into_iter().filter(|x| is_path(arcs, width, x)).collect();
    let count = on.len().min(room);
    check(walk(file, width as u32, ceiling, &start, arcs, plan) == (count, on.len() > room), case);
    check(plan.chunks(n).zip(&on[..count]).all(|(x, y)| x == &y[..]), case);
    check(plan[count * n..].iter().all(|&b| b == 0), case);
    drawn + 2
}

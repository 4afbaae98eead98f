//! What are the arcs and the numbers of a diagram? Building, rounds, the closing sweep, and the buffers.

use crate::file::{Lanes, Problem, RULES, SLOTS, STEPS};

pub const WIDTH: usize = 16;

/// Stands for "no number": beyond every running number, and two of them can be added to FREE.
const FAR: i32 = 1 << 28;

/// A bound that no sum breaks.
const FREE: i32 = 1 << 30;

/// The numbers of a node in one direction, or of a state: low and high of every rule, and the cost.
#[derive(Clone, Copy)]
pub struct Node {
    pub low: Lanes,
    pub high: Lanes,
    pub cost: i32,
}

/// Its cost exceeds every ceiling, whatever is added, and beside a number it is neither the least nor the greatest.
const NONE: Node = Node { low: [FAR; RULES], high: [-FAR; RULES], cost: FAR };
const ZERO: Node = Node { low: [0; RULES], high: [0; RULES], cost: 0 };

/// What a step of a slot adds.
#[derive(Clone, Copy)]
pub struct Step {
    pub share: Lanes,
    pub price: i32,
    key: u32,
}

#[inline(always)]
fn each_lane(a: &Lanes, b: &Lanes, f: impl Fn(i32, i32) -> i32) -> Lanes {
    let mut x = [0; RULES];
    for r in 0..RULES {
        x[r] = f(a[r], b[r]);
    }
    x
}

/// All bits of the lanes together.
#[inline(always)]
fn bits(a: &Lanes) -> i32 {
    a.iter().fold(0, |bits, x| bits | x)
}

impl Node {
    #[inline(always)]
    fn is_some(&self) -> bool {
        self.cost < FAR / 2
    }

    #[inline(always)]
    fn plus(&self, step: &Step) -> Node {
        Node {
            low: each_lane(&self.low, &step.share, |a, b| a + b),
            high: each_lane(&self.high, &step.share, |a, b| a + b),
            cost: self.cost + step.price,
        }
    }

    /// The least lows and cost and the greatest highs of both.
    #[inline(always)]
    fn widen(&mut self, x: &Node) {
        self.low = each_lane(&self.low, &x.low, |a, b| a.min(b));
        self.high = each_lane(&self.high, &x.high, |a, b| a.max(b));
        self.cost = self.cost.min(x.cost);
    }

    /// No low above its rule's most, no high below its rule's least: no difference has a sign bit.
    #[inline(always)]
    fn is_inside(&self, least: &Lanes, most: &Lanes) -> bool {
        let low = bits(&each_lane(most, &self.low, |a, b| a - b));
        let high = bits(&each_lane(&self.high, least, |a, b| a - b));
        low | high >= 0
    }

    #[inline(always)]
    fn has_pairs_of(&self, x: &Node) -> bool {
        let low = bits(&each_lane(&self.low, &x.low, |a, b| a ^ b));
        let high = bits(&each_lane(&self.high, &x.high, |a, b| a ^ b));
        low | high == 0
    }

    /// Equal pairs have equal keys, and the key of a child is its parent's plus the step's.
    #[inline(always)]
    fn key(&self) -> u32 {
        let low = each_lane(&self.low, &MIX[0], |a, b| a.wrapping_mul(b));
        let high = each_lane(&self.high, &MIX[1], |a, b| a.wrapping_mul(b));
        let mut key = 0i32;
        for r in 0..RULES {
            key = key.wrapping_add(low[r].wrapping_add(high[r]));
        }
        key as u32
    }
}

/// Odd numbers without a pattern.
const MIX: [Lanes; 2] = [
    [0x2c1b3c6d, 0x297a2d39, 0x1b56c4e9, 0x7feb352d, 0x5a2f8c97, 0x31848bab, 0x4cf5ad43, 0x2745937f],
    [0x38495ab5, 0x0e6546b7, 0x6c078965, 0x5d588b65, 0x19660d3d, 0x3c6ef35f, 0x41c64e6d, 0x27220a95],
];

/// The children of a node by all steps, and the set of the steps whose child is within these limits.
/// Steps that the slot does not allow are reckoned too: straight code is quicker than a branch that nobody can foresee.
#[inline(never)]
fn offspring(parent: &Node, row: &[Step; STEPS], limits: &(Lanes, Lanes), children: &mut [Node; STEPS]) -> u8 {
    for v in 0..STEPS {
        children[v] = parent.plus(&row[v]);
    }
    let mut passing = 0;
    for v in 0..STEPS {
        passing |= (children[v].is_inside(&limits.0, &limits.1) as u8) << v;
    }
    passing
}

/// The keys of a layer's states, a byte each, in one word.
struct Keys(u128);

impl Keys {
    const ONES: u128 = u128::MAX / 255;

    #[inline(always)]
    fn put(&mut self, k: usize, key: u32) {
        self.0 |= (key as u128 >> 24) << (8 * k);
    }

    /// The place of the state with the child's pairs; `count` if there is none. Few keys are equal where the pairs differ.
    #[inline(always)]
    fn find(&self, key: u32, child: &Node, states: &Layer, count: usize) -> usize {
        let x = self.0 ^ (Self::ONES * (key as u128 >> 24));
        // a byte of x that is zero has its top bit here (and some others may)
        let mut hits = x.wrapping_sub(Self::ONES) & !x & Self::ONES << 7;
        while hits != 0 {
            let k = hits.trailing_zeros() as usize / 8;
            if k >= count {
                break;
            }
            if states[k].has_pairs_of(child) {
                return k;
            }
            hits &= hits - 1;
        }
        count
    }
}

pub type Layer = [Node; WIDTH];

/// The arcs of a node: eight bytes as in the buffer, the child's place plus 1 or 0.
pub type Arcs = u64;

/// The steps of the arcs, rising, each with the child's place.
#[inline(always)]
pub fn each(arcs: Arcs, mut f: impl FnMut(usize, usize)) {
    for v in 0..STEPS {
        let k = (arcs >> (8 * v)) as usize & 255;
        if k != 0 {
            f(v, (k - 1) % WIDTH);
        }
    }
}

pub struct Diagram<'a> {
    pub p: &'a Problem,
    pub rows: [[Step; STEPS]; SLOTS],
    pub arcs: [[Arcs; WIDTH]; SLOTS],
    pub up: [Layer; SLOTS + 1],
    down: [Layer; SLOTS + 1],
    /// How many nodes each layer has.
    counts: [usize; SLOTS + 1],
    pub exact: bool,
}

impl<'a> Diagram<'a> {
    pub fn new(p: &'a Problem) -> Diagram<'a> {
        let mut rows = [[Step { share: [0; RULES], price: 0, key: 0 }; STEPS]; SLOTS];
        for i in 0..p.n {
            for v in 0..STEPS {
                let share = p.shares(i, v);
                let key = Node { low: share, high: share, cost: 0 }.key();
                rows[i][v] = Step { share, price: p.price(i, v), key };
            }
        }
        Diagram {
            p,
            rows,
            arcs: [[0; WIDTH]; SLOTS],
            up: [[ZERO; WIDTH]; SLOTS + 1],
            down: [[ZERO; WIDTH]; SLOTS + 1],
            counts: [0; SLOTS + 1],
            exact: true,
        }
    }

    /// The least and greatest total before layer i with which the slots behind can still keep each rule.
    fn limits(&self) -> [(Lanes, Lanes); SLOTS + 1] {
        let p = self.p;
        let mut limits = [(p.lb, p.ub); SLOTS + 1];
        for i in (0..p.n).rev() {
            let mut reach = NONE;
            for v in 0..STEPS {
                if p.allows(i, v) {
                    reach.widen(&ZERO.plus(&self.rows[i][v]));
                }
            }
            for r in 0..RULES {
                limits[i].0[r] = limits[i + 1].0[r] - reach.high[r];
                limits[i].1[r] = limits[i + 1].1[r] - reach.low[r];
            }
        }
        limits
    }

    /// Lays all arcs. The totals of the building are the down numbers of its arcs.
    pub fn build(&mut self, width: usize, relaxed: bool) {
        let limits = self.limits();
        let mut children = [ZERO; STEPS];
        self.down[0][0] = ZERO;
        self.counts[0] = 1;
        for i in 0..self.p.n {
            let is_last = i + 1 == self.p.n;
            let room = if is_last { 1 } else { width };
            let (head, tail) = self.down.split_at_mut(i + 1);
            let (parents, states) = (&head[i], &mut tail[0]);
            let mut keys = Keys(0);
            let mut count = 0;
            for j in 0..self.counts[i] {
                let row = &self.rows[i];
                let mut passing = offspring(&parents[j], row, &limits[i + 1], &mut children) & self.p.sets[i];
                let key = parents[j].key();
                let mut arcs = 0;
                while passing != 0 {
                    let v = passing.trailing_zeros() as usize % STEPS;
                    passing &= passing - 1;
                    let child = &children[v];
                    let key = key.wrapping_add(row[v].key);
                    let mut k = keys.find(key, child, states, count);
                    if k < count {
                        states[k].cost = states[k].cost.min(child.cost);
                    } else if count < room {
                        states[k] = *child;
                        keys.put(k, key);
                        count += 1;
                    } else if relaxed || is_last {
                        self.exact &= is_last;
                        k = room - 1;
                        states[k].widen(child);
                    } else {
                        self.exact = false;
                        continue;
                    }
                    arcs |= (k as u64 + 1) << (8 * v);
                }
                self.arcs[i][j] = arcs;
            }
            self.counts[i + 1] = count;
        }
    }

    /// Up numbers of the arcs present. An arc falls, once it has been counted, if it breaks a limit or is on no path.
    /// Says whether one fell.
    fn up_pass(&mut self, least: &Lanes, most: &Lanes, ceiling: i32) -> bool {
        let n = self.p.n;
        let mut fell = false;
        self.up[n][0] = if self.counts[n] == 0 { NONE } else { ZERO };
        for i in (0..n).rev() {
            let (head, tail) = self.up.split_at_mut(i + 1);
            let (parents, children) = (&mut head[i], &tail[0]);
            let row = &self.rows[i];
            for j in 0..self.counts[i] {
                let down = &self.down[i][j];
                // what an arc and its child may add
                let least = each_lane(least, &down.high, |a, b| a - b);
                let most = each_lane(most, &down.low, |a, b| a - b);
                let dearest = ceiling - down.cost;
                let mut up = NONE;
                let before = self.arcs[i][j];
                let mut arcs = before;
                each(before, |v, k| {
                    let x = children[k].plus(&row[v]);
                    up.widen(&x);
                    let fails = !x.is_inside(&least, &most) | (x.cost > dearest);
                    arcs &= !((255 * fails as u64) << (8 * v));
                });
                self.arcs[i][j] = arcs;
                parents[j] = up;
                fell |= arcs != before;
            }
        }
        fell
    }

    /// Down numbers of the arcs present.
    fn down_pass(&mut self) {
        for i in 0..self.p.n {
            let (head, tail) = self.down.split_at_mut(i + 1);
            let (parents, children) = (&head[i], &mut tail[0]);
            for child in &mut children[..self.counts[i + 1]] {
                *child = NONE;
            }
            for j in 0..self.counts[i] {
                let parent = parents[j];
                each(self.arcs[i][j], |v, k| children[k].widen(&parent.plus(&self.rows[i][v])));
            }
        }
    }

    /// The asked rounds, as long as they drop something, and the closing sweep. Building has left the first down numbers;
    /// where a round drops nothing every arc is on a path and all numbers stand.
    pub fn filter(&mut self, rounds: u32, ceiling: i32) {
        let p = self.p;
        for _ in 0..rounds {
            if !self.up_pass(&p.lb, &p.ub, ceiling) {
                return;
            }
            self.down_pass();
        }
        self.sweep();
    }

    /// Drops what no path needs: a round without rules and ceiling. It leaves the numbers of the nodes on a path as they are.
    fn sweep(&mut self) {
        self.up_pass(&[-FREE; RULES], &[FREE; RULES], FAR / 2);
    }

    /// The cost of the cheapest path.
    pub fn bound(&self) -> Option<i32> {
        let source = &self.up[0][0];
        Some(source.cost).filter(|_| source.is_some())
    }

    /// The cheapest path, of equal ones the first in dictionary order. There is one.
    pub fn cheapest(&self, plan: &mut [u8]) {
        let mut j = 0;
        for i in 0..self.p.n {
            let mut first = None;
            each(self.arcs[i][j], |v, k| {
                if first.is_none() && self.rows[i][v].price + self.up[i + 1][k].cost == self.up[i][j].cost {
                    first = Some((v, k));
                }
            });
            if let Some((v, k)) = first {
                plan[i] = v as u8;
                j = k;
            }
        }
    }

    /// Both buffers, whole.
    pub fn write(&self, width: usize, arcs: &mut [u8], cells: &mut [i32]) {
        let (n, m) = (self.p.n, self.p.m);
        arcs.fill(0);
        cells.fill(0);
        for (i, layer) in arcs.chunks_exact_mut(8 * width).take(n).enumerate() {
            for (j, node) in layer.chunks_exact_mut(8).take(self.counts[i]).enumerate() {
                node.copy_from_slice(&self.arcs[i][j].to_le_bytes());
            }
        }
        let size = 4 * m + 3;
        for (i, layer) in cells.chunks_exact_mut(size * width).take(n + 1).enumerate() {
            for (j, node) in layer.chunks_exact_mut(size).take(self.counts[i]).enumerate() {
                let (down, up) = (&self.down[i][j], &self.up[i][j]);
                if down.is_some() && up.is_some() {
                    node[0] = 1;
                    for (r, four) in node[1..].chunks_exact_mut(4).take(m).enumerate() {
                        four.copy_from_slice(&[down.low[r], down.high[r], up.low[r], up.high[r]]);
                    }
                    node[size - 2] = down.cost;
                    node[size - 1] = up.cost;
                }
            }
        }
    }

    /// Takes arcs of the form, whoever made them, at allowed steps, and reckons their up numbers. Every down number is zero,
    /// so those arcs fall that do not lead to the sink.
    pub fn take(&mut self, width: usize, arcs: &[u8]) {
        for i in 0..self.p.n {
            self.counts[i] = width;
            for (j, node) in arcs[8 * i * width..].chunks_exact(8).take(width).enumerate() {
                let mut bytes = [0; STEPS];
                for v in 0..STEPS {
                    if self.p.allows(i, v) {
                        bytes[v] = node[v];
                    }
                }
                self.arcs[i][j] = u64::from_le_bytes(bytes);
            }
        }
        self.counts[self.p.n] = 1;
        self.sweep();
    }
}

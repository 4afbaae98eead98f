//! Which plans are lawful, which of two is better, and what stands on a page?

use crate::diagram::{each, Diagram};
use crate::file::{Lanes, Problem, RULES, SLOTS, STEPS};

/// The cost of a lawful plan.
pub fn lawful(p: &Problem, plan: &[u8]) -> Option<i32> {
    if plan.len() != p.n {
        return None;
    }
    let mut totals = [0; RULES];
    let mut cost = 0;
    for (i, &v) in plan.iter().enumerate() {
        let v = v as usize;
        if v >= STEPS || !p.allows(i, v) {
            return None;
        }
        let shares = p.shares(i, v);
        for r in 0..RULES {
            totals[r] += shares[r];
        }
        cost += p.price(i, v);
    }
    if (0..RULES).any(|r| totals[r] < p.lb[r] || totals[r] > p.ub[r]) {
        return None;
    }
    Some(cost)
}

/// 1 the standing plan, 2 the new one, 0 neither.
pub fn better(p: &Problem, standing: &[u8], new: &[u8]) -> u32 {
    match (lawful(p, standing), lawful(p, new)) {
        (Some(old), Some(cost)) if cost < old => 2,
        (Some(_), _) => 1,
        (None, Some(_)) => 2,
        (None, None) => 0,
    }
}

/// A walk over a diagram whose up numbers are those of its arcs.
struct Walk<'a> {
    d: &'a Diagram<'a>,
    ceiling: i32,
    start: &'a [u8],
    page: std::slice::ChunksExactMut<'a, u8>,
    plan: [u8; SLOTS],
    count: usize,
    more: bool,
}

/// Lists the lawful plans within the ceiling after the start; says how many, and whether there is a further one.
pub fn list(d: &Diagram, ceiling: i32, start: &[u8], page: &mut [u8]) -> (usize, bool) {
    page.fill(0);
    let mut walk =
        Walk { d, ceiling, start, page: page.chunks_exact_mut(d.p.n), plan: [0; SLOTS], count: 0, more: false };
    walk.behind(0, 0, &[0; RULES], 0, !start.is_empty());
    (walk.count, walk.more)
}

impl Walk<'_> {
    /// Lists what stands behind node j of layer i. `at_start`: the plan so far is the start's. Nothing more once `more` is set.
    fn behind(&mut self, i: usize, j: usize, totals: &Lanes, cost: i32, at_start: bool) {
        let d = self.d;
        if i == d.p.n {
            if !at_start {
                self.write();
            }
            return;
        }
        let first = if at_start { self.start[i] as usize } else { 0 };
        each(d.arcs[i][j], |v, k| {
            if v < first || self.more {
                return;
            }
            let (step, up) = (&d.rows[i][v], &d.up[i + 1][k]);
            let cost = cost + step.price;
            let mut totals = *totals;
            let mut fits = cost + up.cost <= self.ceiling;
            for r in 0..RULES {
                totals[r] += step.share[r];
                fits &= (totals[r] + up.low[r] <= d.p.ub[r]) & (totals[r] + up.high[r] >= d.p.lb[r]);
            }
            if fits {
                self.plan[i] = v as u8;
                self.behind(i + 1, k, &totals, cost, at_start && v == first);
            }
        });
    }

    fn write(&mut self) {
        match self.page.next() {
            Some(room) => {
                room.copy_from_slice(&self.plan[..room.len()]);
                self.count += 1;
            }
            None => self.more = true,
        }
    }
}

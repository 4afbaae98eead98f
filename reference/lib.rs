//! An independent implementation of the planner in plain Rust: a second opinion on every answer, and a yardstick for speed.
//! Every function takes the arguments of its C counterpart, answers its refusal number (0: accepted) and writes every lent
//! buffer whole; a refusal writes nothing. For speed compile it at level 3, where every compiler makes vectors of the lanes.

mod diagram;
mod file;
mod plans;

pub use file::{read, Problem};

use diagram::{Diagram, WIDTH};

/// n, m, bytes of arcs, cells.
pub fn needs(file: &[u8], width: u32, out: &mut [i32]) -> u32 {
    answer(|| {
        let p = read(file)?;
        check(is_width(width), 8)?;
        check(out.len() >= 4, 11)?;
        let (bytes, cells) = buffers(&p, width as usize);
        tell(out, &[p.n as i32, p.m as i32, bytes as i32, cells as i32]);
        Ok(())
    })
}

/// Lawful, cost.
pub fn judge(file: &[u8], plan: &[u8], out: &mut [i32]) -> u32 {
    answer(|| {
        let p = read(file)?;
        check(out.len() >= 2, 11)?;
        let cost = plans::lawful(&p, plan);
        tell(out, &[cost.is_some() as i32, cost.unwrap_or(0)]);
        Ok(())
    })
}

/// Dual present, dual, exact.
pub fn relaxed(
    file: &[u8],
    width: u32,
    rounds: u32,
    ceiling: i32,
    arcs: &mut [u8],
    cells: &mut [i32],
    out: &mut [i32],
) -> u32 {
    answer(|| {
        let p = read(file)?;
        check(is_width(width) && rounds <= 64 && is_ceiling(ceiling), 8)?;
        check(holds(&p, width as usize, arcs, cells) && out.len() >= 3, 11)?;
        let mut d = Diagram::new(&p);
        d.build(width as usize, true);
        d.filter(rounds, ceiling);
        d.write(width as usize, arcs, cells);
        tell(out, &[d.bound().is_some() as i32, d.bound().unwrap_or(0), d.exact as i32]);
        Ok(())
    })
}

/// Primal present, primal, exact.
pub fn restricted(
    file: &[u8],
    width: u32,
    arcs: &mut [u8],
    cells: &mut [i32],
    plan: &mut [u8],
    out: &mut [i32],
) -> u32 {
    answer(|| {
        let p = read(file)?;
        check(is_width(width), 8)?;
        check(holds(&p, width as usize, arcs, cells) && plan.len() >= p.n && out.len() >= 3, 11)?;
        let mut d = Diagram::new(&p);
        d.build(width as usize, false);
        d.filter(0, 0);
        d.write(width as usize, arcs, cells);
        plan.fill(0);
        if d.bound().is_some() {
            d.cheapest(plan);
        }
        tell(out, &[d.bound().is_some() as i32, d.bound().unwrap_or(0), d.exact as i32]);
        Ok(())
    })
}

/// Count of plans written, more.
pub fn page(
    file: &[u8],
    width: u32,
    rounds: u32,
    ceiling: i32,
    start: &[u8],
    arcs: &mut [u8],
    cells: &mut [i32],
    page: &mut [u8],
    out: &mut [i32],
) -> u32 {
    answer(|| {
        let p = read(file)?;
        check(is_width(width) && rounds <= 64 && is_ceiling(ceiling), 8)?;
        check(start.is_empty() || start.len() == p.n, 10)?;
        check(holds(&p, width as usize, arcs, cells) && page.len() >= p.n && out.len() >= 2, 11)?;
        let mut d = Diagram::new(&p);
        d.build(width as usize, true);
        d.filter(rounds, ceiling);
        d.write(width as usize, arcs, cells);
        let (count, more) = plans::list(&d, ceiling, start, page);
        tell(out, &[count as i32, more as i32]);
        Ok(())
    })
}

/// 0 the empty start of the standing plan, 1 the standing plan, 2 the new one.
pub fn better(file: &[u8], standing: &[u8], new: &[u8]) -> u32 {
    read(file).map_or(0, |p| plans::better(&p, standing, new))
}

/// The walk of a page over any arc bytes of the form: count and more. The file is accepted and every argument right.
pub fn walk(file: &[u8], width: u32, ceiling: i32, start: &[u8], arcs: &[u8], page: &mut [u8]) -> (usize, bool) {
    read(file).map_or((0, false), |p| {
        let mut d = Diagram::new(&p);
        d.take(width as usize, arcs);
        plans::list(&d, ceiling, start, page)
    })
}

fn is_width(width: u32) -> bool {
    1 <= width && width <= WIDTH as u32
}

fn is_ceiling(ceiling: i32) -> bool {
    -2_000_000 <= ceiling && ceiling <= 2_000_000
}

/// The needs of a diagram: bytes of arcs, cells.
fn buffers(p: &Problem, width: usize) -> (usize, usize) {
    (8 * p.n * width, (p.n + 1) * width * (4 * p.m + 3))
}

fn holds(p: &Problem, width: usize, arcs: &[u8], cells: &[i32]) -> bool {
    let (bytes, numbers) = buffers(p, width);
    arcs.len() >= bytes && cells.len() >= numbers
}

fn check(holds: bool, refusal: u32) -> Result<(), u32> {
    if holds {
        Ok(())
    } else {
        Err(refusal)
    }
}

#[inline(always)]
fn answer(operation: impl FnOnce() -> Result<(), u32>) -> u32 {
    operation().err().unwrap_or(0)
}

fn tell(out: &mut [i32], values: &[i32]) {
    out.fill(0);
    out[..values.len()].copy_from_slice(values);
}

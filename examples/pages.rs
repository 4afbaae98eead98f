//! pages [FILE]: every lawful plan of a plan file (of standard input without FILE) with its cost, drawn page by page.

use std::fs::File;
use std::io::{self, BufWriter, Read, Write};

#[link(name = "brennigou", kind = "static")]
extern "C" {
    fn brennigou_needs(file: *const u8, file_len: usize, width: u32, out: *mut i32, out_len: usize) -> u32;
    fn brennigou_judge(file: *const u8, file_len: usize, plan: *const u8, plan_len: usize, out: *mut i32, out_len: usize) -> u32;
    fn brennigou_page(
        file: *const u8,
        file_len: usize,
        width: u32,
        rounds: u32,
        ceiling: i32,
        start: *const u8,
        start_len: usize,
        arcs: *mut u8,
        arcs_len: usize,
        cells: *mut i32,
        cells_len: usize,
        page: *mut u8,
        page_len: usize,
        out: *mut i32,
        out_len: usize,
    ) -> u32;
}

const SLOTS: usize = 24;
const WIDTH: u32 = 16;
const ROUNDS: u32 = 64;
const CEILING: i32 = 2_000_000;
const FILE: u64 = 583;
const ARCS: usize = 8 * SLOTS * 16;
const CELLS: usize = (SLOTS + 1) * 16 * 35;
const PLANS: usize = 100;

/// n, m, the bytes of arcs and the cells, or the refusal's number.
fn needs(file: &[u8]) -> Result<[i32; 4], u32> {
    let mut out = [0; 4];
    match unsafe { brennigou_needs(file.as_ptr(), file.len(), WIDTH, out.as_mut_ptr(), out.len()) } {
        0 => Ok(out),
        number => Err(number),
    }
}

fn cost(file: &[u8], plan: &[u8]) -> i32 {
    let mut out = [0; 2];
    unsafe { brennigou_judge(file.as_ptr(), file.len(), plan.as_ptr(), plan.len(), out.as_mut_ptr(), out.len()) };
    out[1]
}

/// The count of plans after the start, and is there a further one; or the refusal's number.
fn draw(file: &[u8], start: &[u8], arcs: &mut [u8], cells: &mut [i32], page: &mut [u8]) -> Result<(usize, bool), u32> {
    let mut out = [0; 2];
    let number = unsafe {
        brennigou_page(
            file.as_ptr(),
            file.len(),
            WIDTH,
            ROUNDS,
            CEILING,
            start.as_ptr(),
            start.len(),
            arcs.as_mut_ptr(),
            arcs.len(),
            cells.as_mut_ptr(),
            cells.len(),
            page.as_mut_ptr(),
            page.len(),
            out.as_mut_ptr(),
            out.len(),
        )
    };
    match number {
        0 => Ok((out[0] as usize, out[1] == 1)),
        _ => Err(number),
    }
}

/// Prints every plan and hands back how many there are.
fn list(file: &[u8], to: &mut impl Write) -> io::Result<Result<usize, u32>> {
    let needed = match needs(file) {
        Ok(x) => x,
        Err(number) => return Ok(Err(number)),
    };
    let n = needed[0] as usize;
    let (mut arcs, mut cells, mut page) = ([0; ARCS], [0; CELLS], [0; PLANS * SLOTS]);
    let (arcs, cells, page) = (&mut arcs[..needed[2] as usize], &mut cells[..needed[3] as usize], &mut page[..PLANS * n]);
    let mut start = vec![];
    let mut listed = 0;
    loop {
        let (count, more) = match draw(file, &start, arcs, cells, page) {
            Ok(x) => x,
            Err(number) => return Ok(Err(number)),
        };
        for plan in page.chunks(n).take(count) {
            write!(to, "plan {}", cost(file, plan))?;
            plan.iter().try_for_each(|v| write!(to, " {}", v))?;
            writeln!(to)?;
        }
        listed += count;
        if !more {
            return Ok(Ok(listed));
        }
        // the next page starts behind the last plan of this one
        start = page[(PLANS - 1) * n..].to_vec();
    }
}

fn main() -> io::Result<()> {
    let input: Box<dyn Read> = match std::env::args().nth(1) {
        Some(path) => Box::new(File::open(path)?),
        None => Box::new(io::stdin()),
    };
    // a longer file is refused, and one byte more shows it
    let mut file = vec![];
    input.take(FILE + 1).read_to_end(&mut file)?;
    let mut to = BufWriter::new(io::stdout());
    match list(&file, &mut to)? {
        Ok(listed) => writeln!(to, "end {}", listed),
        Err(number) => {
            writeln!(to, "refused {}", number)?;
            to.flush()?;
            std::process::exit(1)
        }
    }
}

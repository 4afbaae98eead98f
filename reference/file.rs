//! What does a plan file say? The reader, with the refusals 1 to 7.

pub const SLOTS: usize = 24;
pub const STEPS: usize = 8;
pub const RULES: usize = 8;

/// One number for each rule; the places past m are zero.
pub type Lanes = [i32; RULES];

/// What an accepted file says. Entries past n and m, and fields that a rule's kind lacks, are zero.
#[derive(Clone)]
pub struct Problem {
    pub n: usize,
    pub m: usize,
    pub sets: [u8; SLOTS],
    pub weights: [i32; SLOTS],
    pub kinds: [u8; RULES],
    /// S of an among rule.
    pub values: [u32; RULES],
    /// The named slots of an among rule.
    pub named: [u32; RULES],
    /// Coefficients of the sum rules: those of a slot stand together.
    pub coefs: [Lanes; SLOTS],
    pub lb: Lanes,
    pub ub: Lanes,
}

impl Problem {
    /// The shares of all rules; the fields that a kind lacks are zero, so one line serves both kinds.
    #[inline(always)]
    pub fn shares(&self, slot: usize, step: usize) -> Lanes {
        let mut shares = [0; RULES];
        for r in 0..RULES {
            let among = self.values[r] >> step & self.named[r] >> slot & 1;
            shares[r] = among as i32 + self.coefs[slot][r] * step as i32;
        }
        shares
    }

    #[inline(always)]
    pub fn price(&self, slot: usize, step: usize) -> i32 {
        self.weights[slot] * step as i32
    }

    #[inline(always)]
    pub fn allows(&self, slot: usize, step: usize) -> bool {
        self.sets[slot] >> step & 1 == 1
    }
}

/// The bytes that are still to be read.
struct Cursor<'a>(&'a [u8]);

impl<'a> Cursor<'a> {
    /// The next bytes; refused 1 where the file ends before them.
    #[inline(always)]
    fn take(&mut self, count: usize) -> Result<&'a [u8], u32> {
        if self.0.len() < count {
            return Err(1);
        }
        let (taken, rest) = self.0.split_at(count);
        self.0 = rest;
        Ok(taken)
    }
}

#[inline(always)]
fn word(b: &[u8]) -> i32 {
    i32::from_le_bytes([b[0], b[1], b[2], b[3]])
}

#[inline(always)]
fn is_within(x: i32, limit: i32) -> bool {
    -limit <= x && x <= limit
}

#[inline(always)]
fn must(holds: bool, refusal: u32) -> Result<(), u32> {
    if holds {
        Ok(())
    } else {
        Err(refusal)
    }
}

/// The problem, or the refusal's number.
#[inline]
pub fn read(file: &[u8]) -> Result<Problem, u32> {
    let mut at = Cursor(file);
    let head = at.take(7)?;
    must(head[..3] == *b"RTP", 2)?;
    must(head[3] == 1 && head[4] == 0, 3)?;
    let (n, m) = (head[5] as usize, head[6] as usize);
    must(1 <= n && n <= SLOTS && m <= RULES, 4)?;
    let mut p = Problem {
        n,
        m,
        sets: [0; SLOTS],
        weights: [0; SLOTS],
        kinds: [0; RULES],
        values: [0; RULES],
        named: [0; RULES],
        coefs: [[0; RULES]; SLOTS],
        lb: [0; RULES],
        ub: [0; RULES],
    };
    p.sets[..n].copy_from_slice(at.take(n)?);
    must(p.sets[..n].iter().all(|&set| set != 0), 5)?;
    for (weight, b) in p.weights.iter_mut().zip(at.take(4 * n)?.chunks_exact(4)) {
        *weight = word(b);
    }
    must(p.weights.iter().all(|&weight| is_within(weight, 10_000)), 5)?;
    for r in 0..m {
        read_rule(&mut at, &mut p, r)?;
    }
    must(at.0.is_empty(), 7)?;
    Ok(p)
}

#[inline(always)]
fn read_rule(at: &mut Cursor, p: &mut Problem, r: usize) -> Result<(), u32> {
    p.kinds[r] = at.take(1)?[0];
    let bounds = match p.kinds[r] {
        1 => {
            let body = at.take(13)?;
            p.values[r] = body[0] as u32;
            p.named[r] = word(&body[1..5]) as u32;
            must(p.named[r] >> p.n == 0, 6)?;
            &body[5..]
        }
        2 => {
            let (coefs, bounds) = at.take(2 * p.n + 8)?.split_at(2 * p.n);
            let mut in_range = true;
            for (row, b) in p.coefs.iter_mut().zip(coefs.chunks_exact(2)) {
                row[r] = i16::from_le_bytes([b[0], b[1]]) as i32;
                in_range &= is_within(row[r], 1_000);
            }
            must(in_range, 6)?;
            bounds
        }
        _ => return Err(6),
    };
    p.lb[r] = word(&bounds[..4]);
    p.ub[r] = word(&bounds[4..]);
    must(is_within(p.lb[r], 200_000) && is_within(p.ub[r], 200_000) && p.lb[r] <= p.ub[r], 6)
}

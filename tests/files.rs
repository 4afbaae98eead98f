//! Plan files from a seed: what the differential test and the benchmark draw theirs with.

/// Whole numbers from a seed (splitmix64).
pub struct Rng(pub u64);

impl Rng {
    pub fn next(&mut self) -> u64 {
        self.0 = self.0.wrapping_add(0x9e37_79b9_7f4a_7c15);
        let x = (self.0 ^ self.0 >> 30).wrapping_mul(0xbf58_476d_1ce4_e5b9);
        let x = (x ^ x >> 27).wrapping_mul(0x94d0_49bb_1331_11eb);
        x ^ x >> 31
    }

    /// One of lo..=hi.
    pub fn to(&mut self, lo: i32, hi: i32) -> i32 {
        let room = (hi as i64 - lo as i64 + 1) as u64;
        (lo as i64 + (self.next() % room) as i64) as i32
    }

    /// Yes in so many of a hundred.
    pub fn in_100(&mut self, k: i32) -> bool {
        self.to(1, 100) <= k
    }

    /// A step of a set.
    pub fn step(&mut self, set: u8) -> u8 {
        loop {
            let v = self.to(0, 7) as u8;
            if set >> v & 1 == 1 {
                return v;
            }
        }
    }
}

pub enum Kind {
    Among(u8, u32),
    Sum(Vec<i32>),
}

pub struct Rule {
    pub kind: Kind,
    pub lb: i32,
    pub ub: i32,
}

impl Rule {
    pub fn share(&self, i: usize, v: u8) -> i32 {
        match &self.kind {
            Kind::Among(values, named) => (*values as u32 >> v & named >> i & 1) as i32,
            Kind::Sum(coefs) => coefs[i] * v as i32,
        }
    }

    pub fn total(&self, plan: &[u8]) -> i32 {
        plan.iter().enumerate().map(|(i, &v)| self.share(i, v)).sum()
    }
}

pub struct Problem {
    pub sets: Vec<u8>,
    pub weights: Vec<i32>,
    pub rules: Vec<Rule>,
}

impl Problem {
    pub fn bytes(&self) -> Vec<u8> {
        let mut f = vec![b'R', b'T', b'P', 1, 0, self.sets.len() as u8, self.rules.len() as u8];
        f.extend(&self.sets);
        self.weights.iter().for_each(|w| f.extend(w.to_le_bytes()));
        for r in &self.rules {
            match &r.kind {
                Kind::Among(values, named) => {
                    f.extend([1, *values]);
                    f.extend(named.to_le_bytes());
                }
                Kind::Sum(coefs) => {
                    f.push(2);
                    coefs.iter().for_each(|&c| f.extend((c as i16).to_le_bytes()));
                }
            }
            f.extend(r.lb.to_le_bytes());
            f.extend(r.ub.to_le_bytes());
        }
        f
    }
}

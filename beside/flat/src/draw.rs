//! Parameters and flat records: spreads that reach each branch of each law, ties, and edge values in every place.
use crate::law::*;

pub struct Draw(pub u64);

/// Ends of section 3's ranges and of the doubles, and what the laws compare with.
#[rustfmt::skip]
const EDGES: [f64; 24] = [
    0.0, 5e-324, f64::MIN_POSITIVE, f64::MAX, 1e154, 1e-154, 1e200, 1e-200, 0.5, 1.0, 2.0, 3.0, 1e-4, 1e-5, 0.975, 1.0045, 10.0,
    700.0, 701.0, 8.0, 9.0, 8.673617379884035e-19, 1.152921504606847e18, 1e25,
];

impl Draw {
    fn word(&mut self) -> u64 {
        self.0 = self.0.wrapping_add(0x9e37_79b9_7f4a_7c15);
        let mut z = self.0;
        z = (z ^ (z >> 30)).wrapping_mul(0xbf58_476d_1ce4_e5b9);
        z = (z ^ (z >> 27)).wrapping_mul(0x94d0_49bb_1331_11eb);
        z ^ (z >> 31)
    }

    pub fn below(&mut self, n: usize) -> usize {
        (self.word() % n as u64) as usize
    }

    pub fn one_in(&mut self, n: usize) -> bool {
        self.below(n) == 0
    }

    fn between(&mut self, a: f64, b: f64) -> f64 {
        a + (b - a) * ((self.word() >> 11) as f64 / (1u64 << 53) as f64)
    }

    fn normal(&mut self) -> f64 {
        (0..12).map(|_| self.between(0.0, 1.0)).sum::<f64>() - 6.0
    }

    /// 10 to a power between a and b.
    fn scale(&mut self, a: f64, b: f64) -> f64 {
        10f64.powf(self.between(a, b))
    }

    fn pick(&mut self, a: &[f64]) -> f64 {
        a[self.below(a.len())]
    }

    /// A turn, at times the identity, a quarter or a reflection.
    fn turn(&mut self) -> [f64; 4] {
        let (s, c) = self.between(-3.2, 3.2).sin_cos();
        [[c, -s, s, c], [1.0, 0.0, 0.0, 1.0], [0.0, -1.0, 1.0, 0.0], [1.0, 0.0, 0.0, -1.0]][self.below(8).saturating_sub(4)]
    }

    fn sigma(&mut self) -> [f64; 2] {
        let spread = self.scale(-5.0, 0.3);
        let s = [(spread * self.normal()).exp(), (spread * self.normal()).exp()];
        match self.below(8) {
            0 => [s[0]; 2],
            1 => [s[0], f64::from_bits(s[0].to_bits() + self.word() % 3)],
            2 => [s[0], 1.0],
            3 => [self.scale(-18.5, 18.5), s[1]],
            _ => s,
        }
    }

    fn young_poisson(&mut self) -> [f64; 2] {
        let (e, n) = (self.scale(0.0, 9.0), self.between(0.0, 0.49));
        [e, if self.one_in(64) { self.pick(&[0.5, -1.0]) } else { self.pick(&[n, n, n, 0.25, 0.0, -0.3]) }]
    }

    /// p_tr between the tips, beside one, or beyond it, and the sigma that give it.
    fn nacc(&mut self, r: &mut Record) -> Vec<f64> {
        let [e, n] = self.young_poisson();
        let e = if self.one_in(4) { self.scale(-6.0, 1.5) } else { e };
        let beta = self.between(0.0, 1.0);
        let beta = self.pick(&[beta, beta, beta, 0.0, 1.0, -0.25]);
        let (xi, m, hardening) = (self.between(0.1, 5.0), self.between(0.2, 3.0), self.below(2) as f64);
        if self.one_in(16) {
            // The ellipse has no height and its middle lies at kappa/2: j_e_x is 0, no step of alpha.
            r[ALPHA] = -(1.0f64 - 1e-5).asinh();
            return vec![e, n, 0.0, 1.0, 1.0, 0.0];
        }
        let kappa = e / (3.0 * (1.0 - 2.0 * n));
        let p0 = kappa * (1e-5 + (xi * (-r[ALPHA]).max(0.0)).sinh());
        let near = 1e-4 * self.between(-1.0, 1.0);
        let inside = self.between(-beta * p0, p0);
        let beyond = p0 * self.between(-3.0, 3.0);
        let p_tr = self.pick(&[inside, inside, p0 + near, -beta * p0 + near, beyond]);
        let j = (1.0 - 2.0 * p_tr / kappa).max(0.0).sqrt();
        if !self.one_in(4) && j > 0.0 && j.is_finite() {
            let d = (self.scale(-6.0, 0.0) * self.normal()).exp();
            (r[SIGMA], r[SIGMA + 1]) = (j.sqrt() * d, j.sqrt() / d);
        }
        vec![e, n, beta, hardening, xi, m]
    }

    fn parameters(&mut self, model: usize, r: &mut Record) -> Vec<f64> {
        match model {
            0 if self.one_in(2) => vec![0.025, 0.0045, 10.0],
            0 => vec![self.between(0.0, 0.2), self.between(0.0, 0.1), self.between(-5.0, 20.0)],
            1 => {
                let [e, n] = self.young_poisson();
                // s near the stresses of such strains, so that each branch comes.
                let least = r[SIGMA].ln().min(r[SIGMA + 1].ln()).abs();
                let c = self.scale(-4.0, 0.3);
                let c = self.pick(&[c, c, least * 1.2, least * 2.0]);
                let strength = if self.one_in(8) { -e * c } else { e * c + r[PLASTIC] - 1.0 };
                let rate = self.normal();
                vec![e, n, strength, self.pick(&[0.0, 1.0, 5.0, rate])]
            }
            2 => {
                let [e, n] = self.young_poisson();
                let (l, m) = (e * n / ((1.0 + n) * (1.0 - 2.0 * n)), e / (2.0 * (1.0 + n)));
                let h = [self.between(0.0, 1.2), self.between(-0.5, 0.5), self.between(0.0, 1.0), self.between(0.0, 0.5)];
                let degrees = [35.0f64.to_radians(), 9.0f64.to_radians(), 0.2, 10.0f64.to_radians()];
                let h = if self.one_in(2) { degrees } else { h };
                let (m, c) = (if self.one_in(64) { 0.0 } else { m }, self.between(0.0, 1.0));
                vec![h[0], h[1], h[2], h[3], l, m, self.below(2) as f64, self.pick(&[1.0, 1.0, 0.0, c])]
            }
            _ => self.nacc(r),
        }
    }

    /// NACC's arguments with a friction angle in m's place: often within a turn, at times beyond the sine's range or at an edge.
    pub fn angled(&mut self) -> Vec<f64> {
        let mut p = self.plain(3).0;
        let (near, far, any) = (self.between(-1.6, 1.6), self.between(-9.0, 9.0), f64::from_bits(self.word()));
        let edge = self.pick(&EDGES) * self.pick(&[1.0, -1.0, 1.0 + f64::EPSILON]);
        let none = self.pick(&[f64::NAN, f64::INFINITY, f64::NEG_INFINITY]);
        p[5] = self.pick(&[near, near, near, near, far, far, edge, any, none]);
        p
    }

    /// Parameters and a record as hosts have them.
    pub fn plain(&mut self, model: usize) -> (Vec<f64>, Record) {
        let mut r = [0.0; FLOATS];
        r[U..U + 4].copy_from_slice(&self.turn());
        r[SIGMA..SIGMA + 2].copy_from_slice(&self.sigma());
        r[SIGMA + 2..PHASE].copy_from_slice(&self.turn());
        let (x, a) = (self.between(0.0, 1.0), self.between(0.0, 1.0));
        r[PHASE] = self.pick(&[0.0, 1.0, 1.0, 0.5, -0.0, x]);
        r[DET] = 1.0 + 0.1 * self.normal();
        r[PLASTIC] = self.pick(&[1.0, 1.0, 0.0, 1.0 + x, 5.0 * x]);
        r[ELASTIC] = self.between(0.1, 3.0);
        r[GAIN] = 0.05 * self.normal() * self.pick(&[0.0, 1.0]);
        r[ALPHA] = self.pick(&[0.0, -0.0, -0.01 * a, -0.3 * a, -a, -3.0 * a, a]);
        let p = self.parameters(model, &mut r);
        compose(&mut r);
        (p, r)
    }

    /// The same with edge values: in a quarter of them some, now and then what is no number.
    pub fn edged(&mut self, model: usize) -> (Vec<f64>, Record) {
        let (mut p, mut r) = self.plain(model);
        if self.one_in(12) {
            r[..4].copy_from_slice(&[1e300, -0.0, 5e-324, 7.0]);
        }
        if self.one_in(4) {
            for _ in 0..=self.below(3) {
                let n = p.len();
                let k = self.below(n + FLOATS + 8);
                let any = f64::from_bits(self.word());
                let x = match self.below(16) {
                    0 => self.pick(&[f64::NAN, f64::INFINITY, f64::NEG_INFINITY]),
                    1 => any,
                    2 => self.scale(-300.0, 300.0),
                    _ => self.pick(&EDGES) * self.pick(&[1.0, -1.0, 1.0 + f64::EPSILON]),
                };
                match k {
                    k if k < n => p[k] = x,
                    k if k < n + FLOATS => r[k - n] = x,
                    k => r[SIGMA + k % 2] = x.abs(),
                }
            }
        }
        (p, r)
    }
}

/// F as U sigma V^T.
pub fn compose(r: &mut Record) {
    for i in 0..2 {
        for j in 0..2 {
            r[2 * i + j] = (0..2).map(|k| r[U + 2 * i + k] * r[SIGMA + k] * r[SIGMA + 2 + 2 * k + j]).sum();
        }
    }
}

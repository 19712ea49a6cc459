//! Inputs for every call: several spreads, edge values in every place, ties, and the few inputs that only a rare branch takes.
use crate::calls::{self, *};
use crate::inside::{self, float_at};

pub struct Draw(pub u64);

/// Ends of every range of section 3, both sides of them, and the edges of the format.
fn edges() -> Vec<f64> {
    let mut e = vec![
        0.0,
        f64::from_bits(1),
        f64::from_bits(0x000f_ffff_ffff_ffff),
        f64::MIN_POSITIVE,
        f64::MAX,
        1e154,
        1e-154,
        1e-200,
        1e200,
        0.5,
        1.0,
        2.0,
        3.0,
        1.0 / 3.0,
        1e-4,
        1e-5,
        0.001,
        0.025,
        0.0045,
        0.975,
        1.0045,
        10.0,
        f64::EPSILON,
    ];
    for end in [2f64.powi(-60), 2f64.powi(60), 700.0, 8.0, 1.0, 0.975, 1.0045, 709.782712893384, 745.1332191019412] {
        e.extend([end, f64::from_bits(end.to_bits() - 1), f64::from_bits(end.to_bits() + 1)]);
    }
    let minus: Vec<f64> = e.iter().map(|x| -x).collect();
    e.extend(minus);
    e
}

impl Draw {
    pub fn word(&mut self) -> u64 {
        self.0 = self.0.wrapping_add(0x9e37_79b9_7f4a_7c15);
        let mut z = self.0;
        z = (z ^ (z >> 30)).wrapping_mul(0xbf58_476d_1ce4_e5b9);
        z = (z ^ (z >> 27)).wrapping_mul(0x94d0_49bb_1331_11eb);
        z ^ (z >> 31)
    }

    pub fn below(&mut self, n: u64) -> u64 {
        self.word() % n
    }

    pub fn one_in(&mut self, n: u64) -> bool {
        self.below(n) == 0
    }

    fn unit(&mut self) -> f64 {
        (self.word() >> 11) as f64 / (1u64 << 53) as f64
    }

    fn between(&mut self, a: f64, b: f64) -> f64 {
        a + (b - a) * self.unit()
    }

    fn normal(&mut self) -> f64 {
        (0..12).map(|_| self.unit()).sum::<f64>() - 6.0
    }

    /// 10 to a power between a and b.
    fn scale(&mut self, a: f64, b: f64) -> f64 {
        10f64.powf(self.between(a, b))
    }

    fn signed(&mut self, x: f64) -> f64 {
        if self.one_in(2) {
            -x
        } else {
            x
        }
    }

    fn pick(&mut self, a: &[f64]) -> f64 {
        a[self.below(a.len() as u64) as usize]
    }

    /// A number of any size that is finite.
    fn any(&mut self) -> f64 {
        loop {
            let x = f64::from_bits(self.word());
            if x.is_finite() {
                return x;
            }
        }
    }

    pub fn edge(&mut self) -> f64 {
        let e = edges();
        self.pick(&e)
    }

    /// A number of one of several spreads.
    fn number(&mut self) -> f64 {
        match self.below(6) {
            0 => 1.0 + 0.01 * self.normal(),
            1 | 2 => self.normal(),
            3 => {
                let x = self.scale(-6.0, 6.0);
                self.signed(x)
            }
            4 => {
                let x = self.scale(-40.0, 40.0);
                self.signed(x)
            }
            _ => self.edge(),
        }
    }

    /// A turning matrix, by rows; at times the identity, a reflection, or a quarter turn.
    fn turn(&mut self) -> [f64; 9] {
        match self.below(8) {
            0 => [1.0, 0.0, 0.0, 0.0, 1.0, 0.0, 0.0, 0.0, 1.0],
            1 => [0.0, -1.0, 0.0, 1.0, 0.0, 0.0, 0.0, 0.0, 1.0],
            2 => [-1.0, 0.0, 0.0, 0.0, 1.0, 0.0, 0.0, 0.0, 1.0],
            _ => {
                let q: Vec<f64> = (0..4).map(|_| self.normal()).collect();
                let n = q.iter().map(|x| x * x).sum::<f64>().sqrt();
                let (w, x, y, z) = (q[0] / n, q[1] / n, q[2] / n, q[3] / n);
                [
                    1.0 - 2.0 * (y * y + z * z),
                    2.0 * (x * y - w * z),
                    2.0 * (x * z + w * y),
                    2.0 * (x * y + w * z),
                    1.0 - 2.0 * (x * x + z * z),
                    2.0 * (y * z - w * x),
                    2.0 * (x * z - w * y),
                    2.0 * (y * z + w * x),
                    1.0 - 2.0 * (x * x + y * y),
                ]
            }
        }
    }

    /// Singular values: near one, in narrow and wide spreads, with ties.
    fn sigma(&mut self) -> [f64; 3] {
        let kind = self.below(12);
        let mut s = [0.0; 3];
        for x in &mut s {
            *x = match kind {
                0..=3 => 1.0 + 0.02 * self.normal(),
                4 | 5 => (0.3 * self.normal()).exp(),
                6 => self.scale(-4.0, 4.0),
                7 => self.scale(-19.0, 19.0),
                8 => 1.0 + 1e-6 * self.normal(),
                9 => self.pick(&[1.0, 0.975, 1.0045, 0.9, 1.1, 0.5, 2.0]),
                10 => 1.0 - 0.05 * self.unit(),
                _ => 1.0 + 0.05 * self.unit(),
            };
        }
        match self.below(10) {
            0 => s[1] = s[0],
            1 => s[2] = s[0],
            2 => s = [s[0]; 3],
            3 => s[2] = s[1],
            _ => {}
        }
        s
    }

    /// F, U, sigma, V^T: F is their product, or unrelated.
    fn factored(&mut self) -> Vec<f64> {
        let (u, s, v) = (self.turn(), self.sigma(), self.turn());
        let mut f = [0.0; 9];
        for i in 0..3 {
            for j in 0..3 {
                f[3 * i + j] = (0..3).map(|k| u[3 * i + k] * s[k] * v[3 * k + j]).sum();
            }
        }
        if self.one_in(12) {
            f = std::array::from_fn(|_| self.number());
        }
        [&f[..], &u, &s, &v].concat()
    }

    pub fn record(&mut self) -> Vec<f64> {
        let mut r = self.factored();
        let half = self.unit();
        r.push(self.pick(&[0.0, 1.0, 1.0, 0.5, -0.0, half]));
        r.push(1.0 + 0.1 * self.normal());
        let grown = self.unit();
        r.push(self.pick(&[1.0, 1.0, 0.0, 1.0 + grown, 5.0 * grown]));
        r.push(self.between(0.1, 3.0));
        let gain = 0.05 * self.normal();
        r.push(self.pick(&[0.0, 0.0, gain, gain]));
        let a = self.unit();
        r.push(self.pick(&[0.0, -0.0, -0.01 * a, -0.3 * a, -a, -3.0 * a, a]));
        r
    }

    fn young_poisson(&mut self) -> [f64; 2] {
        let e = self.scale(0.0, 9.0);
        let p = self.between(0.0, 0.49);
        if self.one_in(64) {
            // No finite modulus.
            return [e, self.pick(&[0.5, -1.0])];
        }
        [e, self.pick(&[p, p, p, p, 0.2, 0.3, 0.0, -0.3])]
    }

    /// Parameters of a plastic law and a record, as an update takes them.
    fn update(&mut self, model: usize) -> Vec<f64> {
        let mut r = self.record();
        let mut p = match model {
            0 if self.one_in(2) => vec![0.025, 0.0045, 10.0],
            0 => vec![self.between(0.0, 0.2), self.between(0.0, 0.1), self.between(-5.0, 20.0)],
            1 => {
                let [e, n] = self.young_poisson();
                let c = 2.0 * self.scale(-4.0, 0.0);
                // s near the stresses of such strains, so that each branch comes.
                let strength = if self.one_in(8) { -e * c } else { e * c + r[32] - 1.0 };
                let rate = self.number();
                vec![e, n, strength, self.pick(&[0.0, 1.0, 5.0, rate])]
            }
            2 => {
                let [e, n] = self.young_poisson();
                let (mut l, mut m) = (e * n / ((1.0 + n) * (1.0 - 2.0 * n)), e / (2.0 * (1.0 + n)));
                if self.one_in(64) {
                    (l, m) = (self.pick(&[0.0, l]), 0.0);
                }
                let h = if self.one_in(2) {
                    [35.0f64.to_radians(), 9.0f64.to_radians(), 0.2, 10.0f64.to_radians()]
                } else {
                    [self.between(0.0, 1.2), self.between(-0.5, 0.5), self.between(0.0, 1.0), self.between(0.0, 0.5)]
                };
                let c = self.unit();
                vec![h[0], h[1], h[2], h[3], l, m, self.below(2) as f64, self.pick(&[1.0, 1.0, 0.0, c])]
            }
            _ => self.nacc(&mut r),
        };
        let f: Vec<u64> = r[..9].iter().map(|x| x.to_bits()).collect();
        p.extend(r);
        p.push(f64::from_bits(inside::determinant(&f)));
        p
    }

    /// A record's determinant put right, but now and then; and rarely one bit of it wrong.
    fn determinant(&mut self, at: usize, w: &mut [u64]) {
        let r = &mut w[at..];
        if !self.one_in(8) {
            inside::complete(r);
        }
        if self.one_in(48) {
            r[BARE] ^= if self.one_in(2) { 1 } else { 1 << 63 };
        }
    }

    fn nacc(&mut self, r: &mut [f64]) -> Vec<f64> {
        let [e, n] = self.young_poisson();
        let xi = self.between(0.1, 5.0);
        let (beta, m) = (self.between(0.0, 1.0), self.between(0.2, 3.0));
        let hardening = self.below(2) as f64;
        match self.below(16) {
            // The ellipse has no height and its middle lies at kappa/2: j_e_x is 0, no step of alpha.
            0 => {
                r[35] = -(1.0f64 - 1e-5).asinh();
                return vec![e, n, 0.0, 1.0, 1.0, 0.0];
            }
            // Near the surface's tips, and well inside.
            1 => vec![self.scale(-6.0, -2.0), n, beta, hardening, xi, m],
            3 | 4 => return self.near_a_tip(r),
            2 => vec![e, n, self.pick(&[0.0, 1.0, -0.5, -0.25]), hardening, xi, m],
            _ => vec![e, n, beta, hardening, xi, m],
        }
    }

    /// p_tr within 1e-4 of p0 or of -beta p0, where the surface is still left through its side.
    fn near_a_tip(&mut self, r: &mut [f64]) -> Vec<f64> {
        let (e, n, beta, m) = (self.between(1.0, 30.0), self.between(0.0, 0.3), self.between(0.1, 1.0), self.between(0.2, 2.0));
        let kappa = e / (3.0 * (1.0 - 2.0 * n));
        let soft = self.one_in(4);
        let hard = if soft { 0.0 } else { self.scale(-4.0, -1.0) };
        r[35] = -hard;
        let p0 = kappa * (1e-5 + hard.sinh());
        let off = self.unit() * if soft { p0 } else { 1e-4 };
        let p_tr = if self.one_in(2) { p0 - off } else { -beta * p0 + off };
        let j = (1.0 - 2.0 * p_tr / kappa).max(0.01).sqrt();
        let (a, b) = (1.0 + 0.3 * self.unit(), 1.0 - 0.3 * self.unit());
        r[18..21].copy_from_slice(&[a, b, j / (a * b)]);
        vec![e, n, beta, 1.0, 1.0, m]
    }

    fn matrix(&mut self) -> Vec<f64> {
        if self.one_in(12) {
            (0..9).map(|_| self.pick(&[0.0, -0.0, -0.0, 1.0, -1.0])).collect()
        } else if self.one_in(3) {
            self.factored()[..9].to_vec()
        } else {
            (0..9).map(|_| self.number()).collect()
        }
    }

    /// A law's phase, hardening and F.
    fn solid(&mut self) -> Vec<f64> {
        let [e, n] = self.young_poisson();
        vec![0.5, e * n / ((1.0 + n) * (1.0 - 2.0 * n)), e / (2.0 * (1.0 + n))]
    }

    fn phase(&mut self) -> f64 {
        let x = self.unit();
        self.pick(&[0.0, 1.0, 1.0, 0.0, -0.0, x])
    }

    fn hardening(&mut self) -> f64 {
        let x = self.scale(-2.0, 2.0);
        self.pick(&[1.0, x, x, 0.0])
    }

    /// pressure0, viscosity and largest negative; gamma is put in by the caller.
    fn monaghan(&mut self) -> Vec<f64> {
        let p = self.scale(0.0, 6.0);
        let v = self.unit();
        let w = self.pick(&[1.0, 0.0, 100.0]);
        vec![self.pick(&[10.0, p, p, -p]), 0.0, self.pick(&[0.0, v, v, -0.0]), w]
    }

    fn densities(&mut self) -> Vec<f64> {
        let (m, v, c) = (self.scale(-3.0, 3.0), self.scale(-3.0, 3.0), self.between(0.3, 2.0));
        vec![m, v, m / v * c]
    }

    fn base(&mut self, n: usize) -> Vec<f64> {
        match n {
            EXP | SINH => vec![self.pick2(|d| d.between(-710.0, 710.0), |d| d.normal())],
            LN | CBRT..=INV_CBRT_SQUARED => vec![self.pick2(|d| d.scale(-19.0, 19.0), |d| d.between(0.5, 2.0))],
            SIN => vec![self.between(-9.0, 9.0)],
            SQRT => vec![self.pick2(|d| d.any().abs(), |d| d.scale(-10.0, 10.0))],
            INV_EXACT | PHASE_COEFF => vec![self.number()],
            SHEAR_MODULUS | BULK_MODULUS | LAME_LAMBDA_MU => self.young_poisson().to_vec(),
            SHEAR_MODULUS_FROM_LAME | BULK_MODULUS_FROM_LAME => vec![self.number(), self.number()],
            SOLVE_QUADRATIC => {
                let v: Vec<f64> = (0..3).map(|_| self.number()).collect();
                if self.one_in(2) {
                    vec![v[0], v[1], -v[0]]
                } else {
                    v
                }
            }
            SPIN_TENSOR..=SPHERICAL_PART => self.matrix(),
            UPDATE_SNOW..=UPDATE_NACC => self.update(n - UPDATE),
            NEO_HOOKEAN_FPK_STRESS => {
                let mut v = self.solid();
                v.push(self.hardening());
                v.extend(self.strained());
                v
            }
            NEO_HOOKEAN_ELASTIC_ENERGY_DENSITY..=NEO_HOOKEAN_POS_ENERGY => {
                let mut v = self.solid();
                v.push(self.phase());
                v.push(self.hardening());
                v.extend(self.strained());
                v
            }
            NEO_HOOKEAN_STRESS_AND_VERDICT | COROTATED_STRESS_AND_VERDICT => self.judged(n),
            COROTATED_ELASTIC_ENERGY_DENSITY..=COROTATED_POS_ENERGY => {
                let mut v = self.solid();
                v[0] = 0.9;
                v.insert(0, self.below(2) as f64);
                v.push(self.hardening());
                let f = self.factored();
                match n {
                    COROTATED_ELASTIC_ENERGY_DENSITY => v.extend(&f[18..21]),
                    _ => {
                        v.extend(&f[..9]);
                        v.extend(&f[18..21]);
                    }
                }
                v
            }
            MONAGHAN_PRESSURE..=MONAGHAN_TIMESTEP_BOUND => {
                let mut v = self.monaghan();
                let det = self.between(0.3, 2.0);
                let det = self.pick(&[det, det, 1.0, 0.0]);
                if n == MONAGHAN_TIMESTEP_BOUND {
                    v.push(det);
                }
                v.extend(self.densities());
                if n == MONAGHAN_KIRCHHOFF_STRESS {
                    v.push(det);
                    v.extend(self.matrix());
                }
                if n == MONAGHAN_TIMESTEP_BOUND {
                    let speed = self.scale(-3.0, 5.0);
                    v.extend([self.normal() * speed, self.normal() * speed, self.normal() * speed]);
                    v.push(self.scale(-3.0, 1.0));
                }
                v
            }
            SNOW_CLAMP => {
                let mut v = vec![0.025, 0.0045, 10.0];
                v.extend(self.sigma());
                v
            }
            RANKINE_PROJECT => {
                let [e, n] = self.young_poisson();
                let s = e * self.scale(-4.0, 0.0);
                let spread = self.scale(-4.0, 0.0);
                let mut strains: Vec<f64> = (0..3).map(|_| spread * self.normal()).collect();
                if self.one_in(4) {
                    strains[2] = strains[0];
                }
                let s = self.pick(&[s, s, s, -s]);
                vec![e, n, s, 1.0, s, strains[0], strains[1], strains[2]]
            }
            DECOMPOSED_TIMES => {
                let mut v = vec![self.number()];
                v.extend(self.matrix());
                v.extend((0..3).map(|_| self.number()));
                v
            }
            _ => {
                let mut v = self.update(2)[..8].to_vec();
                v[6] = self.below(2) as f64;
                v.push(self.between(-1.0, 5.0));
                v
            }
        }
    }

    /// A solid law, limits of the sizes that its stresses have, and a record.
    fn judged(&mut self, n: usize) -> Vec<f64> {
        let mut v = self.solid();
        let mu = v[2];
        if n == COROTATED_STRESS_AND_VERDICT {
            v[0] = 0.9;
            v.insert(0, self.below(2) as f64);
        }
        v.extend([mu * self.scale(-4.0, 2.0), mu * self.scale(-4.0, 2.0)]);
        let mut r = self.record();
        if n == NEO_HOOKEAN_STRESS_AND_VERDICT {
            r.splice(..9, self.strained());
        }
        r[30] = self.phase();
        r[33] = self.hardening();
        let f: Vec<u64> = r[..9].iter().map(|x| x.to_bits()).collect();
        r.push(f64::from_bits(inside::determinant(&f)));
        v.extend(r);
        v
    }

    /// F near the identity or in wider spreads, now and then with no volume or turned inside out.
    fn strained(&mut self) -> Vec<f64> {
        let mut f = self.factored()[..9].to_vec();
        match self.below(24) {
            0 => f[6..].fill(0.0),
            1 => f = f.iter().map(|x| -x).collect(),
            2 => f = vec![0.0; 9],
            _ => {}
        }
        f
    }

    fn pick2(&mut self, a: impl Fn(&mut Draw) -> f64, b: impl Fn(&mut Draw) -> f64) -> f64 {
        if self.one_in(2) {
            a(self)
        } else {
            b(self)
        }
    }

    fn gamma(&mut self) -> u64 {
        let few = self.below(16);
        let wide = self.word() as u32 as u64;
        match self.below(8) {
            0 => 0,
            1 => 4294967295,
            2 => 2147483648,
            3 => 2147483647,
            4 => wide,
            5 => 4294967296 - 1 - few,
            _ => few,
        }
    }

    /// Every place of a call's inputs in turn holding what is no number, a zero or an end of the format, over a few inputs.
    pub fn sweep(&mut self, n: usize) -> Vec<Vec<u64>> {
        let mut all = Vec::new();
        for _ in 0..4 {
            let w = self.inputs(n);
            for k in (0..w.len()).filter(|k| !(calls::is_monaghan(n) && *k == 1)) {
                for x in [f64::NAN, f64::INFINITY, f64::NEG_INFINITY, 0.0, -0.0, f64::from_bits(1), f64::MAX, -f64::MAX] {
                    let mut i = w.clone();
                    i[k] = x.to_bits();
                    if let Some(at) = calls::record_at(n).filter(|_| k + 1 < i.len()) {
                        inside::complete(&mut i[at..]);
                    }
                    all.push(i);
                }
            }
        }
        all
    }

    /// The inputs of one call, as bits. A quarter has one to three places replaced by an edge value, any number, or, rarely, no number.
    pub fn inputs(&mut self, n: usize) -> Vec<u64> {
        let v = self.base(n);
        assert_eq!(v.len(), CALLS[n].inputs, "{}", CALLS[n].name);
        let mut w: Vec<u64> = v.iter().map(|x| x.to_bits()).collect();
        if calls::is_monaghan(n) {
            w[1] = self.gamma();
        }
        if self.one_in(4) {
            for _ in 0..1 + self.below(3) {
                let k = self.below(w.len() as u64) as usize;
                if calls::is_monaghan(n) && k == 1 {
                    continue;
                }
                let wild = match self.below(16) {
                    0 => self.pick(&[f64::NAN, f64::INFINITY, f64::NEG_INFINITY]),
                    1..=3 => self.any(),
                    4 | 5 => self.number(),
                    6 => v[self.below(v.len() as u64) as usize],
                    _ => self.edge(),
                };
                if float_at(n, k) || self.one_in(4) {
                    w[k] = wild.to_bits();
                }
            }
            if let Some(at) = calls::record_at(n) {
                self.determinant(at, &mut w);
            }
        }
        w
    }
}

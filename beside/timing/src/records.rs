//! Records for a pass: random turns, sigma near one, each branch of the law in an equal share, in mixed order.
use crate::calls::BARE;
use crate::sides::our_pass;

pub struct Law {
    pub name: &'static str,
    pub parameters: &'static [f64],
    pub branches: &'static [&'static str],
    spread: f64,
}

/// In the order of the models. Snow's branches are those of its first sigma.
pub const LAWS: [Law; 4] = [
    Law { name: "snow", parameters: &[0.025, 0.0045, 10.0], branches: &["raised", "cut", "neither"], spread: 0.03 },
    Law {
        name: "rankine",
        parameters: &[1e5, 0.3, 1000.0, 1.0],
        branches: &["untouched", "one strain", "two strains", "all strains"],
        spread: 0.02,
    },
    Law {
        name: "drucker_prager",
        parameters: &[0.61, 0.157, 0.2, 0.175, 27778.0, 41667.0, 1.0, 1.0],
        branches: &["not active", "tip", "inside", "surface"],
        spread: 0.02,
    },
    Law {
        name: "nacc",
        parameters: &[1e5, 0.3, 0.3, 1.0, 1.0, 1.5],
        branches: &["upper tip", "lower tip", "inside", "surface, alpha stepped"],
        spread: 0.02,
    },
];

pub fn bits(x: &[f64]) -> Vec<u64> {
    x.iter().map(|x| x.to_bits()).collect()
}

/// A record's first 36 floats with the determinant of the F that stands there.
pub fn completed(r: &[u64]) -> Vec<u64> {
    let [a, b, c, d, e, f, g, h, i]: [f64; 9] = std::array::from_fn(|k| f64::from_bits(r[k]));
    let x = a * (e * i - f * h) - b * (d * i - f * g) + c * (d * h - e * g);
    [&r[..BARE], &[x.to_bits()]].concat()
}

pub struct Draw(pub u64);

impl Draw {
    fn word(&mut self) -> u64 {
        self.0 = self.0.wrapping_add(0x9e37_79b9_7f4a_7c15);
        let z = (self.0 ^ (self.0 >> 30)).wrapping_mul(0xbf58_476d_1ce4_e5b9);
        let z = (z ^ (z >> 27)).wrapping_mul(0x94d0_49bb_1331_11eb);
        z ^ (z >> 31)
    }

    pub fn between(&mut self, a: f64, b: f64) -> f64 {
        a + (b - a) * ((self.word() >> 11) as f64 / (1u64 << 53) as f64)
    }

    fn normal(&mut self) -> f64 {
        (0..12).map(|_| self.between(-0.5, 0.5)).sum()
    }

    /// A turning matrix by rows, from a unit quaternion.
    fn turn(&mut self) -> [f64; 9] {
        let q: [f64; 4] = std::array::from_fn(|_| self.normal());
        let n = q.iter().map(|x| x * x).sum::<f64>().sqrt();
        let [w, x, y, z] = q.map(|x| x / n);
        let off = |a: f64, b: f64| 2.0 * (a + b);
        let on = |a: f64, b: f64| 1.0 - 2.0 * (a * a + b * b);
        [
            on(y, z),
            off(x * y, -w * z),
            off(x * z, w * y),
            off(x * y, w * z),
            on(x, z),
            off(y * z, -w * x),
            off(x * z, -w * y),
            off(y * z, w * x),
            on(x, y),
        ]
    }

    /// F = U sigma V^T, then the factors, phase, determinant, hardenings, gain and alpha.
    fn record(&mut self, spread: f64) -> Vec<f64> {
        let (u, v) = (self.turn(), self.turn());
        let s: [f64; 3] = std::array::from_fn(|_| 1.0 + spread * self.normal());
        let f = (0..9).map(|k| (0..3).map(|i| u[k / 3 * 3 + i] * s[i] * v[3 * i + k % 3]).sum());
        let mut r: Vec<f64> = f.collect();
        r.extend(u);
        r.extend(s);
        r.extend(v);
        let phase = (self.word() % 2) as f64;
        r.extend([phase, self.between(0.9, 1.1), self.between(0.5, 1.5), 1.0, 0.005 * self.normal(), self.between(-0.05, -0.01)]);
        r
    }
}

/// Which of its law's branches a record took, told by what our pass made of it.
fn branch(model: usize, r: &[f64], after: &[u64], outcome: u64) -> usize {
    assert!(outcome < 2, "a drawn record is refused");
    let new = |k: usize| f64::from_bits(after[18 + k]);
    let changed = (0..3).filter(|k| (new(*k) - r[18 + k]).abs() > 1e-12).count();
    let one_value = new(0) == new(1) && new(1) == new(2);
    match model {
        0 if new(0) > r[18] => 0,
        0 if new(0) < r[18] => 1,
        0 => 2,
        1 => changed,
        2 if r[30] != 0.0 => 0,
        2 if outcome == 0 => 2,
        2 if one_value => 1,
        2 => 3,
        _ if outcome == 0 => 2,
        _ if !one_value => 3,
        _ => (r[18] * r[19] * r[20] > 1.0) as usize,
    }
}

/// The records of a list, as bits.
pub fn drawn(model: usize, count: usize) -> Vec<u64> {
    let law = &LAWS[model];
    let p = bits(law.parameters);
    let shares = law.branches.len();
    let mut room: Vec<usize> = (0..shares).map(|k| (count + k) / shares).collect();
    let mut d = Draw(model as u64 + 1);
    let mut list: Vec<Vec<u64>> = Vec::new();
    let mut tries = 0..1000 * count;
    while list.len() < count {
        tries.next().expect("a branch that is not drawn");
        let r = d.record(law.spread);
        let came = completed(&bits(&r));
        let (mut after, mut answer, mut counts) = (came.clone(), [0; 2], [0; 3]);
        our_pass(model, &p, &mut after, &mut answer, &mut counts);
        let k = branch(model, &r, &after, answer[0]);
        if room[k] > 0 {
            room[k] -= 1;
            list.push(came);
        }
    }
    for k in (1..count).rev() {
        list.swap(k, d.word() as usize % (k + 1));
    }
    list.concat()
}

//! How many particles a second `parallel::pass` works, as its list grows: the best of a few turns, by the clock.
//!
//!     cargo run --release --manifest-path parallel/Cargo.toml --features parallel --example growth FOLDER
//!
//! FOLDER has the files `drawn0` and `drawn3`, records of Snow and of NACC as floats of 8 bytes. A line a list: law, particles, particles a second.
use pasoletu::{parallel, Model, NaccPlasticity, Particle, SnowPlasticity};
use std::time::Instant;

const LENGTHS: [usize; 3] = [1_000, 100_000, 10_000_000];
const FLOATS: usize = 37;

fn particle(r: &[f64]) -> Particle {
    let row = |k: usize| [r[k], r[k + 1], r[k + 2]];
    let matrix = |k: usize| [row(k), row(k + 3), row(k + 6)];
    Particle {
        deformation_gradient: matrix(0),
        u: matrix(9),
        singular_values: row(18),
        v_t: matrix(21),
        phase: r[30],
        plastic_deformation_gradient_det: r[31],
        plastic_hardening: r[32],
        elastic_hardening: r[33],
        log_vol_gain: r[34],
        nacc_alpha: r[35],
        determinant: r[36],
    }
}

fn drawn(file: &str) -> Vec<Particle> {
    let bytes = std::fs::read(file).unwrap_or_else(|e| panic!("{file}: {e}"));
    let floats: Vec<f64> = bytes.chunks_exact(8).map(|b| f64::from_le_bytes(b.try_into().unwrap())).collect();
    floats.chunks_exact(FLOATS).map(particle).collect()
}

fn best(model: &Model, drawn: &[Particle], count: usize) -> f64 {
    let mut least = f64::INFINITY;
    for _ in 0..(2_000_000 / count).clamp(2, 200) {
        let mut list: Vec<Particle> = drawn.iter().cycle().take(count).copied().collect();
        let began = Instant::now();
        let passed = parallel::pass(*model, &mut list);
        least = least.min(began.elapsed().as_secs_f64());
        assert_eq!(passed.refused, 0);
    }
    count as f64 / least
}

fn main() {
    let folder = std::env::args().nth(1).expect("the folder of the drawn records");
    let nacc = NaccPlasticity::with_m(1e5, 0.3, 0.3, true, 1.0, 1.5).expect("a law");
    for (name, file, model) in [("snow", "drawn0", Model::Snow(SnowPlasticity::new())), ("nacc", "drawn3", Model::Nacc(nacc))] {
        let drawn = drawn(&format!("{folder}/{file}"));
        for count in LENGTHS {
            println!("{name}\t{count}\t{:.0}", best(&model, &drawn, count));
        }
    }
}

//! A pass over three particles of snow: one at rest, one crushed, one with a NaN.
//!
//!     cargo run --example pass
use pasoletu::{pass, Outcome, Particle, SnowPlasticity};

fn main() {
    let mut particles =
        [Particle::stretched([1.0, 1.0, 1.0]), Particle::stretched([0.9, 1.0, 1.0]), Particle::stretched([f64::NAN, 1.0, 1.0])];
    // guide: pass
    let passed = pass(SnowPlasticity::new(), &mut particles);
    for (k, outcome) in passed.outcomes.iter().enumerate() {
        match outcome {
            Ok(Outcome::Untouched) => println!("particle {k}: untouched"),
            Ok(Outcome::Stored(amount)) => {
                println!("particle {k}: elastic hardening {amount:.6}, sigma[0] {:.6}", particles[k].singular_values[0])
            }
            Err(refusal) => println!("{refusal}"),
        }
    }
    // guide: end
    println!("{} untouched, {} stored, {} refused", passed.untouched, passed.stored, passed.refused);
}

//! The smallest inputs of docs/DIFFERENCES.md: what ours answers and what the Rust does, each run, as the page has them.
use crate::calls::{self, CALLS};
use crate::inside;
use crate::marked;
use crate::ours;
use crate::untouched::Untouched;

/// Which build tells what the Rust does: the untouched one, or build 2 with the machine's functions, on the record's own factors.
enum Rust {
    One,
    Two,
}

struct Example {
    row: usize,
    call: &'static str,
    input: &'static str,
    inputs: Vec<f64>,
    /// The outputs that are shown.
    places: &'static [usize],
    from: Rust,
}

/// A record's floats with the determinant of the F that stands there.
fn completed(r: &[f64]) -> Vec<f64> {
    let mut w: Vec<u64> = r.iter().map(|x| x.to_bits()).collect();
    inside::complete(&mut w);
    w.iter().map(|x| f64::from_bits(*x)).collect()
}

/// Section 7's record, with some places changed.
fn record(changes: &[(usize, f64)]) -> Vec<f64> {
    let mut r = vec![0.0; calls::FLOATS];
    for k in [0, 4, 8, 9, 13, 17, 18, 19, 20, 21, 25, 29, 30, 31, 32, 33] {
        r[k] = 1.0;
    }
    for (k, x) in changes {
        r[*k] = *x;
    }
    completed(&r)
}

fn snow(changes: &[(usize, f64)]) -> Vec<f64> {
    [vec![0.025, 0.0045, 10.0], record(changes)].concat()
}

/// Lambda is mu, F diagonal, no hardening yet.
fn drucker_prager(h: [f64; 4], mu: f64, sigma: [f64; 3]) -> Vec<f64> {
    let mut r = record(&[(32, 0.0)]);
    for k in 0..3 {
        r[4 * k] = sigma[k];
        r[18 + k] = sigma[k];
    }
    [h.to_vec(), vec![mu, mu, 0.0, 1.0], completed(&r)].concat()
}

fn degrees() -> [f64; 4] {
    [35.0f64.to_radians(), 9.0f64.to_radians(), 0.2, 10.0f64.to_radians()]
}

fn up(x: f64, n: u64) -> f64 {
    f64::from_bits(x.to_bits() + n)
}

fn all() -> Vec<Example> {
    let mut all = Vec::new();
    let mut add = |row, call, input, inputs: &[f64], places, from| {
        all.push(Example { row, call, input, inputs: inputs.to_vec(), places, from })
    };
    use Rust::{One, Two};
    let diagonal = |a: f64, b: f64, c: f64| vec![a, 0.0, 0.0, 0.0, b, 0.0, 0.0, 0.0, c];
    let law = |l: &[f64], f: Vec<f64>| [l, &f].concat();
    let snow_places = &[0, 31, 33];
    add(
        1,
        "update snow",
        "sigma (NaN, 1, 1): first of F, plastic determinant, elastic hardening",
        &snow(&[(18, f64::NAN)]),
        snow_places,
        Two,
    );
    add(1, "inv_exact", "infinity", &[f64::INFINITY], &[0], One);
    add(2, "update snow", "plastic determinant -69.5, so exp(705): the same three", &snow(&[(31, -69.5)]), snow_places, One);
    add(2, "ln", "0", &[0.0], &[0], Two);
    let lost = snow(&[(18, 1e200), (19, 1e200), (20, 0.0)]);
    add(3, "update snow", "sigma (1e200, 1e200, 0): the same three", &lost, snow_places, Two);
    add(3, "inv_exact", "1e-310", &[1e-310], &[0], One);
    add(4, "exp", "0.5", &[0.5], &[0], Two);
    add(4, "ln", "10", &[10.0], &[0], Two);
    add(4, "sin", "-0.0", &[-0.0], &[0], Two);
    add(4, "sinh", "1e-20", &[1e-20], &[0], Two);
    add(5, "cbrt", "64", &[64.0], &[0], Two);
    let still = [10.0, 0.0, 0.0, 0.0, 1.0, 1.0, 1.0];
    add(6, "monaghan_pressure", "pressure0 10, gamma 0, viscosity and largest negative 0, the rest 1", &still, &[0], One);
    let turned = [0.0, 0.0, 0.0, 0.0, -1.0, 1.0, 0.0, 0.0, 0.0, 0.0, 0.0, 1.0];
    add(6, "monaghan_timestep_bound", "determinant -1, mass and cell width 1, all else 0", &turned, &[0], One);
    add(7, "spherical_part", "nine times -0.0", &[-0.0; 9], &[0], One);
    let flat = vec![0.1, 0.3, 0.0, 0.1, 0.3, 0.0, 0.0, 0.0, 0.7];
    let flat = law(&[0.5, 1.0, 1.0, 1.0], flat);
    add(
        8,
        "neo_hookean_fpk_stress",
        "rows (0.1, 0.3, 0), (0.1, 0.3, 0), (0, 0, 0.7), all else 1: first and last",
        &flat,
        &[0, 8],
        One,
    );
    add(9, "update snow", "F the identity beside sigma (0.5, 1, 1): the three of row 1", &snow(&[(18, 0.5)]), snow_places, One);
    add(10, "lame_lambda_mu", "young 1, poisson 0.5", &[1.0, 0.5], &[0, 1], One);
    let none = |gamma: u64| [10.0, f64::from_bits(gamma), 0.0, 1.0, 0.0, 0.0, 1.0];
    add(11, "monaghan_pressure", "pressure0 10, gamma 0, largest negative 1, mass and volume 0, density 1", &none(0), &[0], One);
    add(11, "monaghan_pressure", "the same with gamma 1", &none(1), &[0], One);
    let step = |mass: f64| [10.0, f64::from_bits(7), 0.0, 1.0, 2.0, mass, 0.0, 1.0, 0.0, 0.0, 0.0, 1.0];
    add(11, "monaghan_timestep_bound", "the same with gamma 7, determinant 2, at rest, cell width 1", &step(0.0), &[0], One);
    add(12, "monaghan_timestep_bound", "the same with mass 1", &step(1.0), &[0], One);
    add(13, "solve_quadratic", "1, 0, 1", &[1.0, 0.0, 1.0], &[0, 1], One);
    add(13, "solve_quadratic", "1, 1e200, 1", &[1.0, 1e200, 1.0], &[0, 1], One);
    add(13, "solve_quadratic", "0, 1, 0", &[0.0, 1.0, 0.0], &[0, 1], One);
    let energy = |phase: f64, x: f64| law(&[0.5, 1.0, 1.0, phase, 1.0], diagonal(x, 1.0, 1.0));
    add(14, "neo_hookean_elastic_energy_density", "F (0.5, 1, 1), phase 0, all else 1", &energy(0.0, 0.5), &[0], One);
    add(14, "neo_hookean_pos_energy", "F (2, 1, 1), phase 0.5, all else 1", &energy(0.5, 2.0), &[0], One);
    let huge = [diagonal(-1e103, 1e103, 1e103), vec![1.0; 3]].concat();
    let huge = law(&[1.0, 0.9, 0.0, 0.0, 1.0], huge);
    add(15, "corotated_pos_energy", "lambda and mu 0, F (-1e103, 1e103, 1e103)", &huge, &[0], One);
    let soft = drucker_prager(degrees(), 0.0, [0.9, 1.0, 1.0]);
    add(16, "update drucker_prager", "lambda and mu 0, F (0.9, 1, 1): first of F, plastic hardening", &soft, &[0, 32], One);
    let steep = [vec![1.0, 0.0, 0.0, 0.0, 1.0, 1e200], record(&[])].concat();
    add(16, "update nacc", "young 1, m 1e200, F the identity: first of F, alpha", &steep, &[0, 35], One);
    let stiff = [vec![1.7e308, -0.1, 1.0, 1.0], record(&[])].concat();
    add(16, "update rankine", "young 1.7e308, poisson -0.1, strength and rate 1: first of F, plastic hardening", &stiff, &[0, 32], One);
    let flag = [-0.0, 0.9, 1.0, 1.0, 1.0, 2.0, 1.0, 1.0];
    add(17, "corotated_elastic_energy_density", "flag -0.0, sigma (2, 1, 1), all else 1", &flag, &[0], One);
    let even = |s: f64| drucker_prager(degrees(), 1.0, [s; 3]);
    add(
        21,
        "update drucker_prager",
        "F 0.9 times the identity: first of F, plastic determinant, dq",
        &even(0.9),
        &[0, 31, 32],
        One,
    );
    add(21, "update drucker_prager", "F 0.95 times the identity: the same three", &even(0.95), &[0, 31, 32], One);
    let below = drucker_prager([0.0, 0.0, 0.0, 1.0], 1.0, [up(0.9, 2), up(0.9, 1), 0.9]);
    add(
        22,
        "update drucker_prager",
        "h (0, 0, 0, 1), F 0.9 and the next two numbers above: the diagonal of F",
        &below,
        &[0, 4, 8],
        One,
    );
    let mut wrong = snow(&[]);
    *wrong.last_mut().unwrap() = 2.0;
    add(23, "update snow", "stored determinant 2: the three of row 1", &wrong, snow_places, One);
    let far = snow(&[(0, 1e200), (4, 1e200)]);
    add(23, "update snow", "F (1e200, 1e200, 1) beside sigma all 1: the same three", &far, snow_places, Two);
    let long = snow(&[(9, 1e150), (13, 1e150), (17, 1e150)]);
    add(23, "update snow", "U 1e150 times the identity: the same three", &long, snow_places, Two);
    let turned = [(0, 1.2), (1, -0.8), (3, 1.6), (4, 0.6), (9, 0.6), (10, -0.8), (12, 0.8), (13, 0.6), (18, 2.0)];
    let huge = [vec![1.0, 0.9, 0.0, 5e307, 1.0, 1.0], record(&turned)].concat();
    let what = "lambda 0, mu 5e307, limits 1, sigma (2, 1, 1), U a turn by the cosine 0.6, so that the greatest value is 2e308: first of the stress";
    add(25, "corotated_stress_and_verdict", what, &huge, &[0], Two);
    all
}

fn shown(words: &[u64], places: &[usize]) -> String {
    places.iter().map(|k| format!("{:?}", f64::from_bits(words[*k]))).collect::<Vec<_>>().join(", ")
}

fn of_rust(e: &Example, n: usize, i: &[u64], u: Option<&Untouched>) -> Vec<u64> {
    if calls::is_elementary(n) {
        return vec![inside::machine_number(n, e.inputs[0]).to_bits()];
    }
    match (&e.from, u) {
        (Rust::One, Some(u)) => u.run(n, i),
        _ => {
            let mut o = vec![0; CALLS[n].outputs];
            inside::run(n, i, &mut o, inside::Mode::Machine);
            o
        }
    }
}

/// Runs each: the page's table is made of the lines that come of it. Where one can't be run, each of the others has to be on the page.
pub fn check(page: &str, u: Option<&Untouched>, write: bool, failed: &mut bool) {
    println!("\nSmallest inputs of the differences (row of the page, call, input, ours, the Rust)");
    let text = std::fs::read_to_string(page).unwrap_or_default();
    let mut table: Vec<String> = marked::DIFFERENCES.map(String::from).to_vec();
    let mut examples = all();
    examples.sort_by_key(|e| e.row);
    let every = examples.len() + table.len();
    for e in examples {
        let n = CALLS.iter().position(|c| c.name == e.call).unwrap();
        if !ours::has(n) || (matches!(e.from, Rust::One) && u.is_none()) {
            println!("{}: {}: NOT RUN", e.row, e.call);
            continue;
        }
        let i: Vec<u64> = e.inputs.iter().map(|x| x.to_bits()).collect();
        let a = ours::call(n, &i);
        let ours = if a.status == 0 { shown(&a.out, e.places) } else { format!("refused {}", a.status) };
        let rust = shown(&of_rust(&e, n, &i, u), e.places);
        let line = format!("| {} | `{}` | {} | {ours} | {rust} |", e.row, e.call, e.input);
        println!("{line}{}", if text.lines().any(|l| l == line) { "" } else { "  NOT ON THE PAGE" });
        table.push(line);
    }
    *failed |= if table.len() == every {
        !marked::holds(page, "beside/run: smallest", &table, write)
    } else {
        table.iter().any(|line| text.lines().all(|l| l != line))
    };
}

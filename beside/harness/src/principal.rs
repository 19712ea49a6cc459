//! Principal values of a symmetric matrix by Jacobi's turns, worked here for the verdict of build 2: neither our sweeps nor nalgebra's.

/// Of the lower triangle, the diagonal first, then (1, 0), (2, 0) and (2, 1): the values, and the largest size of an entry.
pub fn values(lower: [f64; 6]) -> ([f64; 3], f64) {
    let largest = lower.iter().fold(0.0f64, |a, x| a.max(x.abs()));
    if largest == 0.0 || !lower.iter().all(|x| x.is_finite()) {
        return ([0.0; 3], largest);
    }
    // Brought to sizes of at most 1, by a power of two.
    let half = largest.log2().floor() as i32 / 2;
    let rest = largest.log2().floor() as i32 - half;
    let [a, b, c, d, e, f] = lower.map(|x| x * 2f64.powi(-half) * 2f64.powi(-rest));
    let mut m = [[a, d, e], [d, b, f], [e, f, c]];
    for _ in 0..24 {
        for (p, q) in [(0, 1), (0, 2), (1, 2)] {
            turn(&mut m, p, q);
        }
    }
    let back = |x: f64| (x * 2f64.powi(half) * 2f64.powi(rest)).clamp(-f64::MAX, f64::MAX);
    ([back(m[0][0]), back(m[1][1]), back(m[2][2])], largest)
}

/// Clears the entry between two axes.
fn turn(m: &mut [[f64; 3]; 3], p: usize, q: usize) {
    if m[p][q] == 0.0 {
        return;
    }
    let theta = (m[q][q] - m[p][p]) / (2.0 * m[p][q]);
    let t = theta.signum() / (theta.abs() + theta.hypot(1.0));
    let c = 1.0 / t.hypot(1.0);
    let s = t * c;
    for k in 0..3 {
        (m[k][p], m[k][q]) = (c * m[k][p] - s * m[k][q], s * m[k][p] + c * m[k][q]);
    }
    for k in 0..3 {
        (m[p][k], m[q][k]) = (c * m[p][k] - s * m[q][k], s * m[p][k] + c * m[q][k]);
    }
}

//! Build 1 as a library of five C calls: a call of the text, a law's updates of a list, nalgebra's factors of a matrix, the verdict on a
//! stress, and one of nalgebra's own operations.
#[path = "../../calls.rs"]
#[allow(dead_code)]
mod calls;

use nalgebra::{DVector, Matrix3, Matrix3x1, Vector2, Vector3, SVD};

unsafe fn lent<'a>(p: *const u64, n: usize) -> &'a [u64] {
    std::slice::from_raw_parts(p, n)
}

/// # Safety
/// The pointers are to as many words as the call has.
#[no_mangle]
pub unsafe extern "C" fn untouched_call(n: usize, i: *const u64, o: *mut u64) {
    let c = &calls::CALLS[n];
    calls::call(n, lent(i, c.inputs), std::slice::from_raw_parts_mut(o, c.outputs));
}

/// # Safety
/// The pointers are to the law's parameters and n particles.
#[no_mangle]
pub unsafe extern "C" fn untouched_pass(model: usize, p: *const u64, list: *mut calls::Particle, n: usize) {
    let list = calls::After(std::slice::from_raw_parts_mut(list, n), |_| ());
    calls::pass(model, lent(p, calls::parameters(model)), list);
}

fn matrix(i: &[f64]) -> Matrix3<f64> {
    Matrix3::from_column_slice(&i[..9])
}

/// U, sigma and V^T of the nine floats of F by rows.
/// # Safety
/// The pointers are to 9 and 21 floats.
#[no_mangle]
pub unsafe extern "C" fn untouched_factors(f: *const f64, out: *mut f64) {
    let m = Matrix3::from_row_slice(std::slice::from_raw_parts(f, 9));
    let s = m.svd_unordered(true, true);
    let o = std::slice::from_raw_parts_mut(out, 21);
    let (u, v) = (s.u.unwrap(), s.v_t.unwrap());
    for r in 0..3 {
        for k in 0..3 {
            o[3 * r + k] = u[(r, k)];
            o[12 + 3 * r + k] = v[(r, k)];
        }
        o[9 + r] = s.singular_values[r];
    }
}

/// The verdict on a stress, by nalgebra's principal values of it.
/// # Safety
/// The pointer is to the nine floats of a stress.
#[no_mangle]
pub unsafe extern "C" fn untouched_failed(stress: *const f64, max_principal: f64, max_shear: f64) -> bool {
    let limits = sparkl::dynamics::models::MaximumStressFailure::new(max_principal, max_shear);
    limits.particle_failed(&Matrix3::from_row_slice(std::slice::from_raw_parts(stress, 9)))
}

/// One of nalgebra's operations; matrices by columns. 0 where there is no answer.
/// # Safety
/// The pointers are to n and m floats.
#[no_mangle]
pub unsafe extern "C" fn untouched_op(op: u32, i: *const f64, n: usize, o: *mut f64, m: usize) -> u32 {
    let i = std::slice::from_raw_parts(i, n);
    let o = std::slice::from_raw_parts_mut(o, m);
    let three = || Vector3::new(i[0], i[1], i[2]);
    match op {
        0 => o[0] = DVector::from_column_slice(i).sum(),
        1 => o[0] = Matrix3::from_diagonal(&three()).trace(),
        2 => o[0] = three().product(),
        3 => o[0] = three().norm(),
        4 => o[0] = three().norm_squared(),
        5 if n == 2 => o.copy_from_slice(Vector2::new(i[0], i[1]).normalize().as_slice()),
        5 => o.copy_from_slice(three().normalize().as_slice()),
        6 => o[0] = matrix(i).determinant(),
        7 => match matrix(i).try_inverse() {
            Some(r) => o.copy_from_slice(r.as_slice()),
            None => return 0,
        },
        8 if n == 18 => o.copy_from_slice((matrix(i) * matrix(&i[9..])).as_slice()),
        8 => o.copy_from_slice((matrix(i) * Matrix3x1::new(i[9], i[10], i[11])).as_slice()),
        9 => {
            let s = SVD { u: Some(matrix(i)), singular_values: Vector3::new(i[9], i[10], i[11]), v_t: Some(matrix(&i[12..])) };
            o.copy_from_slice(s.recompose().unwrap().as_slice())
        }
        12 => o[0] = three().min(),
        13 => o[0] = three().max(),
        _ => return 0,
    }
    1
}

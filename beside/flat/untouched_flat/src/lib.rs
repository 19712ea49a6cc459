//! Build 1 in two dimensions as a library of two C calls: a law's update of a flat record, and nalgebra's factors of its F.
#[path = "../../law.rs"]
#[allow(dead_code)]
mod law;

use nalgebra::Matrix2;

/// # Safety
/// The pointers are to the law's parameters and a record.
#[no_mangle]
pub unsafe extern "C" fn untouched_update(model: usize, p: *const f64, r: *mut law::Record) {
    law::update(model, std::slice::from_raw_parts(p, law::LAWS[model].1), &mut *r);
}

/// # Safety
/// The pointer is to a record.
#[no_mangle]
pub unsafe extern "C" fn untouched_factors(r: *mut law::Record) {
    let r = &mut *r;
    let s = Matrix2::new(r[0], r[1], r[2], r[3]).svd_unordered(true, true);
    let (u, v) = (s.u.unwrap(), s.v_t.unwrap());
    for i in 0..2 {
        for j in 0..2 {
            r[law::U + 2 * i + j] = u[(i, j)];
            r[law::SIGMA + 2 + 2 * i + j] = v[(i, j)];
        }
        r[law::SIGMA + i] = s.singular_values[i];
    }
}

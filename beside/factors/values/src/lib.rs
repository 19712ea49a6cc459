//! nalgebra's singular values and symmetric eigenvalues of a matrix as C calls.
use nalgebra::Matrix3;

/// The singular values of the nine floats of F by rows, by the call that the Rust makes.
/// # Safety
/// The pointers are to 9 and 3 floats.
#[no_mangle]
pub unsafe extern "C" fn nalgebra_values(f: *const f64, values: *mut f64) {
    let m = Matrix3::from_row_slice(std::slice::from_raw_parts(f, 9));
    let s = m.svd_unordered(true, true).singular_values;
    std::slice::from_raw_parts_mut(values, 3).copy_from_slice(s.as_slice());
}

/// The symmetric eigenvalues of the nine floats by rows, to nalgebra's own precision; 0 where it gives up on them as the Rust asks for them.
/// # Safety
/// The pointers are to 9 and 3 floats.
#[no_mangle]
pub unsafe extern "C" fn nalgebra_eigenvalues(stress: *const f64, values: *mut f64) -> i32 {
    let m = Matrix3::from_row_slice(std::slice::from_raw_parts(stress, 9));
    std::slice::from_raw_parts_mut(values, 3).copy_from_slice(m.symmetric_eigenvalues().as_slice());
    m.try_symmetric_eigen(1.0e-6, 100).is_some() as i32
}

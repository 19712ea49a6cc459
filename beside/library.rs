//! A shared library, and its functions by name.
use std::ffi::{c_char, c_int, c_void, CString};

extern "C" {
    fn dlopen(file: *const c_char, flags: c_int) -> *mut c_void;
    fn dlsym(handle: *mut c_void, name: *const c_char) -> *mut c_void;
}

pub struct Library(usize);

impl Library {
    pub fn open(path: &str) -> Option<Library> {
        let p = CString::new(path).unwrap();
        let h = unsafe { dlopen(p.as_ptr(), 2) };
        (!h.is_null()).then_some(Library(h as usize))
    }

    pub fn find(&self, name: &str) -> Option<usize> {
        let n = CString::new(name).unwrap();
        let p = unsafe { dlsym(self.0 as *mut c_void, n.as_ptr()) };
        (!p.is_null()).then_some(p as usize)
    }
}

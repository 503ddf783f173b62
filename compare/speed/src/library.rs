//! A shared library that is opened only where it is installed.

use std::ffi::{CStr, c_char, c_int, c_void};

unsafe extern "C" {
    fn dlopen(name: *const c_char, flags: c_int) -> *mut c_void;
    fn dlsym(library: *mut c_void, name: *const c_char) -> *mut c_void;
}

const RTLD_NOW: c_int = 2;

pub struct Library(*mut c_void);

impl Library {
    pub fn open(name: &CStr) -> Option<Library> {
        // SAFETY: the name is a C string; the library stays open to the end of the program.
        let library = unsafe { dlopen(name.as_ptr(), RTLD_NOW) };
        (!library.is_null()).then_some(Library(library))
    }

    /// The function of a name.
    ///
    /// # Safety
    /// `F` must be the type of a C function pointer with the signature of that function.
    pub unsafe fn function<F: Copy>(&self, name: &CStr) -> Option<F> {
        assert_eq!(size_of::<F>(), size_of::<*mut c_void>());
        // SAFETY: the library is open and the name is a C string.
        let found = unsafe { dlsym(self.0, name.as_ptr()) };
        // SAFETY: by the caller, a pointer to that function is an `F`.
        (!found.is_null()).then(|| unsafe { std::mem::transmute_copy(&found) })
    }
}

//! A shared library, and the C functions in it.

use std::ffi::{CString, c_char, c_int, c_void};

#[link(name = "dl")]
unsafe extern "C" {
    fn dlopen(file: *const c_char, flags: c_int) -> *mut c_void;
    fn dlsym(library: *mut c_void, name: *const c_char) -> *mut c_void;
}

const RTLD_NOW: c_int = 2;

pub struct Library {
    path: String,
    handle: *mut c_void,
}

impl Library {
    pub fn open(path: &str) -> Result<Self, String> {
        let file = CString::new(path).map_err(|error| error.to_string())?;
        let handle = unsafe { dlopen(file.as_ptr(), RTLD_NOW) };
        if handle.is_null() {
            return Err(format!("'{path}' cannot be opened as a shared library"));
        }
        Ok(Self { path: path.to_string(), handle })
    }

    pub fn function(&self, name: &str) -> Result<*mut c_void, String> {
        let symbol = CString::new(name).map_err(|error| error.to_string())?;
        let found = unsafe { dlsym(self.handle, symbol.as_ptr()) };
        if found.is_null() {
            return Err(format!("'{}' has no function {name}", self.path));
        }
        Ok(found)
    }
}

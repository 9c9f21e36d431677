//! A library of the port: the one that is linked, or a shared one from a file, so that two can be called in turn.
#![allow(unsafe_code)]
use std::ffi::{c_char, c_int, c_void, CString};

type Run = unsafe extern "C" fn(*const u8, usize, *mut u8, usize) -> usize;

unsafe extern "C" {
    fn sicklephlox_run(
        run: *const u8,
        run_length: usize,
        answers: *mut u8,
        answers_length: usize,
    ) -> usize;
    fn dlopen(file: *const c_char, flags: c_int) -> *mut c_void;
    fn dlsym(library: *mut c_void, name: *const c_char) -> *mut c_void;
}

/// Every name is looked up at once, and stays the library's own.
const NOW: c_int = 2;

#[derive(Clone, Copy)]
pub struct Library {
    run: Run,
}

impl Library {
    pub fn linked() -> Self {
        Library {
            run: sicklephlox_run,
        }
    }

    /// The library of a file, which stays open.
    pub fn open(file: &str) -> Result<Self, String> {
        let path = CString::new(file).map_err(|e| e.to_string())?;
        // Both are called with texts that end in a zero byte. The file is trusted to be a library of the port.
        let run = unsafe {
            let library = dlopen(path.as_ptr(), NOW);
            match library.is_null() {
                true => library,
                false => dlsym(library, c"sicklephlox_run".as_ptr()),
            }
        };
        if run.is_null() {
            return Err(format!("{file} is no shared library with sicklephlox_run"));
        }
        // sicklephlox.h says what it is.
        let run = unsafe { std::mem::transmute::<*mut c_void, Run>(run) };
        Ok(Library { run })
    }

    /// One call, with nothing around what it is lent.
    pub fn run(&self, run: &[u8], answers: &mut [u8]) -> usize {
        // Both slices are valid for their lengths and do not overlap, and the function keeps neither.
        unsafe { (self.run)(run.as_ptr(), run.len(), answers.as_mut_ptr(), answers.len()) }
    }
}

//! The calls of an older library, for what a change has added to their time. The file is named by
//! `PORTAL_OLDER`: the libportal.so that `make lib` has made of the sources before the change.

use std::ffi::{c_char, c_int, c_void, CString};

extern "C" {
    fn dlopen(name: *const c_char, flags: c_int) -> *mut c_void;
    fn dlsym(library: *mut c_void, name: *const c_char) -> *mut c_void;
}

/// Every name is looked up at once, and none of them is seen by others.
const NOW: c_int = 2;

/// A number and up to two values.
#[repr(C)]
#[derive(Clone, Copy, Debug, PartialEq, Eq)]
pub struct Answer {
    pub number: u64,
    pub values: [u64; 2],
}

type Check = unsafe extern "C" fn(*const u64, usize) -> u64;
type Closure = unsafe extern "C" fn(*const u64, usize, u64) -> Answer;
type Lists = unsafe extern "C" fn(*const u64, usize, u64, *mut u64, usize) -> Answer;

/// Question 12, closures and both lists as they were.
pub struct Older {
    check: Check,
    closure: Closure,
    lists: Lists,
}

impl Older {
    /// The library that the variable names, if it does.
    pub fn named() -> Option<Older> {
        let path = std::env::var("PORTAL_OLDER").ok()?;
        let file = CString::new(path.clone()).expect("a file's name has no zero byte");
        let library = unsafe { dlopen(file.as_ptr(), NOW) };
        assert!(!library.is_null(), "{path} is no library");
        let call = |name: &str| {
            let word = CString::new(name).expect("a call's name has no zero byte");
            let found = unsafe { dlsym(library, word.as_ptr()) };
            assert!(!found.is_null(), "{path} has no {name}");
            found
        };
        // The prototypes are those of include/portal.h, which were the same.
        unsafe {
            Some(Older {
                check: std::mem::transmute::<*mut c_void, Check>(call("portal_check")),
                closure: std::mem::transmute::<*mut c_void, Closure>(call("portal_closure")),
                lists: std::mem::transmute::<*mut c_void, Lists>(call("portal_lists")),
            })
        }
    }

    /// Question 12 by itself.
    pub fn check(&self, words: &[u64]) -> u64 {
        unsafe { (self.check)(words.as_ptr(), words.len()) }
    }

    /// What a set opens.
    pub fn closure(&self, words: &[u64], set: u64) -> Answer {
        unsafe { (self.closure)(words.as_ptr(), words.len(), set) }
    }

    /// Both lists of a target.
    pub fn lists(&self, words: &[u64], target: u64, sets: &mut [u64]) -> Answer {
        let (place, places) = (sets.as_mut_ptr(), sets.len());
        unsafe { (self.lists)(words.as_ptr(), words.len(), target, place, places) }
    }
}

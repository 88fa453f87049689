//! PCRE2 by its 8-bit C interface: all ends of all matches from one start, by `pcre2_dfa_match`.
//! Set up so that its meaning is the product's: newline is byte 10, and no shortcut that would hide a
//! match. `$` and `\Z`, line mode and word edges are the product's as they stand.

use std::cell::RefCell;
use std::ffi::c_void;
use std::ptr::null_mut;

const ANCHORED: u32 = 0x8000_0000;
const CASELESS: u32 = 0x8;
const DOTALL: u32 = 0x20;
const MULTILINE: u32 = 0x400;
const NO_AUTO_POSSESS: u32 = 0x4000;
const NO_START_OPTIMIZE: u32 = 0x1_0000;
const NEWLINE_LF: u32 = 2;
const ERROR_NOMATCH: i32 = -1;

#[link(name = "pcre2-8")]
extern "C" {
    fn pcre2_compile_context_create_8(general: *mut c_void) -> *mut c_void;
    fn pcre2_compile_context_free_8(context: *mut c_void);
    fn pcre2_set_newline_8(context: *mut c_void, newline: u32) -> i32;
    fn pcre2_compile_8(
        pattern: *const u8,
        length: usize,
        options: u32,
        error: *mut i32,
        offset: *mut usize,
        context: *mut c_void,
    ) -> *mut c_void;
    fn pcre2_code_free_8(code: *mut c_void);
    fn pcre2_match_data_create_8(pairs: u32, general: *mut c_void) -> *mut c_void;
    fn pcre2_match_data_free_8(data: *mut c_void);
    fn pcre2_get_ovector_pointer_8(data: *mut c_void) -> *mut usize;
    fn pcre2_dfa_match_8(
        code: *const c_void,
        subject: *const u8,
        length: usize,
        start: usize,
        options: u32,
        data: *mut c_void,
        context: *mut c_void,
        workspace: *mut i32,
        workspace_size: usize,
    ) -> i32;
}

thread_local! {
    /// Room for the matcher, lent to each call as the one before left it.
    static WORKSPACE: RefCell<Vec<i32>> = RefCell::new(vec![0; 100_000]);
}

pub struct Pattern {
    code: *mut c_void,
}

impl Pattern {
    /// Compiled, or the number of PCRE2's error.
    pub fn compile(pattern: &[u8], flags: u32) -> Result<Pattern, i32> {
        let mut options = ANCHORED | NO_AUTO_POSSESS | NO_START_OPTIMIZE;
        if flags & 1 != 0 {
            options |= CASELESS;
        }
        if flags & 2 != 0 {
            options |= DOTALL;
        }
        if flags & 4 != 0 {
            options |= MULTILINE;
        }
        let (mut error, mut offset) = (0, 0);
        // SAFETY: the pattern is lent with its length, the context lives until it is freed here.
        let code = unsafe {
            let context = pcre2_compile_context_create_8(null_mut());
            pcre2_set_newline_8(context, NEWLINE_LF);
            let (start, length) = (pattern.as_ptr(), pattern.len());
            let code = pcre2_compile_8(start, length, options, &mut error, &mut offset, context);
            pcre2_compile_context_free_8(context);
            code
        };
        if code.is_null() {
            Err(error)
        } else {
            Ok(Pattern { code })
        }
    }

    /// The ends of all matches from this start, in rising order; none if PCRE2 gives up.
    pub fn ends(&self, subject: &[u8], start: usize) -> Option<Vec<usize>> {
        WORKSPACE.with_borrow_mut(|workspace| self.ends_in(subject, start, workspace))
    }

    fn ends_in(&self, subject: &[u8], start: usize, workspace: &mut [i32]) -> Option<Vec<usize>> {
        let pairs = subject.len() as u32 + 2;
        // SAFETY: subject and workspace are lent with their lengths; at most `pairs` pairs are read.
        unsafe {
            let data = pcre2_match_data_create_8(pairs, null_mut());
            let found = pcre2_dfa_match_8(
                self.code,
                subject.as_ptr(),
                subject.len(),
                start,
                0,
                data,
                null_mut(),
                workspace.as_mut_ptr(),
                workspace.len(),
            );
            let vector = pcre2_get_ovector_pointer_8(data);
            let mut ends: Vec<usize> =
                (0..found.max(0) as usize).map(|i| *vector.add(2 * i + 1)).collect();
            pcre2_match_data_free_8(data);
            ends.sort_unstable();
            ends.dedup();
            (found > 0 || found == ERROR_NOMATCH).then_some(ends)
        }
    }
}

impl Drop for Pattern {
    fn drop(&mut self) {
        // SAFETY: the code was made by `compile` and is freed once.
        unsafe { pcre2_code_free_8(self.code) }
    }
}

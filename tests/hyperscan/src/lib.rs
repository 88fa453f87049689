//! Hyperscan by its C interface: rules compiled for one block or for a stream, and the reports it
//! gives. Linking needs its development package.

use std::ffi::{c_char, c_int, c_uint, c_ulonglong, c_void, CString};
use std::ptr::{null, null_mut};

/// What the rules are compiled for.
#[derive(Clone, Copy)]
pub enum Mode {
    Block = 1,
    Stream = 2,
    /// A stream whose matches have starts, however far back they are.
    Starts = 2 | 1 << 24,
}

/// The extended parameters of a rule, each of which may be left out.
#[derive(Clone, Copy, Debug, Default)]
pub struct Extended {
    pub min_offset: Option<u64>,
    pub max_offset: Option<u64>,
    pub min_length: Option<u64>,
}

/// The same as Hyperscan's interface has them.
#[repr(C)]
struct ExtendedParameters {
    /// A bit for each that is there.
    flags: c_ulonglong,
    min_offset: c_ulonglong,
    max_offset: c_ulonglong,
    min_length: c_ulonglong,
    edit_distance: c_uint,
    hamming_distance: c_uint,
}

impl Extended {
    fn parameters(&self) -> ExtendedParameters {
        let windows = [self.min_offset, self.max_offset, self.min_length];
        let bits = windows.iter().enumerate().map(|(bit, window)| (window.is_some() as u64) << bit);
        ExtendedParameters {
            flags: bits.sum(),
            min_offset: self.min_offset.unwrap_or(0),
            max_offset: self.max_offset.unwrap_or(0),
            min_length: self.min_length.unwrap_or(0),
            edit_distance: 0,
            hamming_distance: 0,
        }
    }
}

/// A match: the rule's id, the start if the rule reports it, and the end offset.
#[derive(Clone, Copy, Debug, PartialEq, Eq, PartialOrd, Ord)]
pub struct Match {
    pub id: u32,
    pub end: u64,
    pub start: u64,
}

/// Rule ids and end offsets.
pub type Reports = Vec<(u32, u64)>;

type OnMatch = extern "C" fn(c_uint, c_ulonglong, c_ulonglong, c_uint, *mut c_void) -> c_int;

#[link(name = "hs")]
extern "C" {
    fn hs_compile_multi(
        expressions: *const *const c_char,
        flags: *const c_uint,
        ids: *const c_uint,
        elements: c_uint,
        mode: c_uint,
        platform: *const c_void,
        database: *mut *mut c_void,
        error: *mut *mut c_void,
    ) -> c_int;
    fn hs_compile_ext_multi(
        expressions: *const *const c_char,
        flags: *const c_uint,
        ids: *const c_uint,
        extended: *const *const ExtendedParameters,
        elements: c_uint,
        mode: c_uint,
        platform: *const c_void,
        database: *mut *mut c_void,
        error: *mut *mut c_void,
    ) -> c_int;
    fn hs_free_compile_error(error: *mut c_void) -> c_int;
    fn hs_free_database(database: *mut c_void) -> c_int;
    fn hs_alloc_scratch(database: *const c_void, scratch: *mut *mut c_void) -> c_int;
    fn hs_free_scratch(scratch: *mut c_void) -> c_int;
    fn hs_scan(
        database: *const c_void,
        data: *const c_char,
        length: c_uint,
        flags: c_uint,
        scratch: *mut c_void,
        on_match: OnMatch,
        context: *mut c_void,
    ) -> c_int;
    fn hs_open_stream(database: *const c_void, flags: c_uint, stream: *mut *mut c_void) -> c_int;
    fn hs_scan_stream(
        stream: *mut c_void,
        data: *const c_char,
        length: c_uint,
        flags: c_uint,
        scratch: *mut c_void,
        on_match: OnMatch,
        context: *mut c_void,
    ) -> c_int;
    fn hs_close_stream(
        stream: *mut c_void,
        scratch: *mut c_void,
        on_match: OnMatch,
        context: *mut c_void,
    ) -> c_int;
    fn hs_database_size(database: *const c_void, size: *mut usize) -> c_int;
    fn hs_stream_size(database: *const c_void, size: *mut usize) -> c_int;
}

extern "C" fn note(
    id: c_uint,
    _: c_ulonglong,
    to: c_ulonglong,
    _: c_uint,
    reports: *mut c_void,
) -> c_int {
    // SAFETY: the context is the list that a scan or a closing lends.
    let reports = unsafe { &mut *reports.cast::<Reports>() };
    reports.push((id, to));
    0
}

extern "C" fn note_match(
    id: c_uint,
    start: c_ulonglong,
    end: c_ulonglong,
    _: c_uint,
    matches: *mut c_void,
) -> c_int {
    // SAFETY: the context is the list that a scan or a closing lends.
    let matches = unsafe { &mut *matches.cast::<Vec<Match>>() };
    matches.push(Match { id, end, start });
    0
}

pub struct Database {
    database: *mut c_void,
    scratch: *mut c_void,
}

pub struct Stream(*mut c_void);

impl Database {
    /// Rules by id, flags and pattern, or nothing if Hyperscan refuses one of them.
    pub fn new(rules: &[(u32, u32, &[u8])], mode: Mode) -> Option<Database> {
        let texts: Vec<CString> =
            rules.iter().map(|rule| CString::new(rule.2).ok()).collect::<Option<_>>()?;
        let expressions: Vec<*const c_char> = texts.iter().map(|text| text.as_ptr()).collect();
        let flags: Vec<c_uint> = rules.iter().map(|rule| rule.1).collect();
        let ids: Vec<c_uint> = rules.iter().map(|rule| rule.0).collect();
        let (mut database, mut error, mut scratch) = (null_mut(), null_mut(), null_mut());
        // SAFETY: the lists outlive the call and have as many elements as it is told; what is made
        // here is freed on drop.
        unsafe {
            let status = hs_compile_multi(
                expressions.as_ptr(),
                flags.as_ptr(),
                ids.as_ptr(),
                rules.len() as c_uint,
                mode as c_uint,
                null(),
                &mut database,
                &mut error,
            );
            if status != 0 {
                hs_free_compile_error(error);
                return None;
            }
            if hs_alloc_scratch(database, &mut scratch) != 0 {
                hs_free_database(database);
                return None;
            }
        }
        Some(Database { database, scratch })
    }

    /// One rule with extended parameters, or nothing if Hyperscan refuses it.
    pub fn extended(
        flags: u32,
        pattern: &[u8],
        extended: Extended,
        mode: Mode,
    ) -> Option<Database> {
        let text = CString::new(pattern).ok()?;
        let parameters = extended.parameters();
        let (mut database, mut error, mut scratch) = (null_mut(), null_mut(), null_mut());
        // SAFETY: each list has one element and outlives the call; what is made here is freed on
        // drop.
        unsafe {
            let status = hs_compile_ext_multi(
                &text.as_ptr(),
                &flags,
                &1,
                &(&parameters as *const ExtendedParameters),
                1,
                mode as c_uint,
                null(),
                &mut database,
                &mut error,
            );
            if status != 0 {
                hs_free_compile_error(error);
                return None;
            }
            if hs_alloc_scratch(database, &mut scratch) != 0 {
                hs_free_database(database);
                return None;
            }
        }
        Some(Database { database, scratch })
    }

    /// All matches of a stream of these blocks, of rules compiled for one, in the order they come.
    pub fn matches(&self, blocks: &[&[u8]]) -> Vec<Match> {
        let stream = self.open();
        let mut matches: Vec<Match> = Vec::new();
        let context: *mut Vec<Match> = &mut matches;
        for block in blocks {
            // SAFETY: stream, block and list are valid for the call.
            let status = unsafe {
                let (data, length) = (block.as_ptr().cast(), block.len() as c_uint);
                let (scratch, context) = (self.scratch, context.cast());
                hs_scan_stream(stream.0, data, length, 0, scratch, note_match, context)
            };
            assert_eq!(status, 0);
        }
        // SAFETY: the stream is open, and not used after this.
        let status = unsafe { hs_close_stream(stream.0, self.scratch, note_match, context.cast()) };
        assert_eq!(status, 0);
        matches
    }

    /// One block, of rules compiled for one.
    pub fn scan_block(&self, block: &[u8], reports: &mut Reports) {
        let context: *mut Reports = reports;
        // SAFETY: block and list outlive the call.
        let status = unsafe {
            let (data, length) = (block.as_ptr().cast(), block.len() as c_uint);
            hs_scan(self.database, data, length, 0, self.scratch, note, context.cast())
        };
        assert_eq!(status, 0, "the scan of a compiled pattern succeeds");
    }

    /// A stream, of rules compiled for one.
    pub fn open(&self) -> Stream {
        let mut stream = null_mut();
        // SAFETY: the database is valid.
        assert_eq!(unsafe { hs_open_stream(self.database, 0, &mut stream) }, 0);
        Stream(stream)
    }

    pub fn scan(&self, stream: &mut Stream, block: &[u8], reports: &mut Reports) {
        let context: *mut Reports = reports;
        // SAFETY: stream, block and list are valid for the call.
        let status = unsafe {
            let (data, length) = (block.as_ptr().cast(), block.len() as c_uint);
            hs_scan_stream(stream.0, data, length, 0, self.scratch, note, context.cast())
        };
        assert_eq!(status, 0);
    }

    pub fn close(&self, stream: Stream, reports: &mut Reports) {
        let context: *mut Reports = reports;
        // SAFETY: the stream is open, and not used after this.
        assert_eq!(unsafe { hs_close_stream(stream.0, self.scratch, note, context.cast()) }, 0);
    }

    /// The bytes of the database and of a stream.
    pub fn sizes(&self) -> (usize, usize) {
        let (mut database, mut stream) = (0, 0);
        // SAFETY: the database is valid.
        unsafe {
            hs_database_size(self.database, &mut database);
            hs_stream_size(self.database, &mut stream);
        }
        (database, stream)
    }
}

impl Drop for Database {
    fn drop(&mut self) {
        // SAFETY: both were made by `new` and are freed once.
        unsafe {
            hs_free_scratch(self.scratch);
            hs_free_database(self.database);
        }
    }
}

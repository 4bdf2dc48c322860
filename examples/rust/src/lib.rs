//! Safe calls over the exported functions of include/arrangements.h.

use std::os::raw::c_uint;

/// A family as it crosses, by value. Make one by `of`: floor and edition are then 1, and later fields have their defaults. With another floor:
/// `Family { floor: 2, ..Family::of(5, 9, 3) }`.
#[repr(C)]
#[derive(Clone, Copy, Debug)]
pub struct Family {
    pub kind: u64,
    pub n: u64,
    pub k: u64,
    pub floor: u64,
    pub edition: u64,
}

impl Family {
    pub fn of(kind: u64, n: u64, k: u64) -> Self {
        Family { kind, n, k, floor: 1, edition: 1 }
    }
}

/// Bytes that are read only.
#[repr(C)]
struct CList {
    bytes: *const u8,
    length: usize,
}

/// All lists that are lent beside a family.
#[repr(C)]
struct CLists {
    counts: CList,
}

extern "C" {
    fn arrangement_object_length(f: Family, lists: *const CLists, value: *mut u64) -> c_uint;
    fn arrangement_count(f: Family, lists: *const CLists, value: *mut u64) -> c_uint;
    fn arrangement_first(f: Family, lists: *const CLists, object: *mut u8, object_len: usize) -> c_uint;
    fn arrangement_last(f: Family, lists: *const CLists, object: *mut u8, object_len: usize) -> c_uint;
    fn arrangement_next(f: Family, lists: *const CLists, object: *mut u8, object_len: usize) -> c_uint;
    fn arrangement_previous(f: Family, lists: *const CLists, object: *mut u8, object_len: usize) -> c_uint;
    fn arrangement_rank(f: Family, lists: *const CLists, object: *const u8, object_len: usize, value: *mut u64) -> c_uint;
    fn arrangement_unrank(rank: u64, f: Family, lists: *const CLists, object: *mut u8, object_len: usize) -> c_uint;
    fn arrangement_jump(f: Family, lists: *const CLists, d: i64, object: *mut u8, object_len: usize) -> c_uint;
    fn arrangement_walk_next(f: Family, lists: *const CLists, object: *mut u8, object_len: usize, number: *mut u64) -> c_uint;
    fn arrangement_walk_previous(f: Family, lists: *const CLists, object: *mut u8, object_len: usize, number: *mut u64) -> c_uint;
    fn arrangement_check(f: Family, lists: *const CLists, entries: u64, bytes: *const u8, bytes_len: usize, place: *mut u64) -> c_uint;
}

/// A family, with the letter counts that kind 2 lends beside it.
#[derive(Clone, Debug)]
pub struct Arrangements {
    pub family: Family,
    pub counts: Vec<u8>,
}

/// What a call answers: one of the codes below, as in include/arrangements.h.
pub type Code = u32;

/// Answered, written, stepped or, of a listing, accepted.
pub const DONE: Code = 0;
/// None follows, precedes or stands there.
pub const END: Code = 100;
/// Not the family's listing, and the place says where.
pub const WRONG: Code = 101;

// Refusals, by the number of the first question that is answered by no, in the order in which questions are put.
pub const REFUSED_KIND: Code = 1;
pub const REFUSED_BOUNDS: Code = 2;
pub const REFUSED_FLOOR: Code = 10;
pub const REFUSED_EDITION: Code = 11;
pub const REFUSED_LETTER_COUNTS: Code = 3;
pub const REFUSED_NO_OBJECTS: Code = 4;
pub const REFUSED_OVERFLOW: Code = 5;
pub const REFUSED_LENGTH: Code = 6;
pub const REFUSED_ENTRIES: Code = 12;
pub const REFUSED_NOT_AN_OBJECT: Code = 7;
pub const REFUSED_RANK: Code = 8;

impl Arrangements {
    fn parts(&self) -> (Family, CLists) {
        let counts = CList { bytes: self.counts.as_ptr(), length: self.counts.len() };
        (self.family, CLists { counts })
    }

    pub fn object_length(&self, value: &mut u64) -> Code {
        let (f, lists) = self.parts();
        unsafe { arrangement_object_length(f, &lists, value) }
    }

    pub fn count(&self, value: &mut u64) -> Code {
        let (f, lists) = self.parts();
        unsafe { arrangement_count(f, &lists, value) }
    }

    pub fn first(&self, object: &mut [u8]) -> Code {
        let (f, lists) = self.parts();
        unsafe { arrangement_first(f, &lists, object.as_mut_ptr(), object.len()) }
    }

    pub fn last(&self, object: &mut [u8]) -> Code {
        let (f, lists) = self.parts();
        unsafe { arrangement_last(f, &lists, object.as_mut_ptr(), object.len()) }
    }

    pub fn next(&self, object: &mut [u8]) -> Code {
        let (f, lists) = self.parts();
        unsafe { arrangement_next(f, &lists, object.as_mut_ptr(), object.len()) }
    }

    pub fn previous(&self, object: &mut [u8]) -> Code {
        let (f, lists) = self.parts();
        unsafe { arrangement_previous(f, &lists, object.as_mut_ptr(), object.len()) }
    }

    pub fn rank(&self, object: &[u8], value: &mut u64) -> Code {
        let (f, lists) = self.parts();
        unsafe { arrangement_rank(f, &lists, object.as_ptr(), object.len(), value) }
    }

    pub fn unrank(&self, rank: u64, object: &mut [u8]) -> Code {
        let (f, lists) = self.parts();
        unsafe { arrangement_unrank(rank, f, &lists, object.as_mut_ptr(), object.len()) }
    }

    pub fn jump(&self, d: i64, object: &mut [u8]) -> Code {
        let (f, lists) = self.parts();
        unsafe { arrangement_jump(f, &lists, d, object.as_mut_ptr(), object.len()) }
    }

    pub fn walk_next(&self, object: &mut [u8], number: &mut u64) -> Code {
        let (f, lists) = self.parts();
        unsafe { arrangement_walk_next(f, &lists, object.as_mut_ptr(), object.len(), number) }
    }

    pub fn walk_previous(&self, object: &mut [u8], number: &mut u64) -> Code {
        let (f, lists) = self.parts();
        unsafe { arrangement_walk_previous(f, &lists, object.as_mut_ptr(), object.len(), number) }
    }

    pub fn check(&self, entries: u64, bytes: &[u8], place: &mut u64) -> Code {
        let (f, lists) = self.parts();
        unsafe { arrangement_check(f, &lists, entries, bytes.as_ptr(), bytes.len(), place) }
    }
}

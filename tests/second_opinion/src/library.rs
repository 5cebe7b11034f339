//! The library's C calls, with every list against a guard page, so that one
//! byte read or written out of bounds ends the program. A trial, which writes nothing, finds
//! its lists on pages that cannot be written.

use crate::call::{Call, Kind};
use crate::surface::Spacings;
use std::ffi::{c_int, c_void};
use std::ptr::null_mut;

#[repr(C)]
struct Answer([u32; 2]);
#[repr(C)]
struct Sheet([u32; 4]);
#[repr(C)]
struct Counts([u32; 5]);
#[repr(C)]
struct TrialCounts([u32; 8]);
#[repr(C)]
struct RingMark([u32; 4]);
#[repr(C)]
struct Next([u32; 3]);
#[repr(C)]
struct Entries([u32; 3]);
#[repr(C)]
struct Size([u32; 6]);

extern "C" {
    fn sn_settings(sheet: *const u8, sn: usize, name: *mut u8, nn: usize) -> Sheet;
    fn sn_survey(
        sheet: *const u8,
        sn: usize,
        rows: u32,
        columns: u32,
        h: *const i32,
        hn: usize,
        m: *mut u8,
        mn: usize,
    ) -> Counts;
    fn sn_reshoot(
        sheet: *const u8,
        sn: usize,
        rows: u32,
        columns: u32,
        h: *mut i32,
        hn: usize,
        m: *mut u8,
        mn: usize,
        post: u32,
        height: i32,
    ) -> Answer;
    fn sn_trial(
        sheet: *const u8,
        sn: usize,
        rows: u32,
        columns: u32,
        h: *const i32,
        hn: usize,
        post: u32,
        height: i32,
    ) -> TrialCounts;
    fn sn_ring(
        sheet: *const u8,
        sn: usize,
        rows: u32,
        columns: u32,
        h: *const i32,
        hn: usize,
        post: u32,
        ring: *mut u8,
        rn: usize,
    ) -> RingMark;
    fn sn_next_down(
        sheet: *const u8,
        sn: usize,
        rows: u32,
        columns: u32,
        along_row: u32,
        along_column: u32,
        h: *const i32,
        hn: usize,
        post: u32,
    ) -> Next;
    fn sn_next_up(
        sheet: *const u8,
        sn: usize,
        rows: u32,
        columns: u32,
        along_row: u32,
        along_column: u32,
        h: *const i32,
        hn: usize,
        post: u32,
    ) -> Next;
    fn sn_thalweg(
        sheet: *const u8,
        sn: usize,
        rows: u32,
        columns: u32,
        along_row: u32,
        along_column: u32,
        h: *const i32,
        hn: usize,
        post: u32,
        run: u32,
        line: *mut u16,
        ln: usize,
    ) -> Entries;
    fn sn_ridge(
        sheet: *const u8,
        sn: usize,
        rows: u32,
        columns: u32,
        along_row: u32,
        along_column: u32,
        h: *const i32,
        hn: usize,
        post: u32,
        run: u32,
        line: *mut u16,
        ln: usize,
    ) -> Entries;
    fn sn_dales_and_hills(
        sheet: *const u8,
        sn: usize,
        rows: u32,
        columns: u32,
        along_row: u32,
        along_column: u32,
        h: *const i32,
        hn: usize,
        dales: *mut u16,
        dn: usize,
        hills: *mut u16,
        pn: usize,
    ) -> Answer;
    fn sn_joins_and_splits(
        sheet: *const u8,
        sn: usize,
        rows: u32,
        columns: u32,
        h: *const i32,
        hn: usize,
        joins: *mut u8,
        jn: usize,
        splits: *mut u8,
        kn: usize,
    ) -> Answer;
    fn sn_read_survey(file: *const u8, bytes: usize, h: *mut i32, hn: usize) -> Size;
    fn sn_write_survey(
        rows: u32,
        columns: u32,
        along_row: u32,
        along_column: u32,
        h: *const i32,
        hn: usize,
        file: *mut u8,
        bytes: usize,
    ) -> Answer;

    fn mmap(
        at: *mut c_void,
        length: usize,
        access: c_int,
        flags: c_int,
        fd: c_int,
        offset: i64,
    ) -> *mut c_void;
    fn mprotect(at: *mut c_void, length: usize, access: c_int) -> c_int;
}

/// Where a list lies in its memory.
#[derive(Clone, Copy, PartialEq, Debug)]
pub enum Edge {
    /// Its first byte follows a guard page.
    Start,
    /// Its last byte precedes a guard page.
    End,
    /// As Start, and a list without entries has a null pointer.
    Null,
}

/// Memory for one list, between two stretches that nobody can read or write.
struct Guarded {
    start: *mut u8,
}

const GUARD: usize = 1 << 16;
const ROOM: usize = 1 << 17;

const NONE: c_int = 0;
const READ: c_int = 1;
const READ_WRITE: c_int = 3;

impl Guarded {
    fn new() -> Guarded {
        const PRIVATE_ANONYMOUS: c_int = 0x22;
        unsafe {
            let all = mmap(null_mut(), ROOM + 2 * GUARD, NONE, PRIVATE_ANONYMOUS, -1, 0);
            assert!(all as isize != -1, "no memory");
            let start = (all as *mut u8).add(GUARD);
            let memory = Guarded { start };
            memory.allow(READ_WRITE);
            memory
        }
    }

    fn allow(&self, access: c_int) {
        let allowed = unsafe { mprotect(self.start.cast(), ROOM, access) } == 0;
        assert!(allowed, "no memory");
    }

    fn lend<T: Copy>(&self, list: &[T], edge: Edge) -> *mut T {
        let bytes = std::mem::size_of_val(list);
        assert!(bytes <= ROOM);
        if edge == Edge::Null && bytes == 0 {
            return null_mut();
        }
        let offset = if edge == Edge::End { ROOM - bytes } else { 0 };
        unsafe {
            let at = self.start.add(offset).cast::<T>();
            at.copy_from_nonoverlapping(list.as_ptr(), list.len());
            at
        }
    }

    fn give_back<T: Copy>(&self, list: &mut [T], at: *mut T) {
        if !list.is_empty() {
            unsafe { list.as_mut_ptr().copy_from_nonoverlapping(at, list.len()) }
        }
    }
}

/// Where the lists of a call lie.
struct Lent {
    sheet: *mut u8,
    name: *mut u8,
    heights: *mut i32,
    marks: *mut u8,
    ring: *mut u8,
    line: *mut u16,
    dales: *mut u16,
    hills: *mut u16,
    joins: *mut u8,
    splits: *mut u8,
    file: *mut u8,
}

/// The answer of the C call, which finds its lists there.
unsafe fn answer(call: &Call, lent: &Lent) -> Vec<u32> {
    let Lent { sheet, name, heights, marks, ring, line, dales, hills, joins, splits, file } = *lent;
    let (r, c, p, run) = (call.rows, call.columns, call.post, call.run);
    let (s, sn, nn) = (sheet.cast_const(), call.sheet.len(), call.name.len());
    let Spacings { along_row: ar, along_column: ac } = call.spacings;
    let (h, hn) = (heights.cast_const(), call.heights.len());
    let (mn, rn, ln) = (call.marks.len(), call.ring.len(), call.line.len());
    let (dn, pn, fl) = (call.dales.len(), call.hills.len(), call.file.len());
    let (jn, kn) = (call.joins.len(), call.splits.len());
    match call.kind {
        Kind::Settings => sn_settings(s, sn, name, nn).0.to_vec(),
        Kind::Survey => sn_survey(s, sn, r, c, h, hn, marks, mn).0.to_vec(),
        Kind::Reshoot => sn_reshoot(s, sn, r, c, heights, hn, marks, mn, p, call.height).0.to_vec(),
        Kind::Trial => sn_trial(s, sn, r, c, h, hn, p, call.height).0.to_vec(),
        Kind::Ring => sn_ring(s, sn, r, c, h, hn, p, ring, rn).0.to_vec(),
        Kind::NextDown => sn_next_down(s, sn, r, c, ar, ac, h, hn, p).0.to_vec(),
        Kind::NextUp => sn_next_up(s, sn, r, c, ar, ac, h, hn, p).0.to_vec(),
        Kind::Thalweg => sn_thalweg(s, sn, r, c, ar, ac, h, hn, p, run, line, ln).0.to_vec(),
        Kind::Ridge => sn_ridge(s, sn, r, c, ar, ac, h, hn, p, run, line, ln).0.to_vec(),
        Kind::DalesAndHills => {
            sn_dales_and_hills(s, sn, r, c, ar, ac, h, hn, dales, dn, hills, pn).0.to_vec()
        }
        Kind::JoinsAndSplits => {
            sn_joins_and_splits(s, sn, r, c, h, hn, joins, jn, splits, kn).0.to_vec()
        }
        Kind::ReadSurvey => sn_read_survey(file, fl, heights, hn).0.to_vec(),
        Kind::WriteSurvey => sn_write_survey(r, c, ar, ac, h, hn, file, fl).0.to_vec(),
    }
}

pub struct Library {
    memory: [Guarded; 11],
}

impl Library {
    pub fn new() -> Library {
        Library { memory: std::array::from_fn(|_| Guarded::new()) }
    }

    /// The library's answer; the lists become what it left.
    pub fn run(&self, call: &mut Call, edge: Edge) -> Vec<u32> {
        let [m0, m1, m2, m3, m4, m5, m6, m7, m8, m9, m10] = &self.memory;
        let lent = Lent {
            sheet: m0.lend(&call.sheet, edge),
            name: m1.lend(&call.name, edge),
            heights: m2.lend(&call.heights, edge),
            marks: m3.lend(&call.marks, edge),
            ring: m4.lend(&call.ring, edge),
            line: m5.lend(&call.line, edge),
            dales: m6.lend(&call.dales, edge),
            hills: m7.lend(&call.hills, edge),
            joins: m8.lend(&call.joins, edge),
            splits: m9.lend(&call.splits, edge),
            file: m10.lend(&call.file, edge),
        };
        let only_read = if call.kind == Kind::Trial { &[m0, m2][..] } else { &[] };
        only_read.iter().for_each(|memory| memory.allow(READ));
        let answer = unsafe { answer(call, &lent) };
        only_read.iter().for_each(|memory| memory.allow(READ_WRITE));
        m0.give_back(&mut call.sheet, lent.sheet);
        m1.give_back(&mut call.name, lent.name);
        m2.give_back(&mut call.heights, lent.heights);
        m3.give_back(&mut call.marks, lent.marks);
        m4.give_back(&mut call.ring, lent.ring);
        m5.give_back(&mut call.line, lent.line);
        m6.give_back(&mut call.dales, lent.dales);
        m7.give_back(&mut call.hills, lent.hills);
        m8.give_back(&mut call.joins, lent.joins);
        m9.give_back(&mut call.splits, lent.splits);
        m10.give_back(&mut call.file, lent.file);
        answer
    }
}

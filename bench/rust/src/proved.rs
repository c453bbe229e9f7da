//! The proved questions, as crates/bridge exports them.

use crate::folders::Folder;
use crate::questions::{Question, Told};

/// As the type of the same name in crates/bridge.
#[repr(C)]
pub struct Answer {
    grades: [i64; 64],
    marks: u8,
    hops: u8,
    number: u8,
}

type Grading = unsafe extern "C" fn(*const u8, usize, *const [u8; 2], usize, u32, u32, u32, *mut Answer);
type Ratio = unsafe extern "C" fn(*const u8, usize, *const [u8; 2], usize, u32, *mut Answer);

unsafe extern "C" {
    fn bits_loose(records: *const u8, count: usize, pairs: *const [u8; 2], marked: usize, t1: u32, t2: u32, times: u32, answer: *mut Answer);
    fn bits_strict(records: *const u8, count: usize, pairs: *const [u8; 2], marked: usize, t1: u32, t2: u32, times: u32, answer: *mut Answer);
    fn bits_ratio(records: *const u8, count: usize, pairs: *const [u8; 2], marked: usize, times: u32, answer: *mut Answer);
    fn list_loose(records: *const u8, count: usize, pairs: *const [u8; 2], marked: usize, t1: u32, t2: u32, times: u32, answer: *mut Answer);
    fn list_strict(records: *const u8, count: usize, pairs: *const [u8; 2], marked: usize, t1: u32, t2: u32, times: u32, answer: *mut Answer);
    fn list_ratio(records: *const u8, count: usize, pairs: *const [u8; 2], marked: usize, times: u32, answer: *mut Answer);
}

/// The calls of one make of sheet.
pub struct Make {
    loose: Grading,
    strict: Grading,
    ratio: Ratio,
}

pub const BITS: Make = Make { loose: bits_loose, strict: bits_strict, ratio: bits_ratio };
pub const LIST: Make = Make { loose: list_loose, strict: list_strict, ratio: list_ratio };

impl Make {
    /// Fills a sheet with the folder, asks so many times, and gives the last answer.
    pub fn ask(&self, folder: &Folder, question: Question, times: u32) -> Answer {
        let mut answer = Answer { grades: [0; 64], marks: 0, hops: 0, number: 0 };
        let (records, count) = (folder.records.as_ptr(), folder.records.len());
        let (pairs, marked) = (folder.pairs.as_ptr(), folder.pairs.len());
        // The pointers and lengths are those of slices that live through the call, and the answer is borrowed for it alone.
        unsafe {
            match question {
                Question::Loose { t1, t2 } => (self.loose)(records, count, pairs, marked, t1, t2, times, &mut answer),
                Question::Strict { t1, t2 } => (self.strict)(records, count, pairs, marked, t1, t2, times, &mut answer),
                Question::Ratio => (self.ratio)(records, count, pairs, marked, times, &mut answer),
            }
        }
        answer
    }
}

impl Answer {
    /// Any refusal but of a ring that forbids, and of a circle, would be a fault of this program.
    pub fn told(&self, question: Question) -> Told {
        match (self.number, question) {
            (0, Question::Ratio) => Told::ratio(self.marks.into(), self.hops.into()),
            (0, _) => Told::Grades(Box::new(self.grades)),
            (12, Question::Ratio) | (13, Question::Loose { .. } | Question::Strict { .. }) => Told::Refused,
            (number, _) => panic!("{question:?} is declined by {number}"),
        }
    }
}

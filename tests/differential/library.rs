//! The two functions of the static libraries, as include/galdrisco.h declares them.

/// A job count, or the number of its refusal with all else 0.
#[repr(C)]
#[derive(Clone, Copy, Default, PartialEq, Eq, Debug)]
pub struct Job {
    pub refusal: usize,
    pub lines: usize,
    pub offered: usize,
    pub withheld: usize,
    pub absent: usize,
    pub unreadable: usize,
    pub share: usize,
}

unsafe extern "C" {
    fn galdrisco_check_tree(file: *const u8, length: usize) -> u32;
    fn galdrisco_count_job(
        tree: *const u8,
        tree_length: usize,
        sheet: *const u8,
        sheet_length: usize,
        list: usize,
    ) -> Job;
}

pub fn check(file: &[u8]) -> u32 {
    unsafe { galdrisco_check_tree(file.as_ptr(), file.len()) }
}

pub fn count_job(tree: &[u8], sheet: &[u8], list: usize) -> Job {
    unsafe { galdrisco_count_job(tree.as_ptr(), tree.len(), sheet.as_ptr(), sheet.len(), list) }
}

//! What `editlens.h` declares.

#[repr(C)]
#[derive(Clone, Copy)]
pub struct Answer {
    pub status: u32,
    pub cause: u32,
    pub number: u64,
    pub part: u64,
    pub at: u64,
    pub len: usize,
    pub size: u64,
    pub spare_1: u64,
    pub spare_2: u64,
}

pub const DONE: u32 = 0;
pub const BLANK: u32 = 1;
pub const REFUSED: u32 = 2;
pub const PROGRAM_REFUSED: u32 = 3;
pub const STATE_REFUSED: u32 = 4;
pub const LINE_FEED: u32 = 8;
pub const FULL: u32 = 10;
pub const RECORDS_REFUSED: u32 = 11;
pub const NO_CHANGE: u32 = 12;

pub const VERSION: u32 = 2;

pub const STATE: u32 = 0;
pub const LEFT: u32 = 1;
pub const COMPLEMENT: u32 = 2;
pub const RIGHT: u32 = 3;
pub const LEFT_TYPE: u32 = 4;
pub const RIGHT_TYPE: u32 = 5;
pub const SNAPSHOT: u32 = 6;
pub const CHANGE: u32 = 7;
pub const UNDO_LEFT: u32 = 8;
pub const UNDO_RIGHT: u32 = 9;

pub const KIND: u32 = 1;
pub const PLACE: u32 = 2;
pub const TAG: u32 = 3;
pub const RANGE: u32 = 4;
pub const OVERFLOW: u32 = 5;
pub const VALUE: u32 = 6;
pub const PRESENT: u32 = 7;
pub const LENGTH: u32 = 8;
pub const DEEP: u32 = 9;
pub const LINE_TOO_LONG: u32 = 11;
pub const NOT_JSON: u32 = 12;
pub const NOT_AN_ENTRY: u32 = 13;

pub const NOT_LEFT: u32 = 41;
pub const NOT_COMPLEMENT: u32 = 42;
pub const NOT_RIGHT: u32 = 43;

pub const BAD_RECORD: u32 = 51;

pub const HUB_STATE: u32 = 0;
pub const HUB_DOCUMENT: u32 = 1;
pub const VIEW_DOCUMENT: u32 = 2;
pub const VIEW_COMPLEMENT: u32 = 3;
pub const NO_VIEW: u32 = 61;
pub const OTHER_COUNT: u32 = 64;
pub const NOT_HUB: u32 = 65;
pub const NOT_VIEW: u32 = 66;

extern "C" {
    pub fn editlens_version() -> u32;

    pub fn editlens_session_size() -> usize;
    pub fn editlens_session_open(at: *mut u8, program: *const u8, program_len: usize) -> u32;
    pub fn editlens_session_import_left(at: *mut u8, program: *const u8, program_len: usize, document: *const u8, document_len: usize) -> u32;
    pub fn editlens_session_import_right(at: *mut u8, program: *const u8, program_len: usize, document: *const u8, document_len: usize) -> u32;
    pub fn editlens_session_resume(
        at: *mut u8,
        program: *const u8,
        program_len: usize,
        left: *const u8,
        left_len: usize,
        complement: *const u8,
        complement_len: usize,
        right: *const u8,
        right_len: usize,
    ) -> u32;
    pub fn editlens_session_reopen(at: *mut u8, records: *const u8, records_len: usize) -> u32;
    pub fn editlens_session_status(at: *mut u8) -> Answer;
    pub fn editlens_session_step(at: *mut u8, line: *const u8, line_len: usize) -> Answer;
    pub fn editlens_session_show(at: *mut u8, part: u32) -> Answer;
    pub fn editlens_session_text(at: *mut u8, out: *mut u8, out_len: usize) -> Answer;
    pub fn editlens_session_close(at: *mut u8) -> u32;

    pub fn editlens_hub_size() -> usize;
    pub fn editlens_hub_open(at: *mut u8, programs: *const u8, programs_len: usize) -> u32;
    pub fn editlens_hub_resume(at: *mut u8, programs: *const u8, programs_len: usize, state: *const u8, state_len: usize) -> u32;
    pub fn editlens_hub_status(at: *mut u8) -> Answer;
    pub fn editlens_hub_step(at: *mut u8, line: *const u8, line_len: usize) -> Answer;
    pub fn editlens_hub_show(at: *mut u8, part: u32, view: u64) -> Answer;
    pub fn editlens_hub_text(at: *mut u8, out: *mut u8, out_len: usize) -> Answer;
    pub fn editlens_hub_close(at: *mut u8) -> u32;
}

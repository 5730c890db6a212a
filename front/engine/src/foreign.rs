//! What is exported, as C sees it. The declarations follow `include/pogandir.h`;
//! a test holds that header against the engine's sources. A slice is a pointer
//! and then a length.

/// The values of a header, as the file has them.
#[repr(C)]
#[derive(Clone, Copy, Debug, PartialEq, Eq)]
pub struct Header {
    pub mark: u16,
    pub n: u8,
    pub flags: u32,
    pub ticket_life: u32,
    pub authenticator_life: u32,
}

/// A realm: its header's values, its clock, and how many places of each table
/// are in use.
#[repr(C)]
#[derive(Clone, Copy, Debug, PartialEq, Eq)]
pub struct Realm {
    pub n: u8,
    /// The number of the rule set that the header's mark names.
    pub rules: u8,
    pub flags: u32,
    pub ticket_life: u32,
    pub authenticator_life: u32,
    pub clock: u32,
    pub terms: usize,
    pub runs: usize,
    pub entries: usize,
}

/// An entry of the replay cache: responder, session key, authenticator's time.
#[repr(C)]
#[derive(Clone, Copy, Debug, Default, PartialEq, Eq)]
pub struct Entry {
    pub b: u16,
    pub k: u16,
    pub ta: u32,
}

/// A call: a term where `adds`, with the next three fields, or else a step.
#[repr(C)]
#[derive(Clone, Copy, Debug, Default)]
pub struct Record {
    pub adds: bool,
    pub kind: u8,
    pub l: u16,
    pub r: u16,
    pub step: u8,
    pub run: u8,
    pub a: u8,
    pub b: u8,
    pub m: u16,
    pub t: u32,
}

/// The kinds: 0 a term's number, 1 ok with a run, 2 ok without, 3 refused.
#[repr(C)]
pub struct Reply {
    pub realm: Realm,
    pub kind: u8,
    pub number: u16,
    pub added: u16,
}

#[repr(C)]
pub struct Opened {
    pub realm: Realm,
    pub refusal: u8,
}

#[repr(C)]
pub struct Listed {
    pub fits: bool,
    pub count: usize,
}

#[repr(C)]
pub struct Filed {
    pub refusal: u8,
    pub count: usize,
}

extern "C" {
    pub fn pogandir_open(header: Header) -> Opened;

    pub fn pogandir_call(
        realm: Realm,
        terms: *mut u64,
        terms_length: usize,
        runs: *mut u32,
        runs_length: usize,
        wire: *mut u64,
        wire_length: usize,
        cache: *mut Entry,
        cache_length: usize,
        record: Record,
    ) -> Reply;

    pub fn pogandir_known(
        realm: Realm,
        terms: *const u64,
        terms_length: usize,
        wire: *const u64,
        wire_length: usize,
        out: *mut u64,
        out_length: usize,
    ) -> u8;

    pub fn pogandir_list(
        file: *const u8,
        file_length: usize,
        out: *mut u8,
        out_length: usize,
    ) -> Listed;

    pub fn pogandir_write(
        header: Header,
        words: *const u32,
        words_length: usize,
        out: *mut u8,
        out_length: usize,
        at: usize,
    ) -> Filed;
}

//! The functions of `include/sktelbaan.h`, by their symbols. Each takes what it is lent, keeps
//! nothing, and touches nothing past the lengths that it is given. No pointer is null, even for none,
//! as a slice's never is.

extern "C" {
    pub fn sktelbaan_validate(page: *const u8, page_len: usize) -> u64;

    pub fn sktelbaan_evaluate(
        page: *const u8,
        page_len: usize,
        number: u32,
        components: *const i32,
        count: usize,
        floats: *mut f64,
    ) -> u64;

    pub fn sktelbaan_write_recipe(
        page: *const u8,
        page_len: usize,
        number: u32,
        words: *mut i32,
        words_len: usize,
    ) -> u64;

    pub fn sktelbaan_run(
        words: *const i32,
        words_len: usize,
        components: *const i32,
        count: usize,
        floats: *mut f64,
    ) -> u64;

    pub fn sktelbaan_find_ink(
        job: *const u8,
        job_len: usize,
        house: *const u8,
        house_len: usize,
        name: *const u8,
        name_len: usize,
        place: *mut u32,
    ) -> u64;

    pub fn sktelbaan_write_block(
        numbers: *const i32,
        bytes: *const u8,
        block: *mut u8,
        block_len: usize,
    ) -> u64;

    pub fn sktelbaan_read_block(
        block: *const u8,
        block_len: usize,
        numbers: *mut i32,
        bytes: *mut u8,
    ) -> u64;

    pub fn sktelbaan_begin_text(
        words: *mut u64,
        values: *mut i32,
        word: *const u8,
        marks: *const u32,
        names: *const u8,
        opens: *const u32,
        blocks: *const u8,
    ) -> u64;

    pub fn sktelbaan_read_text(
        text: *const u8,
        text_len: usize,
        room_len: usize,
        words: *mut u64,
        values: *mut i32,
        word: *mut u8,
        marks: *mut u32,
        names: *mut u8,
        opens: *mut u32,
        blocks: *mut u8,
    ) -> u64;

    pub fn sktelbaan_end_text(
        room: *mut u8,
        room_len: usize,
        words: *mut u64,
        values: *mut i32,
        word: *const u8,
        marks: *mut u32,
        names: *mut u8,
        opens: *mut u32,
        blocks: *mut u8,
    ) -> u64;
}

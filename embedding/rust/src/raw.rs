//! The functions of the proved library as C sees them, by the contracts in crates/lineengine/src/lib.rt. They take any bytes. What
//! is asked of pointers, and what a null pointer with length 0 means, is said in embedding/lineengine.h.

#[link(name = "lineengine", kind = "static")]
extern "C" {
    pub fn lineengine_check(table: *const u8, table_length: usize, train: *mut u8, place: *mut u8) -> u8;

    pub fn lineengine_run(
        table: *const u8,
        table_length: usize,
        steps: *const u8,
        steps_length: usize,
        answers: *mut u8,
        answers_room: usize,
        train: *mut u8,
        place: *mut u8,
    ) -> u8;

    pub fn lineengine_print(
        table: *const u8,
        table_length: usize,
        input: *const u8,
        input_length: usize,
        answers: *mut u8,
        answers_room: usize,
        text: *mut u8,
        text_room: usize,
        text_length: *mut usize,
    ) -> u8;

    pub fn lineengine_write_back(
        table: *const u8,
        table_length: usize,
        buffer: *mut u8,
        buffer_room: usize,
        train: *mut u8,
        place: *mut u8,
    ) -> u8;
}

//! The library's C functions, as `mungaite.h` declares them.
//!
//! An answer is four 16-bit parts, the highest first, but for that of [`mungaite_build`]. Every pointer must be valid
//! for the count given with it, and what is written, the buffers of [`mungaite_add`], [`mungaite_build`] and
//! [`mungaite_convert`] and the answers of [`mungaite_run`], must not overlap anything else that is lent.

extern "C" {
    /// 0 where the image is accepted, else the refusal.
    pub fn mungaite_check(image: *const u8, length: usize) -> u64;

    /// The decision while the switches of a word are on, or the refusal. Here 0 is NotPermitted, with no step and rule
    /// 0.
    pub fn mungaite_decide(
        source: u16,
        destination: u16,
        class: u16,
        action: u16,
        switches: u32,
        image: *const u8,
        length: usize,
    ) -> u64;

    /// 0, 1, 0, 0 where every row is Permitted; 0, 0, 0, row of the first that is not; or the refusal, and no slot is
    /// written. A row is six numbers, the last two the high and the low half of its switch word, and each row's answer
    /// is put in its slot.
    pub fn mungaite_run(
        queries: *const u16,
        numbers: usize,
        answers: *mut u64,
        rows: usize,
        image: *const u8,
        length: usize,
    ) -> u64;

    /// 0, 1, place, length of record `n`, or the refusal. Section 0 is the groups, 1 the rules, 2 the constraints.
    pub fn mungaite_record(section: u16, n: u16, image: *const u8, length: usize) -> u64;

    /// 0, 1, 0, number of the new record, or the refusal.
    pub fn mungaite_add(buffer: *mut u8, length: usize, record: *const u8, record_length: usize) -> u64;

    /// The length of the image that was built from a text; or the refusal's number in the highest 16 bits, and in the
    /// other 48 the place of the refused row. The buffer then holds the image of the rows before, but is left as it was
    /// where it has fewer than 9 bytes.
    pub fn mungaite_build(text: *const u8, text_length: usize, buffer: *mut u8, length: usize) -> u64;

    /// 0, 1, 0, length of the new image, which the buffer then starts with; or the refusal, and no byte is written.
    pub fn mungaite_convert(image: *const u8, length: usize, buffer: *mut u8, buffer_length: usize) -> u64;
}

//! What the crate `timing` exports, declared apart from the reader's functions: whoever calls the reader has no use for it.
extern "C" {
    /// Reads a payload under the house's limits with the standard palette, in pieces of `chunk` bytes (0: all at once). Answers
    /// width x 2^32 + height, or the refusal's number.
    pub fn sixbench_decode(
        canvas: *mut u8,
        canvas_length: usize,
        stride: usize,
        bytes: *const u8,
        bytes_length: usize,
        chunk: usize,
    ) -> u64;
}

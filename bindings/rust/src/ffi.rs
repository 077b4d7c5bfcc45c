//! The functions of the archive as they are, for callers that have pointers. A slice is two parameters, pointer and
//! length in bytes.

unsafe extern "C" {
    /// # Safety
    ///
    /// Each pointer is to as many bytes as its length says, or null or dangling if that is 0. The four that are written
    /// (`code`, `constants`, `marks`, `result`) overlap no other.
    pub fn sewurogi_lower(
        nodes: *const u8,
        nodes_length: usize,
        root: u32,
        mode: u32,
        list: *const u8,
        list_length: usize,
        names: *const u8,
        names_length: usize,
        code: *mut u8,
        code_length: usize,
        constants: *mut u8,
        constants_length: usize,
        marks: *mut u8,
        marks_length: usize,
        result: *mut u8,
        result_length: usize,
    );

    /// # Safety
    ///
    /// The pointer is to as many bytes as the length says, or null or dangling if that is 0.
    pub fn sewurogi_patch_jump(code: *mut u8, code_length: usize, count: u32, index: u32, offset: u32) -> u32;
}

/// The parameters of [`sewurogi_lower`], as declared above.
pub type Lower = unsafe extern "C" fn(
    *const u8,
    usize,
    u32,
    u32,
    *const u8,
    usize,
    *const u8,
    usize,
    *mut u8,
    usize,
    *mut u8,
    usize,
    *mut u8,
    usize,
    *mut u8,
    usize,
);

//! The port, by its C-callable functions: those of the archive through the Rust bindings, those of shared objects as
//! they are.

use crate::tree::{Answer, Input, words};
use sewurogi::ffi::{self, Lower};
use std::{
    ffi::{CStr, CString, c_char, c_int, c_void},
    fs, mem,
    os::unix::ffi::OsStringExt,
    path::Path,
};

// The C library's loader of shared objects.
unsafe extern "C" {
    fn dlopen(file: *const c_char, flags: c_int) -> *mut c_void;
    fn dlsym(object: *mut c_void, name: *const c_char) -> *mut c_void;
    fn dlerror() -> *const c_char;
}

/// Every symbol is looked up when the object is loaded, none at its first call.
const RTLD_NOW: c_int = 2;

/// `sewurogi_lower`: of the archive that is linked, or of a shared object that has the port in another shape.
#[derive(Clone, Copy)]
pub struct Port {
    lower: Lower,
}

/// What a call reads: three slices, the root and the mode.
#[derive(Clone, Copy)]
pub struct Asked<'a> {
    pub nodes: &'a [u8],
    pub root: u32,
    pub mode: u32,
    pub list: &'a [u8],
    pub names: &'a [u8],
}

impl Port {
    pub const LINKED: Port = Port { lower: ffi::sewurogi_lower };

    /// Of a shared object. It stays loaded to the end of the process.
    pub fn load(path: &Path) -> Result<Port, String> {
        // A name without a folder would be looked for among the system's libraries.
        let file = fs::canonicalize(path).map_err(|error| format!("{}: {error}", path.display()))?;
        let file = CString::new(file.into_os_string().into_vec()).expect("no 0 in a path");
        // SAFETY: both strings end with a 0 and live through the calls. That the object's `sewurogi_lower` has the
        // archive's parameters is the caller's word.
        unsafe {
            let object = dlopen(file.as_ptr(), RTLD_NOW);
            let lower = if object.is_null() { object } else { dlsym(object, c"sewurogi_lower".as_ptr()) };
            if lower.is_null() {
                return Err(CStr::from_ptr(dlerror()).to_string_lossy().into_owned());
            }
            Ok(Port { lower: mem::transmute::<*mut c_void, Lower>(lower) })
        }
    }

    /// The eight numbers; the buffers are written in place.
    pub fn lower_into(self, asked: Asked, code: &mut [u8], constants: &mut [u8], marks: &mut [u8]) -> [u32; 8] {
        let mut result = [0xEE; 32];
        // SAFETY: each pointer and length is a slice's, the three buffers are borrowed alone, `result` has its 32 bytes.
        unsafe {
            (self.lower)(
                asked.nodes.as_ptr(),
                asked.nodes.len(),
                asked.root,
                asked.mode,
                asked.list.as_ptr(),
                asked.list.len(),
                asked.names.as_ptr(),
                asked.names.len(),
                code.as_mut_ptr(),
                code.len(),
                constants.as_mut_ptr(),
                constants.len(),
                marks.as_mut_ptr(),
                marks.len(),
                result.as_mut_ptr(),
                result.len(),
            );
        }
        words(&result).try_into().unwrap()
    }
}

/// Bytes on both sides of a buffer that must stay.
const GUARD: usize = 48;
const GUARD_BYTE: u8 = 0x5A;

/// A copy of a buffer between guards. Its start moves with the length, so that no alignment is relied on.
struct Guarded {
    bytes: Vec<u8>,
    start: usize,
    end: usize,
}

impl Guarded {
    fn new(buffer: &[u8]) -> Guarded {
        let start = GUARD + buffer.len() % 8;
        let mut bytes = vec![GUARD_BYTE; start];
        bytes.extend_from_slice(buffer);
        let end = bytes.len();
        bytes.resize(end + GUARD, GUARD_BYTE);
        Guarded { bytes, start, end }
    }

    fn buffer(&mut self) -> &mut [u8] {
        &mut self.bytes[self.start..self.end]
    }

    fn after(self) -> Vec<u8> {
        let guards = [&self.bytes[..self.start], &self.bytes[self.end..]];
        assert!(guards.concat().iter().all(|&byte| byte == GUARD_BYTE), "the port wrote outside a buffer");
        self.bytes[self.start..self.end].to_vec()
    }
}

pub fn lower(input: &Input) -> Answer {
    let [mut code, mut constants, mut marks] = [&input.code, &input.constants, &input.marks].map(|b| Guarded::new(b));
    let tree = sewurogi::Tree { nodes: &input.nodes, root: input.root, list: &input.list, names: &input.names };
    let buffers = sewurogi::Buffers { code: code.buffer(), constants: constants.buffer(), marks: marks.buffer() };
    let result = match sewurogi::lower(tree, input.mode, buffers) {
        Ok(numbers) => numbers.words(),
        Err(refused) => {
            assert_eq!(refused.refusal.number(), refused.numbers.number, "the bindings name another refusal");
            refused.numbers.words()
        }
    };
    Answer { result, code: code.after(), constants: constants.after(), marks: marks.after() }
}

/// Patching: 0, and the offset word set, or 19.
pub fn patch(code: &mut [u8], count: u32, index: u32, offset: u32) -> u32 {
    let mut guarded = Guarded::new(code);
    let patched = sewurogi::patch_jump(guarded.buffer(), count, index, offset.cast_signed());
    code.copy_from_slice(&guarded.after());
    patched.map_or_else(sewurogi::Refusal::number, |()| 0)
}

//! Safe calls of some functions of `cck.h`: keys of objects, time macros, and base directories.

use std::borrow::Cow;

/// A pointer and a length.
#[repr(C)]
struct Slice<T>(*const T, usize);

impl<T> From<&[T]> for Slice<T> {
    fn from(slice: &[T]) -> Slice<T> {
        Slice(slice.as_ptr(), slice.len())
    }
}

#[repr(C)]
struct Variable(Slice<u8>, Slice<u8>);

#[repr(C)]
struct RawParams {
    compiler_digest: Slice<u8>,
    language: Slice<u8>,
    arguments: Slice<Slice<u8>>,
    extra_hashes: Slice<Slice<u8>>,
    variables: Slice<Variable>,
    basedirs: Slice<Slice<u8>>,
    text: Slice<u8>,
    assembler_digest: Slice<u8>,
    has_assembler: u8,
    plusplus: u8,
}

unsafe extern "C" {
    fn cck_object_key(params: *const RawParams, key: *mut [u8; 64]) -> i32;
    fn cck_finder_start(finder: *mut Finder);
    fn cck_finder_push(finder: *mut Finder, piece: *const u8, piece_length: usize);
    fn cck_strip_text(
        text: *const u8,
        text_length: usize,
        basedirs: *const Slice<u8>,
        basedirs_length: usize,
        buffer: *mut u8,
        buffer_length: usize,
        written: *mut usize,
    ) -> i32;
}

/// Why there is no key.
#[derive(Debug, PartialEq, Eq)]
pub enum KeyError {
    /// Memory is lacking.
    Memory,
    /// No language has this name.
    Language,
}

/// The parts of which the key of an object is made.
#[derive(Default, Clone, Copy)]
pub struct KeyParams<'a> {
    pub compiler_digest: &'a str,
    pub language: &'a str,
    pub arguments: &'a [&'a [u8]],
    pub extra_hashes: &'a [&'a str],
    pub variables: &'a [(&'a [u8], &'a [u8])],
    pub basedirs: &'a [&'a [u8]],
    pub text: &'a [u8],
    pub assembler_digest: Option<&'a str>,
    pub plusplus: bool,
}

impl KeyParams<'_> {
    /// The key, 64 digits.
    pub fn key(&self) -> Result<String, KeyError> {
        let (arguments, basedirs) = (slices(self.arguments), slices(self.basedirs));
        let extra_hashes: Vec<_> = self
            .extra_hashes
            .iter()
            .map(|one| Slice::from(one.as_bytes()))
            .collect();
        let variables: Vec<_> = self
            .variables
            .iter()
            .map(|one| Variable(one.0.into(), one.1.into()))
            .collect();
        let params = RawParams {
            compiler_digest: self.compiler_digest.as_bytes().into(),
            language: self.language.as_bytes().into(),
            arguments: arguments[..].into(),
            extra_hashes: extra_hashes[..].into(),
            variables: variables[..].into(),
            basedirs: basedirs[..].into(),
            text: self.text.into(),
            assembler_digest: self.assembler_digest.unwrap_or_default().as_bytes().into(),
            has_assembler: self.assembler_digest.is_some().into(),
            plusplus: self.plusplus.into(),
        };
        let mut key = [0; 64];
        // SAFETY: each slice lives until the call returns, and nothing else borrows `key`.
        match unsafe { cck_object_key(&params, &mut key) } {
            0 => Ok(key.iter().map(|digit| char::from(*digit)).collect()),
            3 => Err(KeyError::Language),
            // Texts are UTF-8, so the status for another digest is never returned.
            _ => Err(KeyError::Memory),
        }
    }
}

fn slices(all: &[&[u8]]) -> Vec<Slice<u8>> {
    all.iter().map(|one| Slice::from(*one)).collect()
}

/// The text without these base directories: the text itself if nothing is cut out. `None` if memory is
/// lacking.
pub fn strip_text<'a>(text: &'a [u8], basedirs: &[&[u8]]) -> Option<Cow<'a, [u8]>> {
    let basedirs = slices(basedirs);
    let mut buffer = vec![0; text.len()];
    let mut written = 0;
    // SAFETY: each slice lives until the call returns, and nothing else borrows `buffer`.
    let status = unsafe {
        cck_strip_text(
            text.as_ptr(),
            text.len(),
            basedirs.as_ptr(),
            basedirs.len(),
            buffer.as_mut_ptr(),
            buffer.len(),
            &mut written,
        )
    };
    match status {
        0 => {
            buffer.truncate(written);
            Some(Cow::Owned(buffer))
        }
        7 => Some(Cow::Borrowed(text)),
        // The buffer is as long as the text.
        _ => None,
    }
}

/// Finds the time macros in a stream.
#[repr(C)]
#[derive(Clone, Copy)]
pub struct Finder {
    time: u8,
    date: u8,
    timestamp: u8,
    length: u8,
    tail: [u8; 12],
}

impl Default for Finder {
    fn default() -> Finder {
        let mut finder = Finder {
            time: 0,
            date: 0,
            timestamp: 0,
            length: 0,
            tail: [0; 12],
        };
        // SAFETY: nothing else borrows the finder.
        unsafe { cck_finder_start(&mut finder) };
        finder
    }
}

impl Finder {
    /// Searches the next piece of the stream.
    pub fn push(&mut self, piece: &[u8]) {
        // SAFETY: the piece lives until the call returns, and nothing else borrows `self`.
        unsafe { cck_finder_push(self, piece.as_ptr(), piece.len()) };
    }

    /// Whether the stream contains `__TIME__`, `__DATE__` and `__TIMESTAMP__`.
    pub fn found(&self) -> (bool, bool, bool) {
        (self.time != 0, self.date != 0, self.timestamp != 0)
    }
}

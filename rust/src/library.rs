//! The library's functions over slices: the only place where they are declared for Rust, and called. `include/abx.h` has
//! the same list for C, and says what they answer.
//!
//! Why a call is sound. The functions have no precondition but the one that their types state: a slice is a pointer and the number
//! of its elements, and the elements are there for the whole call, unchanged by anyone else where they are read, and nobody
//! else's where they are written. Each function below gets its pointers and lengths from Rust references that it borrows until it returns,
//! and those are just that: they do not overlap where one is `&mut`, and are aligned and not null even where the length is 0. The
//! functions keep no pointer, have no state of their own, do not unwind, and write nothing but bytes and words, of which every value is valid.
//! A call of the writer takes up to 1.6 MB of stack and a query up to 0.6 MB (`include/abx.h` says when), which they touch page by page, so that too
//! small a stack ends in its guard page.

// Nobody calls all of them. A function that is not called is not looked for in the library.
#![allow(dead_code)]

// Not made part of a Rust library, so that one is built without it.
#[link(name = "abx", kind = "static", modifiers = "-bundle")]
extern "C" {}

/// An answer starts out as words that no call gives, so that one that was not written is seen.
const UNWRITTEN: usize = usize::MAX;

/// A slice as C has it: a pointer, then a length.
trait Slice {
    type Pointer;
    fn parts(self) -> (Self::Pointer, usize);
}

impl<T> Slice for &[T] {
    type Pointer = *const T;
    fn parts(self) -> (*const T, usize) {
        (self.as_ptr(), self.len())
    }
}

impl<T> Slice for &mut [T] {
    type Pointer = *mut T;
    fn parts(self) -> (*mut T, usize) {
        (self.as_mut_ptr(), self.len())
    }
}

/// Makes a function of each line, which takes numbers, then slices, and answers as many words as its caller wants: four, or a query
/// seven. In C the answer is a last slice.
macro_rules! library {
    ($(fn $name:ident($($number:ident),*; $($slice:ident: $kind:ty),*);)*) => {$(
        pub(crate) fn $name<const WORDS: usize>(
            $($number: usize,)*
            $($slice: $kind),*
        ) -> [usize; WORDS] {
            extern "C" {
                fn $name(
                    $($number: usize,)*
                    $($slice: <$kind as Slice>::Pointer, _: usize,)*
                    answer: *mut usize,
                    answer_len: usize,
                );
            }
            let mut answer = [UNWRITTEN; WORDS];
            $(let $slice = $slice.parts();)*
            // SAFETY: each pointer and length are those of a reference that lives as long as this function runs, or of `answer`.
            unsafe {
                $name($($number,)* $($slice.0, $slice.1,)* answer.as_mut_ptr(), answer.len());
            }
            answer
        }
    )*};
}

library! {
    fn abx_slice_create(; document: &[u8], pool: &[u32]);
    fn abx_slice_next(at, names; document: &[u8], pool: &mut [u32], rows: &mut [u32]);

    fn abx_find_attribute(at, names; document: &[u8], pool: &mut [u32], rows: &mut [u32], element: &[u8], name: &[u8]);
    fn abx_attributes_of(at, names; document: &[u8], pool: &mut [u32], rows: &mut [u32], element: &[u8]);
    fn abx_find_all_attributes(at, names; document: &[u8], pool: &mut [u32], rows: &mut [u32], element: &[u8], name: &[u8]);
    fn abx_all_attributes_of(at, names; document: &[u8], pool: &mut [u32], rows: &mut [u32], element: &[u8]);

    fn abx_stream_create(; state: &mut [usize], window: &[u8], pool: &[u32], store: &[u8]);
    fn abx_stream_feed(; state: &mut [usize], window: &mut [u8], pool: &[u32], store: &[u8], chunk: &[u8]);
    fn abx_stream_finish(; state: &mut [usize], window: &[u8], pool: &[u32], store: &[u8]);
    fn abx_stream_next(; state: &mut [usize], window: &[u8], pool: &mut [u32], store: &mut [u8], rows: &mut [u32]);

    fn abx_writer_create(; output: &mut [u8], pool: &[u32]);
    fn abx_write_event(written, names; first: &[u8], second: &[u8], rows: &[u32], output: &mut [u8], pool: &mut [u32]);
    fn abx_write_events(written, names; first: &[u8], second: &[u8], rows: &[u32], output: &mut [u8], pool: &mut [u32]);

    fn abx_to_xml(; first: &[u8], second: &[u8], rows: &[u32], output: &mut [u8]);
    fn abx_row_to_xml(row; first: &[u8], second: &[u8], rows: &[u32], output: &mut [u8]);

    fn abx_nested(; first: &[u8], second: &[u8], rows: &[u32]);
}

pub(crate) fn abx_is_utf8(s: &[u8]) -> bool {
    extern "C" {
        // A C bool. Read as a byte, since a Rust bool that is neither 0 nor 1 is undefined.
        fn abx_is_utf8(s: *const u8, s_len: usize) -> u8;
    }
    // SAFETY: the pointer and the length are those of `s`.
    unsafe { abx_is_utf8(s.as_ptr(), s.len()) != 0 }
}

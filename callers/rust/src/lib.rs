//! Safe calls of the type checker of Delta Null modules, which is proved in Rattle (crates/exports).
//!
//! Its functions ask nothing of a caller but what `&` and `&mut` mean: pointers that are not null and aligned, lengths that hold, and
//! no overlap. Each pointer and length below comes from one slice, so Rust's types give all of it; any bytes, words, lengths and
//! numbers may be passed. What each function leaves in the parts lent is said in include/delta_null_type_check.h.
//! A call needs at most 128 KB of stack, less than any thread of the standard library has by default.
use std::error::Error;
use std::fmt;

#[cfg(not(all(target_arch = "x86_64", target_os = "linux")))]
compile_error!("the static library is for x86-64 Linux");

/// Words of a row, of an error, and working words of a name.
pub const ROW_WORDS: usize = 5;
pub const ERROR_WORDS: usize = 8;
pub const NAME_WORDS: usize = 4;

/// The bytes of the longest text of [`messages`].
pub const LONGEST_TEXT: usize = 1 << 20;

const TOO_LARGE: u32 = 65536;
const UNKNOWN: u32 = 65537;

// Nothing compares these declarations with the library; callers/run.sh tries each.
unsafe extern "C" {
    fn delta_null_type_check_module(
        input: *const u8,
        input_length: usize,
        output: *mut u8,
        output_length: usize,
        rows: *mut u32,
        rows_length: usize,
        errors: *mut u32,
        errors_length: usize,
        work: *mut u32,
        work_length: usize,
        row_count: *mut u32,
        error_count: *mut usize,
        place: *mut usize,
    ) -> u32;

    fn delta_null_messages(
        input: *const u8,
        input_length: usize,
        rows: *const u32,
        rows_length: usize,
        row_count: u32,
        errors: *const u32,
        errors_length: usize,
        error_count: usize,
        built_in: *const u8,
        built_in_length: usize,
        work: *mut u32,
        work_length: usize,
        text: *mut u8,
        text_length: usize,
        length: *mut usize,
        place: *mut usize,
    ) -> u32;

    fn delta_null_assignable(
        rows: *const u32,
        rows_length: usize,
        count: u32,
        target: u32,
        source: u32,
        answer: *mut u32,
    ) -> u32;

    fn delta_null_castable(
        rows: *const u32,
        rows_length: usize,
        count: u32,
        source: u32,
        target: u32,
        answer: *mut u32,
        pairs: *mut u64,
    ) -> u32;

    fn delta_null_word_size(rows: *const u32, rows_length: usize, count: u32, n: u32, size: *mut u32) -> u32;
}

/// How many rows and errors a module has.
#[derive(Clone, Copy, Debug, PartialEq, Eq)]
pub struct Counts {
    pub rows: u32,
    pub errors: usize,
}

/// Why a call is refused: a number of the header's `delta_null_refusal`, and the place in the module, or 0. Of 9 the place is the length that
/// the text needs, one more than [`LONGEST_TEXT`] for anything above that.
#[derive(Clone, Copy, Debug, PartialEq, Eq)]
pub struct Refused {
    pub number: u32,
    pub place: usize,
}

impl fmt::Display for Refused {
    fn fmt(&self, f: &mut fmt::Formatter) -> fmt::Result {
        write!(f, "refused {} at {}", self.number, self.place)
    }
}

impl Error for Refused {}

/// Whether a value may be cast, and how many pairs of strips were tried to say so (the header says which).
#[derive(Clone, Copy, Debug, PartialEq, Eq)]
pub struct Cast {
    pub castable: bool,
    pub pairs: u64,
}

/// How many words a type has.
#[derive(Clone, Copy, Debug, PartialEq, Eq)]
pub enum WordSize {
    Words(u32),
    TooLarge,
    Unknown,
}

/// The value of an accepted call.
fn answer<T>(number: u32, place: usize, value: T) -> Result<T, Refused> {
    if number == 0 { Ok(value) } else { Err(Refused { number, place }) }
}

/// Checks a module.
pub fn type_check_module(
    input: &[u8],
    output: &mut [u8],
    rows: &mut [u32],
    errors: &mut [u32],
    work: &mut [u32],
) -> Result<Counts, Refused> {
    let (mut row_count, mut error_count, mut place) = (0, 0, 0);
    // SAFETY: each pointer and length is of one slice; the `&mut` are apart from each other and from the input.
    let number = unsafe {
        delta_null_type_check_module(
            input.as_ptr(),
            input.len(),
            output.as_mut_ptr(),
            output.len(),
            rows.as_mut_ptr(),
            rows.len(),
            errors.as_mut_ptr(),
            errors.len(),
            work.as_mut_ptr(),
            work.len(),
            &mut row_count,
            &mut error_count,
            &mut place,
        )
    };
    answer(number, place, Counts { rows: row_count, errors: error_count })
}

/// Writes the first errors of a module as messages, a line each, over its first rows; `counts` says how many of both. The length of the text.
///
/// `input` is the module as it was read, not the output of its check, which is refused with 2. `built_in` is printed for the type String.
/// `work` has a word a row. The tests are made in this order: 1 to 4 on the module; 8, if a row breaks a rule, or something that a row
/// names or a message reads does not exist; 5, for fewer working words than rows; 9, for a text that is longer than the one lent or than
/// [`LONGEST_TEXT`].
pub fn messages(
    input: &[u8],
    rows: &[u32],
    errors: &[u32],
    counts: Counts,
    built_in: &[u8],
    work: &mut [u32],
    text: &mut [u8],
) -> Result<usize, Refused> {
    let (mut length, mut place) = (0, 0);
    // SAFETY: each pointer and length is of one slice; the `&mut` are apart from each other and from the others.
    let number = unsafe {
        delta_null_messages(
            input.as_ptr(),
            input.len(),
            rows.as_ptr(),
            rows.len(),
            counts.rows,
            errors.as_ptr(),
            errors.len(),
            counts.errors,
            built_in.as_ptr(),
            built_in.len(),
            work.as_mut_ptr(),
            work.len(),
            text.as_mut_ptr(),
            text.len(),
            &mut length,
            &mut place,
        )
    };
    answer(number, place, length)
}

/// Whether a value of the type of row `source` may be assigned to a place of the type of row `target`. The table is the first `count`
/// rows.
pub fn assignable(rows: &[u32], count: u32, target: u32, source: u32) -> Result<bool, Refused> {
    let mut yes = 0;
    // SAFETY: the pointer and the length are of one slice, and `yes` is a number of this function's own.
    let number = unsafe { delta_null_assignable(rows.as_ptr(), rows.len(), count, target, source, &mut yes) };
    answer(number, 0, yes == 1)
}

/// Whether a value of the type of row `source` may be cast to the type of row `target`; if so, both have the same [`word_size`]. The
/// table is the first `count` rows. The time grows with the pairs, which are at most (n + 1) * (m + 1) with n distinct aliases at the top
/// of the source and m at the target's, and exactly so many if the answer is no.
pub fn castable(rows: &[u32], count: u32, source: u32, target: u32) -> Result<Cast, Refused> {
    let (mut yes, mut pairs) = (0, 0);
    // SAFETY: as in `assignable`.
    let number = unsafe { delta_null_castable(rows.as_ptr(), rows.len(), count, source, target, &mut yes, &mut pairs) };
    answer(number, 0, Cast { castable: yes == 1, pairs })
}

/// How many words the type of row `n` has. The table is the first `count` rows.
pub fn word_size(rows: &[u32], count: u32, n: u32) -> Result<WordSize, Refused> {
    let mut size = 0;
    // SAFETY: as in `assignable`.
    let number = unsafe { delta_null_word_size(rows.as_ptr(), rows.len(), count, n, &mut size) };
    let size = match size {
        TOO_LARGE => WordSize::TooLarge,
        UNKNOWN => WordSize::Unknown,
        words => WordSize::Words(words),
    };
    answer(number, 0, size)
}

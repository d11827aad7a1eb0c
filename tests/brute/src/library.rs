//! The exported calls of the library. They are there if it was linked (see build.rs). A new call is declared in
//! `exported!` and gets a safe function below.

pub const ASK_WORK_BYTES: usize = 4096;
/// The longest text that a row has.
pub const LONGEST_TEXT: usize = 3070;

/// Declares the calls, each with what must be linked for it; without that they are functions that say so and end the run.
macro_rules! exported {
    ($($there:ident: fn $call:ident($($argument:ident: $type:ty),*) -> $given:ty;)*) => {
        /// The calls on bare pointers.
        pub mod bare {
            $(
                #[cfg($there)]
                extern "C" {
                    pub fn $call($($argument: $type),*) -> $given;
                }
                /// # Safety
                /// It is never there to be called.
                #[cfg(not($there))]
                pub unsafe extern "C" fn $call($(_: $type),*) -> $given {
                    panic!("the library, or one with this call, is not linked: set ZIMORGAL_LIB_DIR")
                }
            )*
        }
    };
}

exported! {
    linked: fn zimorgal_ask(
        question: *const u8, question_bytes: usize,
        answer: *mut u8, answer_bytes: usize,
        work: *mut u8, work_bytes: usize
    ) -> u64;
    linked: fn zimorgal_row(answer: *const u8, answer_bytes: usize, variable: usize) -> u64;
    linked: fn zimorgal_text(row: *const u8, row_bytes: usize, text: *mut u8, text_bytes: usize) -> u64;
    linked: fn zimorgal_join(a: u32, b: u32) -> u64;
    linked: fn zimorgal_height(a: u32) -> u32;
    reads_text: fn zimorgal_constant(text: *const u8, text_bytes: usize) -> u64;
    judges: fn zimorgal_judge(
        question: *const u8, question_bytes: usize,
        rows: *const u8, rows_bytes: usize
    ) -> u64;
}

pub const fn linked() -> bool {
    cfg!(linked)
}

/// Whether the library that is linked reads tree text; one from before that has no such call.
pub const fn reads_text() -> bool {
    cfg!(reads_text)
}

/// Whether the library that is linked judges rows that are handed over; one from before that has no such call.
pub const fn judges() -> bool {
    cfg!(judges)
}

pub fn ask(question: &[u8], answer: &mut [u8], work: &mut [u8]) -> u64 {
    // Each pointer comes with the length of its slice, and the slices lie apart.
    unsafe {
        bare::zimorgal_ask(
            question.as_ptr(),
            question.len(),
            answer.as_mut_ptr(),
            answer.len(),
            work.as_mut_ptr(),
            work.len(),
        )
    }
}

pub fn row(answer: &[u8], variable: usize) -> u64 {
    // The pointer comes with the length of its slice.
    unsafe { bare::zimorgal_row(answer.as_ptr(), answer.len(), variable) }
}

pub fn text(row: &[u8], text: &mut [u8]) -> u64 {
    // Each pointer comes with the length of its slice, and the slices lie apart.
    unsafe { bare::zimorgal_text(row.as_ptr(), row.len(), text.as_mut_ptr(), text.len()) }
}

pub fn join(a: u32, b: u32) -> u64 {
    // Only numbers are passed.
    unsafe { bare::zimorgal_join(a, b) }
}

pub fn height(a: u32) -> u32 {
    // Only a number is passed.
    unsafe { bare::zimorgal_height(a) }
}

pub fn constant(text: &[u8]) -> u64 {
    // The pointer comes with the length of its slice.
    unsafe { bare::zimorgal_constant(text.as_ptr(), text.len()) }
}

pub fn judge(question: &[u8], rows: &[u8]) -> u64 {
    // Each pointer comes with the length of its slice.
    unsafe { bare::zimorgal_judge(question.as_ptr(), question.len(), rows.as_ptr(), rows.len()) }
}

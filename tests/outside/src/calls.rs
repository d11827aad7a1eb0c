//! The exported calls that take memory, on bare pointers, so that a null pointer can be passed too; and what is
//! printed if one of them crashes.

use crate::memory::Memory;
use brute::library::bare::{
    zimorgal_ask, zimorgal_constant, zimorgal_judge, zimorgal_row, zimorgal_text,
};
use std::cell::Cell;
use std::ffi::{c_int, c_void};

extern "C" {
    fn signal(number: c_int, handler: extern "C" fn(c_int)) -> usize;
    fn write(file: c_int, bytes: *const c_void, count: usize) -> isize;
    fn _exit(status: c_int) -> !;
}

pub fn ask(question: &mut dyn Memory, answer: &mut dyn Memory, work: &mut dyn Memory) -> u64 {
    note("ask", question);
    // Each pointer comes with the length of its memory, and no two of them share a byte.
    unsafe {
        zimorgal_ask(
            question.pointer(),
            question.length(),
            answer.pointer(),
            answer.length(),
            work.pointer(),
            work.length(),
        )
    }
}

pub fn row(answer: &mut dyn Memory, variable: usize) -> u64 {
    note("row", answer);
    // The pointer comes with the length of its memory.
    unsafe { zimorgal_row(answer.pointer(), answer.length(), variable) }
}

pub fn text(row: &mut dyn Memory, text: &mut dyn Memory) -> u64 {
    note("text", row);
    // Each pointer comes with the length of its memory, and the two share no byte.
    unsafe { zimorgal_text(row.pointer(), row.length(), text.pointer(), text.length()) }
}

pub fn constant(text: &mut dyn Memory) -> u64 {
    note("constant", text);
    // The pointer comes with the length of its memory.
    unsafe { zimorgal_constant(text.pointer(), text.length()) }
}

pub fn judge(question: &mut dyn Memory, rows: &mut dyn Memory) -> u64 {
    note("judge", question);
    // Each pointer comes with the length of its memory, and the two share no byte.
    unsafe {
        zimorgal_judge(
            question.pointer(),
            question.length(),
            rows.pointer(),
            rows.length(),
        )
    }
}

/// How many bytes of what a call reads are printed if it crashes.
const MOST_PRINTED: usize = 1500;

/// The call that a thread is in: its name and the bytes it reads.
#[derive(Clone, Copy)]
struct Note {
    call: &'static str,
    bytes: *const u8,
    count: usize,
}

thread_local! {
    static NOTE: Cell<Note> = const {
        Cell::new(Note { call: "none", bytes: std::ptr::null(), count: 0 })
    };
}

fn note(call: &'static str, read: &mut dyn Memory) {
    let (bytes, count) = (read.pointer().cast_const(), read.length());
    NOTE.set(Note { call, bytes, count });
}

/// From here on a crash prints the call and the bytes it was to read, then a last line with one failure.
pub fn tell_of_crashes() {
    const SIGILL: c_int = 4;
    const SIGABRT: c_int = 6;
    const SIGBUS: c_int = 7;
    const SIGFPE: c_int = 8;
    const SIGSEGV: c_int = 11;
    for number in [SIGILL, SIGABRT, SIGBUS, SIGFPE, SIGSEGV] {
        // The handler only reads its thread's note, writes and ends the process.
        unsafe { signal(number, crashed) };
    }
}

extern "C" fn crashed(number: c_int) {
    let note = NOTE.get();
    print("FAILED: crashed with signal ");
    print_digits(number as usize, 10);
    print(" in the call ");
    print(note.call);
    print(" on ");
    for at in 0..note.count.min(MOST_PRINTED) {
        // The noted bytes are lent until the call returns.
        let byte = unsafe { *note.bytes.add(at) };
        print_digits(usize::from(byte >> 4), 16);
        print_digits(usize::from(byte & 15), 16);
        print(" ");
    }
    print("\n0 passed, 1 failed\n");
    // Nothing else may run after a crash.
    unsafe { _exit(1) }
}

fn print_digits(number: usize, base: usize) {
    if number >= base {
        print_digits(number / base, base);
    }
    let digit = number % base;
    print(&"0123456789ABCDEF"[digit..digit + 1]);
}

/// To standard output without a buffer: a handler may not wait for a lock or ask for memory.
fn print(text: &str) {
    // The pointer comes with its length.
    unsafe { write(1, text.as_ptr().cast(), text.len()) };
}

//! The calls of `include/tusqirma.h` over slices, whose lengths, alignment and borrows are all that those calls ask for.
//!
//! Each returns the number of a refusal, or 0, and writes to the lent buffers what the header says. [`Session`] and
//! [`listing`](crate::listing()) bring buffers of their own.
//!
//! [`Session`]: crate::Session
#![allow(unsafe_code)]

#[rustfmt::skip]
mod c {
    extern "C" {
        pub fn tusqirma_session_words() -> usize;
        pub fn tusqirma_load(file: *const u8, file_len: usize, session: *mut u64, session_len: usize) -> u64;
        pub fn tusqirma_read_blif(text: *const u8, text_len: usize, session: *mut u64, session_len: usize) -> u64;
        pub fn tusqirma_tables(session: *const u64, session_len: usize, gate: usize, out: *mut u64, out_len: usize) -> u64;
        pub fn tusqirma_all_tables(session: *const u64, session_len: usize, out: *mut u64, out_len: usize) -> u64;
        pub fn tusqirma_pattern_sets(session: *const u64, session_len: usize, words: *mut u64, words_len: usize) -> u64;
        pub fn tusqirma_hidden(session: *const u64, session_len: usize, out: *mut u64, out_len: usize) -> u64;
        pub fn tusqirma_verdict(session: *const u64, session_len: usize, gates: *const u64, gates_len: usize, tables: *const u64, tables_len: usize, out: *mut u64, out_len: usize) -> u64;
        pub fn tusqirma_exchange(session: *mut u64, session_len: usize, gate: usize, table: u64, out: *mut u64, out_len: usize) -> u64;
        pub fn tusqirma_write(session: *const u64, session_len: usize, file: *mut u8, file_len: usize, out: *mut u64, out_len: usize) -> u64;
        pub fn tusqirma_write_blif(session: *const u64, session_len: usize, text: *mut u8, text_len: usize, out: *mut u64, out_len: usize) -> u64;
        pub fn tusqirma_listing(file: *const u8, file_len: usize, text: *mut u8, text_len: usize, out: *mut u64, out_len: usize) -> u64;
    }
}

pub fn session_words() -> usize {
    unsafe { c::tusqirma_session_words() }
}

pub fn load(file: &[u8], session: &mut [u64]) -> u64 {
    let (f, s) = (file.as_ptr(), session.as_mut_ptr());
    unsafe { c::tusqirma_load(f, file.len(), s, session.len()) }
}

pub fn read_blif(text: &[u8], session: &mut [u64]) -> u64 {
    let (t, s) = (text.as_ptr(), session.as_mut_ptr());
    unsafe { c::tusqirma_read_blif(t, text.len(), s, session.len()) }
}

pub fn tables(session: &[u64], gate: usize, out: &mut [u64]) -> u64 {
    let (s, o) = (session.as_ptr(), out.as_mut_ptr());
    unsafe { c::tusqirma_tables(s, session.len(), gate, o, out.len()) }
}

pub fn all_tables(session: &[u64], out: &mut [u64]) -> u64 {
    let (s, o) = (session.as_ptr(), out.as_mut_ptr());
    unsafe { c::tusqirma_all_tables(s, session.len(), o, out.len()) }
}

pub fn pattern_sets(session: &[u64], words: &mut [u64]) -> u64 {
    let (s, w) = (session.as_ptr(), words.as_mut_ptr());
    unsafe { c::tusqirma_pattern_sets(s, session.len(), w, words.len()) }
}

pub fn hidden(session: &[u64], out: &mut [u64]) -> u64 {
    let (s, o) = (session.as_ptr(), out.as_mut_ptr());
    unsafe { c::tusqirma_hidden(s, session.len(), o, out.len()) }
}

pub fn verdict(session: &[u64], gates: &[u64], tables: &[u64], out: &mut [u64]) -> u64 {
    let (s, o) = (session.as_ptr(), out.as_mut_ptr());
    let (g, t) = (gates.as_ptr(), tables.as_ptr());
    unsafe {
        c::tusqirma_verdict(
            s,
            session.len(),
            g,
            gates.len(),
            t,
            tables.len(),
            o,
            out.len(),
        )
    }
}

pub fn exchange(session: &mut [u64], gate: usize, table: u64, out: &mut [u64]) -> u64 {
    let (s, o) = (session.as_mut_ptr(), out.as_mut_ptr());
    unsafe { c::tusqirma_exchange(s, session.len(), gate, table, o, out.len()) }
}

pub fn write(session: &[u64], file: &mut [u8], out: &mut [u64]) -> u64 {
    let (s, f, o) = (session.as_ptr(), file.as_mut_ptr(), out.as_mut_ptr());
    unsafe { c::tusqirma_write(s, session.len(), f, file.len(), o, out.len()) }
}

pub fn write_blif(session: &[u64], text: &mut [u8], out: &mut [u64]) -> u64 {
    let (s, t, o) = (session.as_ptr(), text.as_mut_ptr(), out.as_mut_ptr());
    unsafe { c::tusqirma_write_blif(s, session.len(), t, text.len(), o, out.len()) }
}

pub fn listing(file: &[u8], text: &mut [u8], out: &mut [u64]) -> u64 {
    let (f, t, o) = (file.as_ptr(), text.as_mut_ptr(), out.as_mut_ptr());
    unsafe { c::tusqirma_listing(f, file.len(), t, text.len(), o, out.len()) }
}

//! The library's functions, on lent bytes. The one module with `unsafe` in it.
//!
//! include/glavorint.h asks of a caller that every pointer is to as many bytes as the length beside it says and isn't null, that the pieces lent to
//! one call don't overlap, and that nobody else uses them until it returns. Each is so of slices, shared or `&mut`, whatever they hold.

extern "C" {
    fn glavorint_edition() -> u32;
    fn glavorint_request(record: *const u8, record_length: usize) -> u64;
    fn glavorint_answer(record: *mut u8, record_length: usize, byte: u8) -> u8;
    fn glavorint_run(
        record: *mut u8,
        record_length: usize,
        memory: *mut u8,
        memory_length: usize,
        budget: u32,
    ) -> u64;
    fn glavorint_trace(
        record: *mut u8,
        record_length: usize,
        memory: *mut u8,
        memory_length: usize,
        text: *mut u8,
        text_length: usize,
        before: u32,
        budget: u32,
    ) -> u64;
    fn glavorint_session_request(session: *const u8, session_length: usize) -> u64;
    fn glavorint_session_answer(session: *mut u8, session_length: usize, byte: u8) -> u8;
    fn glavorint_session_cycle(
        session: *mut u8,
        session_length: usize,
        memory: *mut u8,
        memory_length: usize,
    ) -> u8;
    fn glavorint_session_cycles(
        session: *mut u8,
        session_length: usize,
        memory: *mut u8,
        memory_length: usize,
        count: u32,
    ) -> u64;
}

pub fn edition() -> u32 {
    // SAFETY: it takes nothing and answers a number.
    unsafe { glavorint_edition() }
}

pub fn request(record: &[u8]) -> u64 {
    // SAFETY: a slice's pointer is to its length of bytes; they are read alone.
    unsafe { glavorint_request(record.as_ptr(), record.len()) }
}

pub fn answer(record: &mut [u8], byte: u8) -> u8 {
    // SAFETY: a slice's pointer is to its length of bytes, and `&mut` has no other user.
    unsafe { glavorint_answer(record.as_mut_ptr(), record.len(), byte) }
}

pub fn run(record: &mut [u8], memory: &mut [u8], budget: u32) -> u64 {
    // SAFETY: as for `answer`; two `&mut` don't overlap.
    unsafe {
        glavorint_run(
            record.as_mut_ptr(),
            record.len(),
            memory.as_mut_ptr(),
            memory.len(),
            budget,
        )
    }
}

pub fn trace(
    record: &mut [u8],
    memory: &mut [u8],
    text: &mut [u8],
    before: u32,
    budget: u32,
) -> u64 {
    // SAFETY: as for `run`, of three.
    unsafe {
        glavorint_trace(
            record.as_mut_ptr(),
            record.len(),
            memory.as_mut_ptr(),
            memory.len(),
            text.as_mut_ptr(),
            text.len(),
            before,
            budget,
        )
    }
}

pub fn session_request(session: &[u8]) -> u64 {
    // SAFETY: as for `request`.
    unsafe { glavorint_session_request(session.as_ptr(), session.len()) }
}

pub fn session_answer(session: &mut [u8], byte: u8) -> u8 {
    // SAFETY: as for `answer`.
    unsafe { glavorint_session_answer(session.as_mut_ptr(), session.len(), byte) }
}

pub fn session_cycle(session: &mut [u8], memory: &mut [u8]) -> u8 {
    // SAFETY: as for `run`.
    unsafe {
        glavorint_session_cycle(
            session.as_mut_ptr(),
            session.len(),
            memory.as_mut_ptr(),
            memory.len(),
        )
    }
}

pub fn session_cycles(session: &mut [u8], memory: &mut [u8], count: u32) -> u64 {
    // SAFETY: as for `run`.
    unsafe {
        glavorint_session_cycles(
            session.as_mut_ptr(),
            session.len(),
            memory.as_mut_ptr(),
            memory.len(),
            count,
        )
    }
}

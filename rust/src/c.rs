//! The C interface, as `include/zovunelith.h` declares it.
//!
//! Each function takes any values of its numbers. A pointer goes with the number of its elements; what is written
//! overlaps nothing else, as the borrows of a Rust caller see to.

use crate::{Elem, Refusal};

extern "C" {
    pub fn zov_field_sum(m: u32, a: u32, b: u32) -> i32;
    pub fn zov_field_product(m: u32, a: u32, b: u32) -> i32;
    pub fn zov_field_inverse(m: u32, a: u32) -> i32;
    pub fn zov_block_sum(
        m: u32,
        a: *const Elem,
        a_length: usize,
        b: *const Elem,
        b_length: usize,
        out: *mut Elem,
        out_length: usize,
    ) -> i32;
    pub fn zov_block_product(
        m: u32,
        a: *const Elem,
        a_length: usize,
        b: *const Elem,
        b_length: usize,
        out: *mut Elem,
        out_length: usize,
    ) -> i32;
    pub fn zov_block_inverse(m: u32, a: *const Elem, a_length: usize, out: *mut Elem, out_length: usize) -> i32;
    pub fn zov_formula(
        m: u32,
        text: *const u8,
        text_length: usize,
        a: *const Elem,
        a_length: usize,
        b: *const Elem,
        b_length: usize,
        c: *const Elem,
        c_length: usize,
        d: *const Elem,
        d_length: usize,
        out: *mut Elem,
        out_length: usize,
    ) -> i32;
    pub fn zov_check(
        m: u32,
        n: u32,
        t: u32,
        omega: u32,
        h: *const Elem,
        h_length: usize,
        hidden: *const u8,
        hidden_length: usize,
        roots: *mut Elem,
        roots_length: usize,
        support: *mut Elem,
        support_length: usize,
    ) -> i32;
    pub fn zov_same(
        m1: u32,
        n1: u32,
        t1: u32,
        omega1: u32,
        h1: *const Elem,
        h1_length: usize,
        hidden1: *const u8,
        hidden1_length: usize,
        m2: u32,
        n2: u32,
        t2: u32,
        omega2: u32,
        h2: *const Elem,
        h2_length: usize,
        hidden2: *const u8,
        hidden2_length: usize,
    ) -> i32;
    pub fn zov_essence(m: u32, h: *const Elem, h_length: usize, essence: *mut Elem, essence_length: usize) -> i32;
    pub fn zov_signature(m: u32, essence: *const Elem, essence_length: usize, h: *mut Elem, h_length: usize) -> i32;
    pub fn zov_roles(
        m: u32,
        n: u32,
        t: u32,
        omega: u32,
        h: *const Elem,
        h_length: usize,
        hidden: *const u8,
        hidden_length: usize,
        roles: *mut u8,
        roles_length: usize,
    ) -> i32;
    pub fn zov_syndrome(
        m: u32,
        n: u32,
        t: u32,
        omega: u32,
        h: *const Elem,
        h_length: usize,
        hidden: *const u8,
        hidden_length: usize,
        word: *const u8,
        word_length: usize,
        out: *mut Elem,
        out_length: usize,
    ) -> i32;
    pub fn zov_encode(
        m: u32,
        n: u32,
        t: u32,
        omega: u32,
        h: *const Elem,
        h_length: usize,
        hidden: *const u8,
        hidden_length: usize,
        message: *const u8,
        message_length: usize,
        word: *mut u8,
        word_length: usize,
    ) -> i32;
    pub fn zov_message(
        m: u32,
        n: u32,
        t: u32,
        omega: u32,
        h: *const Elem,
        h_length: usize,
        hidden: *const u8,
        hidden_length: usize,
        word: *const u8,
        word_length: usize,
        message: *mut u8,
        message_length: usize,
    ) -> i32;
    pub fn zov_repair(
        m: u32,
        n: u32,
        t: u32,
        omega: u32,
        h: *const Elem,
        h_length: usize,
        hidden: *const u8,
        hidden_length: usize,
        received: *const u8,
        received_length: usize,
        repaired: *mut u8,
        repaired_length: usize,
    ) -> i32;
    pub fn zov_write_row(
        m: u32,
        n: u32,
        t: u32,
        omega: u32,
        h: *const Elem,
        h_length: usize,
        hidden: *const u8,
        hidden_length: usize,
        gear: u32,
        lamp: u32,
        word: *mut u8,
        word_length: usize,
    ) -> i32;
    pub fn zov_read_row(
        m: u32,
        n: u32,
        t: u32,
        omega: u32,
        h: *const Elem,
        h_length: usize,
        hidden: *const u8,
        hidden_length: usize,
        received: *const u8,
        received_length: usize,
        repaired: *mut u8,
        repaired_length: usize,
    ) -> i32;
    pub fn zov_ride(
        m: u32,
        n: u32,
        t: u32,
        omega: u32,
        h: *const Elem,
        h_length: usize,
        hidden: *const u8,
        hidden_length: usize,
        gears: *const u8,
        gears_length: usize,
        lamps: *const u8,
        lamps_length: usize,
        turned: *const u8,
        turned_length: usize,
        counts: *mut u32,
        counts_length: usize,
    ) -> i32;
    pub fn zov_senders_start(
        m: u32,
        n: u32,
        t: u32,
        omega: u32,
        h: *const Elem,
        h_length: usize,
        hidden: *const u8,
        hidden_length: usize,
        senders: u32,
        repairs: u32,
        waiting: *mut u8,
        waiting_length: usize,
        next: *mut u32,
        next_length: usize,
    ) -> i32;
    pub fn zov_senders_offer(
        m: u32,
        n: u32,
        t: u32,
        omega: u32,
        h: *const Elem,
        h_length: usize,
        hidden: *const u8,
        hidden_length: usize,
        senders: u32,
        repairs: u32,
        sender: u32,
        word: *const u8,
        word_length: usize,
        waiting: *mut u8,
        waiting_length: usize,
        words: *mut u8,
        words_length: usize,
    ) -> i32;
    pub fn zov_senders_round(
        m: u32,
        n: u32,
        t: u32,
        omega: u32,
        h: *const Elem,
        h_length: usize,
        hidden: *const u8,
        hidden_length: usize,
        senders: u32,
        repairs: u32,
        waiting: *mut u8,
        waiting_length: usize,
        words: *const u8,
        words_length: usize,
        next: *mut u32,
        next_length: usize,
        answers: *mut i32,
        answers_length: usize,
        handed: *mut u8,
        handed_length: usize,
    ) -> i32;
    pub fn zov_selection_roles(
        m: u32,
        n: u32,
        t: u32,
        omega: u32,
        h: *const Elem,
        h_length: usize,
        blocks: *const u32,
        blocks_length: usize,
        shifts: *const u32,
        shifts_length: usize,
        hidden: *const u8,
        hidden_length: usize,
        roles: *mut u8,
        roles_length: usize,
    ) -> i32;
    pub fn zov_selection_syndrome(
        m: u32,
        n: u32,
        t: u32,
        omega: u32,
        h: *const Elem,
        h_length: usize,
        blocks: *const u32,
        blocks_length: usize,
        shifts: *const u32,
        shifts_length: usize,
        hidden: *const u8,
        hidden_length: usize,
        word: *const u8,
        word_length: usize,
        out: *mut Elem,
        out_length: usize,
    ) -> i32;
    pub fn zov_selection_encode(
        m: u32,
        n: u32,
        t: u32,
        omega: u32,
        h: *const Elem,
        h_length: usize,
        blocks: *const u32,
        blocks_length: usize,
        shifts: *const u32,
        shifts_length: usize,
        hidden: *const u8,
        hidden_length: usize,
        message: *const u8,
        message_length: usize,
        word: *mut u8,
        word_length: usize,
    ) -> i32;
    pub fn zov_selection_message(
        m: u32,
        n: u32,
        t: u32,
        omega: u32,
        h: *const Elem,
        h_length: usize,
        blocks: *const u32,
        blocks_length: usize,
        shifts: *const u32,
        shifts_length: usize,
        hidden: *const u8,
        hidden_length: usize,
        word: *const u8,
        word_length: usize,
        message: *mut u8,
        message_length: usize,
    ) -> i32;
    pub fn zov_selection_repair(
        m: u32,
        n: u32,
        t: u32,
        omega: u32,
        h: *const Elem,
        h_length: usize,
        blocks: *const u32,
        blocks_length: usize,
        shifts: *const u32,
        shifts_length: usize,
        hidden: *const u8,
        hidden_length: usize,
        received: *const u8,
        received_length: usize,
        repaired: *mut u8,
        repaired_length: usize,
    ) -> i32;
    pub fn zov_selection_write_row(
        m: u32,
        n: u32,
        t: u32,
        omega: u32,
        h: *const Elem,
        h_length: usize,
        blocks: *const u32,
        blocks_length: usize,
        shifts: *const u32,
        shifts_length: usize,
        hidden: *const u8,
        hidden_length: usize,
        gear: u32,
        lamp: u32,
        word: *mut u8,
        word_length: usize,
    ) -> i32;
    pub fn zov_selection_read_row(
        m: u32,
        n: u32,
        t: u32,
        omega: u32,
        h: *const Elem,
        h_length: usize,
        blocks: *const u32,
        blocks_length: usize,
        shifts: *const u32,
        shifts_length: usize,
        hidden: *const u8,
        hidden_length: usize,
        received: *const u8,
        received_length: usize,
        repaired: *mut u8,
        repaired_length: usize,
    ) -> i32;
    pub fn zov_sheet(text: *const u8, text_length: usize, out: *mut u8, out_length: usize) -> i32;
}

/// The value that a function returned, or its refusal.
pub fn answer(returned: i32) -> Result<u32, Refusal> {
    u32::try_from(returned).map_err(|_| Refusal::of(returned.unsigned_abs()))
}

/// The same for a function whose value is always 0.
pub fn done(returned: i32) -> Result<(), Refusal> {
    let value = answer(returned)?;
    debug_assert_eq!(value, 0);
    Ok(())
}

/// Calls a function of the library for a code. Further arguments are numbers, or a slice as its pointer and its length.
macro_rules! call {
    ($code:expr, $function:ident $(, $argument:expr)*) => {
        $crate::c::call_without_marks!($code, $function, $code.hidden.as_ptr(), $code.hidden.len() $(, $argument)*)
    };
}

/// The same for a function that does not take the code's own marks.
macro_rules! call_without_marks {
    ($code:expr, $function:ident $(, $argument:expr)*) => {
        // SAFETY: each pointer goes with the length of its slice, and no slice that is written overlaps another: it is
        // borrowed as mutable.
        unsafe {
            c::$function($code.m, $code.n, $code.t, $code.omega, $code.h.as_ptr(), $code.h.len() $(, $argument)*)
        }
    };
}

pub(crate) use {call, call_without_marks};

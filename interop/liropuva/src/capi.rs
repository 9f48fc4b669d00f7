//! The C interface of the proved library. All `unsafe` of the crate is here.
//!
//! Each sheet and room goes over as a pointer and a length in words. A slice's
//! pointer is never null and always aligned, also when the slice is empty.
//! Sheets are only read, so it does no harm when a caller lends one slice as
//! two of them; rooms and answers are unique borrows and overlap nothing.

use crate::{Answer, ReplayAnswer, State};

/// Answers start from this, so that a cell the library failed to write would
/// not pass for an answer.
const UNWRITTEN: u32 = u32::MAX;

unsafe extern "C" {
    fn hgn_check_shop(shop: *const u16, shop_words: usize, answer: *mut [u32; 2]);

    fn hgn_check_order(
        shop: *const u16,
        shop_words: usize,
        order: *const u16,
        order_words: usize,
        answer: *mut [u32; 2],
    );

    fn hgn_check_trace(
        shop: *const u16,
        shop_words: usize,
        order: *const u16,
        order_words: usize,
        trace: *const u16,
        trace_words: usize,
        answer: *mut [u32; 2],
    );

    fn hgn_replay_2(
        shop: *const u16,
        shop_words: usize,
        order: *const u16,
        order_words: usize,
        trace: *const u16,
        trace_words: usize,
        plan: *mut u16,
        plan_words: usize,
        answer: *mut [u32; 5],
        atoms: *mut [u8; 256],
    );

    fn hgn_search_2(
        shop: *const u16,
        shop_words: usize,
        order: *const u16,
        order_words: usize,
        depth: u32,
        room: *mut u16,
        room_words: usize,
        answer: *mut [u32; 2],
    );

    fn hgn_join(
        shop: *const u16,
        shop_words: usize,
        first: *const u16,
        first_words: usize,
        second: *const u16,
        second_words: usize,
        room: *mut u16,
        room_words: usize,
        answer: *mut [u32; 2],
    );
}

fn answer([number, place]: [u32; 2]) -> Answer {
    Answer { number, place }
}

pub(crate) fn check_shop(shop: &[u16]) -> Answer {
    let mut cells = [UNWRITTEN; 2];
    // SAFETY: the pointer and length are those of a live slice, which is only
    // read; `cells` is two words of our own, borrowed for the call.
    unsafe { hgn_check_shop(shop.as_ptr(), shop.len(), &mut cells) };
    answer(cells)
}

pub(crate) fn check_order(shop: &[u16], order: &[u16]) -> Answer {
    let mut cells = [UNWRITTEN; 2];
    // SAFETY: both pointers and lengths are those of live slices, which are
    // only read; `cells` is two words of our own, borrowed for the call.
    unsafe {
        hgn_check_order(
            shop.as_ptr(),
            shop.len(),
            order.as_ptr(),
            order.len(),
            &mut cells,
        );
    }
    answer(cells)
}

pub(crate) fn check_trace(shop: &[u16], order: &[u16], trace: &[u16]) -> Answer {
    let mut cells = [UNWRITTEN; 2];
    // SAFETY: all pointers and lengths are those of live slices, which are only
    // read; `cells` is two words of our own, borrowed for the call.
    unsafe {
        hgn_check_trace(
            shop.as_ptr(),
            shop.len(),
            order.as_ptr(),
            order.len(),
            trace.as_ptr(),
            trace.len(),
            &mut cells,
        );
    }
    answer(cells)
}

pub(crate) fn replay(shop: &[u16], order: &[u16], trace: &[u16], plan: &mut [u16]) -> ReplayAnswer {
    let mut cells = [UNWRITTEN; 5];
    let mut atoms = [u8::MAX; 256];
    // SAFETY: the sheets' pointers and lengths are those of live slices, which
    // are only read; those of `plan` are of a slice lent to us alone; `cells`
    // and `atoms` are arrays of our own of the sizes the call writes.
    unsafe {
        hgn_replay_2(
            shop.as_ptr(),
            shop.len(),
            order.as_ptr(),
            order.len(),
            trace.as_ptr(),
            trace.len(),
            plan.as_mut_ptr(),
            plan.len(),
            &mut cells,
            &mut atoms,
        );
    }
    let [number, place, plan_count, cost, atom] = cells;
    ReplayAnswer {
        number,
        place,
        plan_count,
        cost,
        atom,
        state: State::from_bytes(&atoms),
    }
}

pub(crate) fn search(shop: &[u16], order: &[u16], depth: u32, room: &mut [u16]) -> Answer {
    let mut cells = [UNWRITTEN; 2];
    // SAFETY: the sheets' pointers and lengths are those of live slices, which
    // are only read; those of `room` are of a slice lent to us alone; `cells`
    // is two words of our own, borrowed for the call.
    unsafe {
        hgn_search_2(
            shop.as_ptr(),
            shop.len(),
            order.as_ptr(),
            order.len(),
            depth,
            room.as_mut_ptr(),
            room.len(),
            &mut cells,
        );
    }
    answer(cells)
}

pub(crate) fn join(shop: &[u16], first: &[u16], second: &[u16], room: &mut [u16]) -> Answer {
    let mut cells = [UNWRITTEN; 2];
    // SAFETY: the sheets' pointers and lengths are those of live slices, which
    // are only read; those of `room` are of a slice lent to us alone; `cells`
    // is two words of our own, borrowed for the call.
    unsafe {
        hgn_join(
            shop.as_ptr(),
            shop.len(),
            first.as_ptr(),
            first.len(),
            second.as_ptr(),
            second.len(),
            room.as_mut_ptr(),
            room.len(),
            &mut cells,
        );
    }
    answer(cells)
}

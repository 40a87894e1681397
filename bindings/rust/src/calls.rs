//! The archive's calls as include/salenduro.h declares them, and a safe function over each that answers the call's number:
//! all the unsafe code of this crate.
//!
//! Why the calls are sound. The archive takes every number and every content of the buffers, keeps no pointer, and asks only
//! that each pointer is to as many entries as the length after it says, and that no two buffers of a call overlap. Each
//! pointer here is a live slice's own, with that slice's length after it. A buffer that a call writes comes from a `&mut`, so
//! that nothing overlaps it and no other thread uses it; one that comes from a `&` stands behind a const pointer and is only
//! read. The lists of `Buffers` are allocations of their own, and its head is a field.

use crate::buffers::Buffers;

/// The archive's answer to a plan where there is no way.
pub const NO_WAY: u32 = 65_535;

#[rustfmt::skip] // each buffer with its length, as in the header
extern "C" {
    fn salenduro_report(record: *mut u8, length: usize, cell: u32) -> u32;
    fn salenduro_plan(record: *mut u8, length: usize) -> u32;
    fn salenduro_move(record: *mut u8, length: usize) -> u32;

    fn salenduro_buffers_layout(
        width: usize, height: usize, start: usize, goal: usize,
        head: *mut usize, head_length: usize, ground: *mut u8, ground_length: usize,
        learned: *mut u16, learned_length: usize, link: *mut u8, link_length: usize,
    ) -> u32;
    fn salenduro_buffers_report(
        head: *const usize, head_length: usize, ground: *mut u8, ground_length: usize,
        learned: *const u16, learned_length: usize, link: *mut u8, link_length: usize,
        cell: usize,
    ) -> u32;
    fn salenduro_buffers_plan(
        head: *mut usize, head_length: usize, ground: *const u8, ground_length: usize,
        learned: *mut u16, learned_length: usize, link: *mut u8, link_length: usize,
        mark: *mut u8, mark_length: usize, cost: *mut u16, cost_length: usize, trail: *mut u8, trail_length: usize,
    ) -> u32;
    fn salenduro_buffers_move(
        head: *mut usize, head_length: usize, ground: *const u8, ground_length: usize,
        learned: *const u16, learned_length: usize, link: *mut u8, link_length: usize,
    ) -> u32;
    fn salenduro_buffers_list(
        head: *const usize, head_length: usize, ground: *const u8, ground_length: usize,
        learned: *const u16, learned_length: usize, link: *const u8, link_length: usize,
        list: *mut u16, list_length: usize,
    ) -> u32;
    fn salenduro_buffers_question(
        head: *const usize, head_length: usize, ground: *const u8, ground_length: usize,
        learned: *const u16, learned_length: usize, link: *const u8, link_length: usize,
        list: *const u16, list_length: usize,
    ) -> u32;
    fn salenduro_buffers_save(
        head: *const usize, head_length: usize, ground: *const u8, ground_length: usize,
        learned: *const u16, learned_length: usize, link: *const u8, link_length: usize,
        bytes: *mut u8, bytes_length: usize,
    ) -> u32;
    fn salenduro_buffers_load(
        bytes: *const u8, bytes_length: usize,
        head: *mut usize, head_length: usize, ground: *mut u8, ground_length: usize,
        learned: *mut u16, learned_length: usize, link: *mut u8, link_length: usize,
    ) -> u32;
}

pub fn record_report(record: &mut [u8], cell: u32) -> u32 {
    // SAFETY: the one buffer is a live slice, lent to be written
    unsafe { salenduro_report(record.as_mut_ptr(), record.len(), cell) }
}

pub fn record_plan(record: &mut [u8]) -> u32 {
    // SAFETY: the one buffer is a live slice, lent to be written
    unsafe { salenduro_plan(record.as_mut_ptr(), record.len()) }
}

pub fn record_move(record: &mut [u8]) -> u32 {
    // SAFETY: the one buffer is a live slice, lent to be written
    unsafe { salenduro_move(record.as_mut_ptr(), record.len()) }
}

#[rustfmt::skip] // as above
impl Buffers {
    pub fn layout(&mut self, width: usize, height: usize, start: usize, goal: usize) -> u32 {
        let Buffers { head, ground, learned, link, .. } = self;
        // SAFETY: four fields, borrowed to be written, each with its own length
        unsafe {
            salenduro_buffers_layout(
                width, height, start, goal,
                head.as_mut_ptr(), head.len(), ground.as_mut_ptr(), ground.len(),
                learned.as_mut_ptr(), learned.len(), link.as_mut_ptr(), link.len(),
            )
        }
    }

    pub fn report(&mut self, cell: usize) -> u32 {
        let Buffers { head, ground, learned, link, .. } = self;
        // SAFETY: four fields, each with its own length; the head and learned are only read
        unsafe {
            salenduro_buffers_report(
                head.as_ptr(), head.len(), ground.as_mut_ptr(), ground.len(),
                learned.as_ptr(), learned.len(), link.as_mut_ptr(), link.len(),
                cell,
            )
        }
    }

    pub fn plan(&mut self) -> u32 {
        let Buffers { head, ground, learned, link, mark, cost, trail } = self;
        // SAFETY: seven fields, each with its own length; ground is only read
        unsafe {
            salenduro_buffers_plan(
                head.as_mut_ptr(), head.len(), ground.as_ptr(), ground.len(),
                learned.as_mut_ptr(), learned.len(), link.as_mut_ptr(), link.len(),
                mark.as_mut_ptr(), mark.len(), cost.as_mut_ptr(), cost.len(), trail.as_mut_ptr(), trail.len(),
            )
        }
    }

    pub fn advance(&mut self) -> u32 {
        let Buffers { head, ground, learned, link, .. } = self;
        // SAFETY: four fields, each with its own length; ground and learned are only read
        unsafe {
            salenduro_buffers_move(
                head.as_mut_ptr(), head.len(), ground.as_ptr(), ground.len(),
                learned.as_ptr(), learned.len(), link.as_mut_ptr(), link.len(),
            )
        }
    }

    pub fn list(&self, list: &mut [u16]) -> u32 {
        let Buffers { head, ground, learned, link, .. } = self;
        // SAFETY: four fields that are only read, each with its own length, and a live slice lent to be written
        unsafe {
            salenduro_buffers_list(
                head.as_ptr(), head.len(), ground.as_ptr(), ground.len(),
                learned.as_ptr(), learned.len(), link.as_ptr(), link.len(),
                list.as_mut_ptr(), list.len(),
            )
        }
    }

    /// Whether a list of `room` entries would be refused, and why: the bare number, or 0. The list is this function's own,
    /// since one lent to be read could be a part of `learned`, and overlap it.
    pub fn question(&self, room: usize) -> u32 {
        let Buffers { head, ground, learned, link, .. } = self;
        let list = vec![0_u16; room];
        // SAFETY: four fields and a list of its own, each with its own length; all are only read
        unsafe {
            salenduro_buffers_question(
                head.as_ptr(), head.len(), ground.as_ptr(), ground.len(),
                learned.as_ptr(), learned.len(), link.as_ptr(), link.len(),
                list.as_ptr(), list.len(),
            )
        }
    }

    pub fn save(&self, bytes: &mut [u8]) -> u32 {
        let Buffers { head, ground, learned, link, .. } = self;
        // SAFETY: four fields that are only read, each with its own length, and a live slice lent to be written
        unsafe {
            salenduro_buffers_save(
                head.as_ptr(), head.len(), ground.as_ptr(), ground.len(),
                learned.as_ptr(), learned.len(), link.as_ptr(), link.len(),
                bytes.as_mut_ptr(), bytes.len(),
            )
        }
    }

    pub fn load(&mut self, bytes: &[u8]) -> u32 {
        let Buffers { head, ground, learned, link, .. } = self;
        // SAFETY: a live slice that is only read, and four fields borrowed to be written, each with its own length
        unsafe {
            salenduro_buffers_load(
                bytes.as_ptr(), bytes.len(),
                head.as_mut_ptr(), head.len(), ground.as_mut_ptr(), ground.len(),
                learned.as_mut_ptr(), learned.len(), link.as_mut_ptr(), link.len(),
            )
        }
    }
}

//! The main checker's C interface.

use crate::fence::{Fenced, Flush};
use crate::generate::cases::{Case, Outcome};

extern "C" {
    fn tour_check_model(
        image: *const u8,
        image_len: usize,
        resolution: *mut u8,
        resolution_len: usize,
    ) -> u64;

    fn tour_check_instance(
        model: *const u8,
        model_len: usize,
        instance: *const u8,
        instance_len: usize,
    ) -> u64;

    fn tour_check_members(
        model: *const u8,
        model_len: usize,
        members: *const u8,
        members_len: usize,
    ) -> u64;

    fn tour_walk(
        model: *const u8,
        model_len: usize,
        instance: *const u8,
        instance_len: usize,
        place: u32,
        path: u32,
        node: u32,
        results: *mut u8,
        results_len: usize,
    ) -> u64;
}

pub fn check_model(image: &[u8], resolution: &mut [u8]) -> u64 {
    // Both slices are lent for the call only, with their lengths.
    unsafe {
        tour_check_model(
            image.as_ptr(),
            image.len(),
            resolution.as_mut_ptr(),
            resolution.len(),
        )
    }
}

pub fn check_instance(model: &[u8], instance: &[u8]) -> u64 {
    unsafe {
        tour_check_instance(
            model.as_ptr(),
            model.len(),
            instance.as_ptr(),
            instance.len(),
        )
    }
}

pub fn check_members(model: &[u8], members: &[u8]) -> u64 {
    unsafe { tour_check_members(model.as_ptr(), model.len(), members.as_ptr(), members.len()) }
}

pub fn walk(
    model: &[u8],
    instance: &[u8],
    place: u32,
    path: u32,
    node: u32,
    results: &mut [u8],
) -> u64 {
    unsafe {
        tour_walk(
            model.as_ptr(),
            model.len(),
            instance.as_ptr(),
            instance.len(),
            place,
            path,
            node,
            results.as_mut_ptr(),
            results.len(),
        )
    }
}

/// The four calls with null pointers for slices of no bytes.
pub fn nothing_lent() -> [u64; 4] {
    use std::ptr::{null, null_mut};
    // A pointer may be null where its length is 0.
    unsafe {
        [
            tour_check_model(null(), 0, null_mut(), 0),
            tour_check_instance(null(), 0, null(), 0),
            tour_check_members(null(), 0, null(), 0),
            tour_walk(null(), 0, null(), 0, 0, 0, 0, null_mut(), 0),
        ]
    }
}

/// The call of a case on images and a buffer in place of its own.
pub fn call(case: &Case, (model, other): (&[u8], &[u8]), buffer: &mut [u8]) -> u64 {
    match *case {
        Case::Model { .. } => check_model(model, buffer),
        Case::Instance { .. } => check_instance(model, other),
        Case::Members { .. } => check_members(model, other),
        Case::Walk {
            place, path, node, ..
        } => walk(model, other, place, path, node, buffer),
    }
}

/// The images of a case, which can only be read, between unreadable pages.
pub struct Images {
    model: Fenced,
    other: Fenced,
}

impl Images {
    pub fn of(case: &Case, flush: Flush) -> Images {
        let (model, other) = case.images();
        Images {
            model: Fenced::image(model, flush),
            other: Fenced::image(other, flush),
        }
    }

    /// What the library answers to a case on these images, and what it leaves in
    /// the buffer, or that it wrote beside it. Where it reads or writes past
    /// the pages, the process ends by a signal.
    pub fn call(&self, case: &Case, buffer: &[u8], flush: Flush) -> Result<Outcome, &'static str> {
        let mut lent = Fenced::buffer(buffer, flush);
        let images = (self.model.bytes(), self.other.bytes());
        let packed = call(case, images, lent.bytes_mut());
        if !lent.marks_stand() {
            return Err("bytes beside the buffer were written to");
        }
        Ok(Outcome {
            packed,
            buffer: lent.bytes().to_vec(),
        })
    }
}

/// What the library answers to a case.
pub fn portal(case: &Case) -> Result<Outcome, &'static str> {
    Images::of(case, Flush::End).call(case, case.buffer(), Flush::End)
}

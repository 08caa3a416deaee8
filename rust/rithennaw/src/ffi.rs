//! The archive's functions as calls on slices. All unsafe code of the crate stands here.

mod archive {
    //! include/rithennaw.h, in Rust.

    #[link(name = "rithennaw", kind = "static")]
    extern "C" {
        pub fn rithennaw_check(image: *const u8, image_len: usize) -> u8;
        pub fn rithennaw_record(image: *const u8, image_len: usize, slot: u32, start: *mut usize, length: *mut usize);
        pub fn rithennaw_rewrite(
            image: *const u8, image_len: usize, out: *mut u8, out_len: usize, length: *mut usize,
        ) -> u8;
        pub fn rithennaw_turns(
            image: *const u8, image_len: usize, count: u64, out: *mut u8, out_len: usize, length: *mut usize,
            busy: *mut u64,
        ) -> u8;
        pub fn rithennaw_post(
            image: *const u8, image_len: usize, slot: u32, label: u32, value: u32, out: *mut u8, out_len: usize,
            length: *mut usize, delivered: *mut u8,
        ) -> u8;
        pub fn rithennaw_view(
            image: *const u8, image_len: usize, observer: u32, out: *mut u8, out_len: usize, length: *mut usize,
        ) -> u8;
        pub fn rithennaw_sheet(
            image: *const u8, image_len: usize, observer: u32, out: *mut u8, out_len: usize, length: *mut usize,
        ) -> u8;
        pub fn rithennaw_assemble(
            text: *const u8, text_len: usize, out: *mut u8, out_len: usize, length: *mut usize,
        ) -> u8;
        pub fn rithennaw_disassemble(
            program: *const u8, program_len: usize, out: *mut u8, out_len: usize, length: *mut usize,
        ) -> u8;
    }
}

// What the header asks of pointers holds of every call below. A slice's pointer is not null, also where the slice is
// empty; it is valid for the slice's length, and the bytes are set. `start`, `length`, `busy` and `delivered` are variables
// of the function itself. A `&` and a `&mut` that live at the same time do not overlap, and neither overlaps those
// variables. The archive keeps no pointer when it returns. It has no globals, so any thread may call.

/// What every call that writes tells.
pub struct Told {
    pub number: u8,
    pub length: usize,
}

/// The image's number.
pub fn check(image: &[u8]) -> u8 {
    // SAFETY: `image` is lent for reading its own length.
    unsafe { archive::rithennaw_check(image.as_ptr(), image.len()) }
}

/// Where a slot's record stands: its start and its length.
pub fn record(image: &[u8], slot: u32) -> (usize, usize) {
    let (mut start, mut length) = (0, 0);
    // SAFETY: `image` is lent for reading its own length; `start` and `length` are two variables of this function.
    unsafe { archive::rithennaw_record(image.as_ptr(), image.len(), slot, &mut start, &mut length) };
    (start, length)
}

pub fn rewrite(image: &[u8], out: &mut [u8]) -> Told {
    let mut length = 0;
    // SAFETY: `image` is lent for reading and `out` for writing, each with its own length, and `&mut` keeps them apart.
    let number =
        unsafe { archive::rithennaw_rewrite(image.as_ptr(), image.len(), out.as_mut_ptr(), out.len(), &mut length) };
    Told { number, length }
}

/// With the busy count.
pub fn turns(image: &[u8], count: u64, out: &mut [u8]) -> (Told, u64) {
    let (mut length, mut busy) = (0, 0);
    // SAFETY: as in `rewrite`; `length` and `busy` are two variables of this function.
    let number = unsafe {
        archive::rithennaw_turns(
            image.as_ptr(),
            image.len(),
            count,
            out.as_mut_ptr(),
            out.len(),
            &mut length,
            &mut busy,
        )
    };
    (Told { number, length }, busy)
}

/// With whether the message was delivered.
pub fn post(image: &[u8], slot: u32, label: u32, value: u32, out: &mut [u8]) -> (Told, bool) {
    let (mut length, mut delivered) = (0, 0);
    // SAFETY: as in `rewrite`; `length` and `delivered` are two variables of this function.
    let number = unsafe {
        archive::rithennaw_post(
            image.as_ptr(),
            image.len(),
            slot,
            label,
            value,
            out.as_mut_ptr(),
            out.len(),
            &mut length,
            &mut delivered,
        )
    };
    (Told { number, length }, delivered == 1)
}

pub fn view(image: &[u8], observer: u32, out: &mut [u8]) -> Told {
    let mut length = 0;
    // SAFETY: as in `rewrite`.
    let number = unsafe {
        archive::rithennaw_view(image.as_ptr(), image.len(), observer, out.as_mut_ptr(), out.len(), &mut length)
    };
    Told { number, length }
}

pub fn sheet(image: &[u8], observer: u32, out: &mut [u8]) -> Told {
    let mut length = 0;
    // SAFETY: as in `rewrite`.
    let number = unsafe {
        archive::rithennaw_sheet(image.as_ptr(), image.len(), observer, out.as_mut_ptr(), out.len(), &mut length)
    };
    Told { number, length }
}

pub fn assemble(text: &[u8], out: &mut [u8]) -> Told {
    let mut length = 0;
    // SAFETY: as in `rewrite`, with the text in the image's place.
    let number =
        unsafe { archive::rithennaw_assemble(text.as_ptr(), text.len(), out.as_mut_ptr(), out.len(), &mut length) };
    Told { number, length }
}

pub fn disassemble(program: &[u8], out: &mut [u8]) -> Told {
    let mut length = 0;
    // SAFETY: as in `rewrite`, with the program in the image's place.
    let number = unsafe {
        archive::rithennaw_disassemble(program.as_ptr(), program.len(), out.as_mut_ptr(), out.len(), &mut length)
    };
    Told { number, length }
}

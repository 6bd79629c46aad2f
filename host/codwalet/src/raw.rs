//! The C interface, declared from its header `host/include/codwalet.h`, and the functions that take pointers behind slices.
//! Most programs use the types at the crate's root instead.
//!
//! The functions read and write what a slice lends them and keep nothing of it, which the engine's proofs say.

#![allow(missing_docs)] // The header says more of a struct or an enum than of each field.

include!(concat!(env!("OUT_DIR"), "/declarations.rs"));

/// 0 if the map is accepted, else its refusal.
pub fn check_map(map: &[u8]) -> u32 {
    // SAFETY: pointers and lengths are those of slices.
    unsafe { codwalet_check_map(map.as_ptr(), map.len()) }
}

/// The area with a number.
pub fn look_up(map: &[u8], number: u16) -> Area {
    // SAFETY: pointers and lengths are those of slices.
    unsafe { codwalet_look_up(map.as_ptr(), map.len(), number) }
}

/// The MHz-pops and the cells covered in the area with a number.
pub fn coverage(map: &[u8], register: Register, number: u16) -> Covered {
    // SAFETY: pointers and lengths are those of slices.
    unsafe { codwalet_coverage(map.as_ptr(), map.len(), register, number) }
}

/// The blocks of the area with a number.
pub fn blocks(map: &[u8], register: Register, number: u16) -> Held {
    // SAFETY: pointers and lengths are those of slices.
    unsafe { codwalet_blocks(map.as_ptr(), map.len(), register, number) }
}

/// The proposal with a draw.
pub fn propose(map: &[u8], register: Register, draw: u32) -> Proposal {
    // SAFETY: pointers and lengths are those of slices.
    unsafe { codwalet_propose(map.as_ptr(), map.len(), register, draw) }
}

/// The footprint of the partial area of the proposal with a draw.
pub fn footprint(map: &[u8], register: Register, draw: u32, mask: &mut [u8], table: &mut [u16]) -> Outline {
    #[cfg(test)]
    FOOTPRINTS.set(FOOTPRINTS.get() + 1);
    // SAFETY: pointers and lengths are those of slices.
    unsafe {
        codwalet_footprint(
            map.as_ptr(),
            map.len(),
            register,
            draw,
            mask.as_mut_ptr(),
            mask.len(),
            table.as_mut_ptr(),
            table.len(),
        )
    }
}

/// Ends the program if the archive is not of the version that is declared here: its structs might be laid out otherwise. The
/// safe types call it wherever they hand out a map or a register; the functions of this module don't.
///
/// # Panics
///
/// If the versions differ.
pub fn check_version() {
    let version = codwalet_version();
    assert!(
        version == VERSION,
        "the engine's archive has version {version} of the interface, its header version {VERSION}"
    );
}

#[cfg(test)]
thread_local! {
    /// Calls of `footprint`, counted for tests.
    pub(crate) static FOOTPRINTS: std::cell::Cell<usize> = const { std::cell::Cell::new(0) };
}

//! The exported calls as values, so that another callee can stand in for the engine's.

use mulkefi::raw;

pub type Test = unsafe extern "C" fn(*const u8, usize) -> u32;
pub type DeskEdit = unsafe extern "C" fn(
    *mut u8,
    usize,
    usize,
    u32,
    u64,
    u32,
    u32,
    f64,
    f64,
    *mut u8,
    usize,
    *mut u8,
    *mut u32,
) -> u32;
pub type CatchUp = unsafe extern "C" fn(*const u8, u32, u64, u32, *mut u8, usize) -> u32;
pub type WallDeliver =
    unsafe extern "C" fn(*mut u8, usize, usize, u32, u64, *const u8, usize, *mut u32) -> u32;
pub type Roots = unsafe extern "C" fn(*const f64, usize, *mut f64, usize, usize, *mut u64) -> u32;
pub type LargestMagnitude = unsafe extern "C" fn(*const f64, usize, *mut f64) -> usize;

/// All but `mulkefi_interface` and `mulkefi_versions`, which take nothing.
#[derive(Clone, Copy)]
pub struct Calls {
    pub test: Test,
    pub desk_edit: DeskEdit,
    pub catch_up: CatchUp,
    pub wall_deliver: WallDeliver,
    pub roots: Roots,
    pub largest_magnitude: LargestMagnitude,
}

pub const ENGINE: Calls = Calls {
    test: raw::mulkefi_test,
    desk_edit: raw::mulkefi_desk_edit,
    catch_up: raw::mulkefi_catch_up,
    wall_deliver: raw::mulkefi_wall_deliver,
    roots: raw::mulkefi_roots,
    largest_magnitude: raw::mulkefi_largest_magnitude,
};

//! The functions of the static library, as include/crossglimmer.h declares them.

/// The answer of a call: `cg_answer`.
#[repr(C)]
pub struct Answer {
    pub number: u32,
    pub place: u32,
    pub step: u32,
    pub v: u32,
    pub e: u32,
    pub f: u32,
}

/// What a panel file holds: `cg_filing`.
#[repr(C)]
pub struct Filing {
    pub number: u32,
    pub place: u32,
    pub steps: u32,
    pub positions: u32,
    pub faces: u32,
    pub corners: u32,
}

/// What was written of a panel file: `cg_writing`.
#[repr(C)]
pub struct Writing {
    pub number: u32,
    pub place: u32,
    pub bytes: u32,
}

#[rustfmt::skip]
extern "C" {
    pub fn cg_check(offsets: *const u32, no: usize, corners: *const u32, nc: usize, coords: *const f32, nx: usize) -> Answer;
    pub fn cg_check_full(offsets: *const u32, no: usize, corners: *const u32, nc: usize, coords: *const f32, nx: usize) -> Answer;
    pub fn cg_edges(offsets: *const u32, no: usize, corners: *const u32, nc: usize, coords: *const f32, nx: usize, out: *mut [u32; 2], n: usize) -> Answer;
    pub fn cg_reverse(offsets: *const u32, no: usize, corners: *const u32, nc: usize, coords: *const f32, nx: usize, out_offsets: *mut u32, mo: usize, out_corners: *mut u32, mc: usize, out_coords: *mut f32, mx: usize) -> Answer;
    pub fn cg_reflect(offsets: *const u32, no: usize, corners: *const u32, nc: usize, coords: *const f32, nx: usize, out_offsets: *mut u32, mo: usize, out_corners: *mut u32, mc: usize, out_coords: *mut f32, mx: usize) -> Answer;
    pub fn cg_triangulate(offsets: *const u32, no: usize, corners: *const u32, nc: usize, coords: *const f32, nx: usize, shorter: bool, out_offsets: *mut u32, mo: usize, out_corners: *mut u32, mc: usize, out_coords: *mut f32, mx: usize) -> Answer;
    pub fn cg_ambo(offsets: *const u32, no: usize, corners: *const u32, nc: usize, coords: *const f32, nx: usize, has_ratio: bool, ratio: f32, out_offsets: *mut u32, mo: usize, out_corners: *mut u32, mc: usize, out_coords: *mut f32, mx: usize) -> Answer;
    pub fn cg_dual(offsets: *const u32, no: usize, corners: *const u32, nc: usize, coords: *const f32, nx: usize, out_offsets: *mut u32, mo: usize, out_corners: *mut u32, mc: usize, out_coords: *mut f32, mx: usize) -> Answer;
    pub fn cg_kis(offsets: *const u32, no: usize, corners: *const u32, nc: usize, coords: *const f32, nx: usize, has_height: bool, height: f32, has_arities: bool, arities: *const u32, na: usize, has_numbers: bool, numbers: *const u32, nn: usize, regular: bool, out_offsets: *mut u32, mo: usize, out_corners: *mut u32, mc: usize, out_coords: *mut f32, mx: usize) -> Answer;
    pub fn cg_chamfer(offsets: *const u32, no: usize, corners: *const u32, nc: usize, coords: *const f32, nx: usize, has_ratio: bool, ratio: f32, out_offsets: *mut u32, mo: usize, out_corners: *mut u32, mc: usize, out_coords: *mut f32, mx: usize) -> Answer;
    pub fn cg_gyro(offsets: *const u32, no: usize, corners: *const u32, nc: usize, coords: *const f32, nx: usize, has_ratio: bool, ratio: f32, has_height: bool, height: f32, out_offsets: *mut u32, mo: usize, out_corners: *mut u32, mc: usize, out_coords: *mut f32, mx: usize) -> Answer;
    pub fn cg_propellor(offsets: *const u32, no: usize, corners: *const u32, nc: usize, coords: *const f32, nx: usize, has_ratio: bool, ratio: f32, out_offsets: *mut u32, mo: usize, out_corners: *mut u32, mc: usize, out_coords: *mut f32, mx: usize) -> Answer;
    pub fn cg_whirl(offsets: *const u32, no: usize, corners: *const u32, nc: usize, coords: *const f32, nx: usize, has_ratio: bool, ratio: f32, has_height: bool, height: f32, out_offsets: *mut u32, mo: usize, out_corners: *mut u32, mc: usize, out_coords: *mut f32, mx: usize) -> Answer;
    pub fn cg_quinto(offsets: *const u32, no: usize, corners: *const u32, nc: usize, coords: *const f32, nx: usize, has_height: bool, height: f32, out_offsets: *mut u32, mo: usize, out_corners: *mut u32, mc: usize, out_coords: *mut f32, mx: usize) -> Answer;
    pub fn cg_list(code: u32, offsets: *const u32, no: usize, corners: *const u32, nc: usize, coords: *const f32, nx: usize, has_ratio: bool, ratio: f32, has_height: bool, height: f32, has_arities: bool, arities: *const u32, na: usize, regular: bool, first_offsets: *mut u32, fo: usize, first_corners: *mut u32, fc: usize, first_coords: *mut f32, fx: usize, second_offsets: *mut u32, so: usize, second_corners: *mut u32, sc: usize, second_coords: *mut f32, sx: usize, out_offsets: *mut u32, mo: usize, out_corners: *mut u32, mc: usize, out_coords: *mut f32, mx: usize) -> Answer;
    pub fn cg_recipe(steps: *const [u32; 4], n: usize, ledger: *mut u32, nl: usize, offsets: *const u32, no: usize, corners: *const u32, nc: usize, coords: *const f32, nx: usize, first_offsets: *mut u32, fo: usize, first_corners: *mut u32, fc: usize, first_coords: *mut f32, fx: usize, second_offsets: *mut u32, so: usize, second_corners: *mut u32, sc: usize, second_coords: *mut f32, sx: usize, out_offsets: *mut u32, mo: usize, out_corners: *mut u32, mc: usize, out_coords: *mut f32, mx: usize) -> Answer;
    pub fn cg_panel_read(bytes: *const u8, n: usize, out_offsets: *mut u32, mo: usize, out_corners: *mut u32, mc: usize, out_coords: *mut f32, mx: usize) -> Filing;
    pub fn cg_panel_steps(bytes: *const u8, n: usize, out: *mut [u32; 4], m: usize) -> Filing;
    pub fn cg_panel_write(steps: *const [u32; 4], n: usize, offsets: *const u32, no: usize, corners: *const u32, nc: usize, coords: *const f32, nx: usize, out: *mut u8, m: usize) -> Writing;
}

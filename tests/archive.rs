//! The archive's functions over slices, in the order of arguments that the reference has too.

#[link(name = "brennigou", kind = "static")]
extern "C" {
    fn brennigou_needs(file: *const u8, file_len: usize, width: u32, out: *mut i32, out_len: usize) -> u32;
    fn brennigou_judge(file: *const u8, file_len: usize, plan: *const u8, plan_len: usize, out: *mut i32, out_len: usize) -> u32;
    fn brennigou_relaxed(
        file: *const u8,
        file_len: usize,
        width: u32,
        rounds: u32,
        ceiling: i32,
        arcs: *mut u8,
        arcs_len: usize,
        cells: *mut i32,
        cells_len: usize,
        out: *mut i32,
        out_len: usize,
    ) -> u32;
    fn brennigou_restricted(
        file: *const u8,
        file_len: usize,
        width: u32,
        arcs: *mut u8,
        arcs_len: usize,
        cells: *mut i32,
        cells_len: usize,
        plan: *mut u8,
        plan_len: usize,
        out: *mut i32,
        out_len: usize,
    ) -> u32;
    fn brennigou_page(
        file: *const u8,
        file_len: usize,
        width: u32,
        rounds: u32,
        ceiling: i32,
        start: *const u8,
        start_len: usize,
        arcs: *mut u8,
        arcs_len: usize,
        cells: *mut i32,
        cells_len: usize,
        page: *mut u8,
        page_len: usize,
        out: *mut i32,
        out_len: usize,
    ) -> u32;
    fn brennigou_better(file: *const u8, file_len: usize, standing: *const u8, standing_len: usize, new: *const u8, new_len: usize) -> u32;
    fn brennigou_version() -> u32;
}

pub fn needs(file: &[u8], width: u32, out: &mut [i32]) -> u32 {
    unsafe { brennigou_needs(file.as_ptr(), file.len(), width, out.as_mut_ptr(), out.len()) }
}

pub fn judge(file: &[u8], plan: &[u8], out: &mut [i32]) -> u32 {
    unsafe { brennigou_judge(file.as_ptr(), file.len(), plan.as_ptr(), plan.len(), out.as_mut_ptr(), out.len()) }
}

pub fn relaxed(file: &[u8], width: u32, rounds: u32, ceiling: i32, arcs: &mut [u8], cells: &mut [i32], out: &mut [i32]) -> u32 {
    unsafe {
        brennigou_relaxed(
            file.as_ptr(),
            file.len(),
            width,
            rounds,
            ceiling,
            arcs.as_mut_ptr(),
            arcs.len(),
            cells.as_mut_ptr(),
            cells.len(),
            out.as_mut_ptr(),
            out.len(),
        )
    }
}

pub fn restricted(file: &[u8], width: u32, arcs: &mut [u8], cells: &mut [i32], plan: &mut [u8], out: &mut [i32]) -> u32 {
    unsafe {
        brennigou_restricted(
            file.as_ptr(),
            file.len(),
            width,
            arcs.as_mut_ptr(),
            arcs.len(),
            cells.as_mut_ptr(),
            cells.len(),
            plan.as_mut_ptr(),
            plan.len(),
            out.as_mut_ptr(),
            out.len(),
        )
    }
}

#[allow(clippy::too_many_arguments)]
pub fn page(
    file: &[u8],
    width: u32,
    rounds: u32,
    ceiling: i32,
    start: &[u8],
    arcs: &mut [u8],
    cells: &mut [i32],
    page: &mut [u8],
    out: &mut [i32],
) -> u32 {
    unsafe {
        brennigou_page(
            file.as_ptr(),
            file.len(),
            width,
            rounds,
            ceiling,
            start.as_ptr(),
            start.len(),
            arcs.as_mut_ptr(),
            arcs.len(),
            cells.as_mut_ptr(),
            cells.len(),
            page.as_mut_ptr(),
            page.len(),
            out.as_mut_ptr(),
            out.len(),
        )
    }
}

pub fn better(file: &[u8], standing: &[u8], new: &[u8]) -> u32 {
    unsafe { brennigou_better(file.as_ptr(), file.len(), standing.as_ptr(), standing.len(), new.as_ptr(), new.len()) }
}

pub fn version() -> u32 {
    unsafe { brennigou_version() }
}

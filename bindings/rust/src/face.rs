//! The exported functions of `crates/sedhavil` and `crates/sedhavil_wav`, each taking slices: the one place
//! with `unsafe`. `compare/` takes this file in by its path.
//!
//! A slice goes over as a pointer and a length. Rust's own rules for slices are what the proofs take for
//! granted: each points to that many elements, and what is lent by `&mut` overlaps nothing else.

#[repr(C)]
#[derive(Clone, Copy)]
pub struct Reply {
    pub number: u32,
    pub place: usize,
}

#[repr(C)]
#[derive(Clone, Copy)]
pub struct Room {
    pub number: u32,
    pub place: usize,
    pub floats: usize,
}

#[repr(C)]
#[derive(Clone, Copy)]
pub struct WavHeader {
    pub number: u32,
    pub rate: u32,
    pub size: u32,
}

unsafe extern "C" {
    safe fn sedhavil_layout_version() -> u32;

    fn sedhavil_run(
        rate: u32,
        stages: *const u64,
        stages_length: usize,
        samples: *mut f32,
        samples_length: usize,
        positions: *mut usize,
        positions_length: usize,
        floats: *mut f32,
        floats_length: usize,
        store: *mut f32,
        store_length: usize,
        progress: *mut usize,
        progress_length: usize,
        order: *const usize,
        order_length: usize,
    ) -> Reply;

    fn sedhavil_render(
        rate: u32,
        stages: *const u64,
        stages_length: usize,
        samples: *mut f32,
        samples_length: usize,
        positions: *mut usize,
        positions_length: usize,
        floats: *mut f32,
        floats_length: usize,
        store: *mut f32,
        store_length: usize,
        progress: *mut usize,
        progress_length: usize,
    ) -> Reply;

    fn sedhavil_start(
        rate: u32,
        stages: *const u64,
        stages_length: usize,
        positions: *mut usize,
        positions_length: usize,
        floats: *mut f32,
        floats_length: usize,
        store: *mut f32,
        store_length: usize,
    ) -> Reply;

    fn sedhavil_floats_needed(rate: u32, stages: *const u64, stages_length: usize) -> Room;

    fn sedhavil_wav_header(bytes: *const u8, bytes_length: usize, highest: u32) -> WavHeader;

    fn sedhavil_wav_frames_in(
        bytes: *const u8,
        bytes_length: usize,
        samples: *mut f32,
        samples_length: usize,
    ) -> usize;

    fn sedhavil_wav_frames_out(
        samples: *const f32,
        samples_length: usize,
        bytes: *mut u8,
        bytes_length: usize,
    ) -> usize;
}

pub fn layout_version() -> u32 {
    sedhavil_layout_version()
}

#[allow(clippy::too_many_arguments)]
pub fn run(
    rate: u32,
    stages: &[u64],
    samples: &mut [f32],
    positions: &mut [usize],
    floats: &mut [f32],
    store: &mut [f32],
    progress: &mut [usize],
    order: &[usize],
) -> Reply {
    // SAFETY: each pointer and length is a slice's, and the function is proved to stay within them.
    unsafe {
        sedhavil_run(
            rate,
            stages.as_ptr(),
            stages.len(),
            samples.as_mut_ptr(),
            samples.len(),
            positions.as_mut_ptr(),
            positions.len(),
            floats.as_mut_ptr(),
            floats.len(),
            store.as_mut_ptr(),
            store.len(),
            progress.as_mut_ptr(),
            progress.len(),
            order.as_ptr(),
            order.len(),
        )
    }
}

pub fn render(
    rate: u32,
    stages: &[u64],
    samples: &mut [f32],
    positions: &mut [usize],
    floats: &mut [f32],
    store: &mut [f32],
    progress: &mut [usize],
) -> Reply {
    // SAFETY: as of `run`.
    unsafe {
        sedhavil_render(
            rate,
            stages.as_ptr(),
            stages.len(),
            samples.as_mut_ptr(),
            samples.len(),
            positions.as_mut_ptr(),
            positions.len(),
            floats.as_mut_ptr(),
            floats.len(),
            store.as_mut_ptr(),
            store.len(),
            progress.as_mut_ptr(),
            progress.len(),
        )
    }
}

pub fn start(
    rate: u32,
    stages: &[u64],
    positions: &mut [usize],
    floats: &mut [f32],
    store: &mut [f32],
) -> Reply {
    // SAFETY: as of `run`.
    unsafe {
        sedhavil_start(
            rate,
            stages.as_ptr(),
            stages.len(),
            positions.as_mut_ptr(),
            positions.len(),
            floats.as_mut_ptr(),
            floats.len(),
            store.as_mut_ptr(),
            store.len(),
        )
    }
}

pub fn floats_needed(rate: u32, stages: &[u64]) -> Room {
    // SAFETY: as of `run`.
    unsafe { sedhavil_floats_needed(rate, stages.as_ptr(), stages.len()) }
}

pub fn wav_header(bytes: &[u8], highest: u32) -> WavHeader {
    // SAFETY: as of `run`.
    unsafe { sedhavil_wav_header(bytes.as_ptr(), bytes.len(), highest) }
}

pub fn frames_in(bytes: &[u8], samples: &mut [f32]) -> usize {
    // SAFETY: as of `run`.
    unsafe { sedhavil_wav_frames_in(bytes.as_ptr(), bytes.len(), samples.as_mut_ptr(), samples.len()) }
}

pub fn frames_out(samples: &[f32], bytes: &mut [u8]) -> usize {
    // SAFETY: as of `run`.
    unsafe { sedhavil_wav_frames_out(samples.as_ptr(), samples.len(), bytes.as_mut_ptr(), bytes.len()) }
}

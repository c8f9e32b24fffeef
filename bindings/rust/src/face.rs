//! The functions of include/spindle.h that this crate calls, declared in Rust, with the structs that no caller sees.
use core::mem::{offset_of, size_of};

use crate::kernels::Root;
use crate::{Cone, Recorded, Scaling, Settings, Three, Wide};

#[repr(C)]
pub struct YesNo {
    pub code: u32,
    pub yes: bool,
}

#[repr(C)]
pub struct Verdict {
    pub code: u32,
    pub answer: u32,
}

const _: () = assert!(size_of::<Verdict>() == 8);

#[repr(C)]
pub struct Number {
    pub code: u32,
    pub value: f64,
}

const _: () = assert!(size_of::<Number>() == 16 && offset_of!(Number, value) == 8);

#[repr(C)]
pub struct Rounds {
    pub code: u32,
    pub rounds: u32,
}

#[repr(C)]
pub struct FoundOut {
    pub code: u32,
    pub count: u32,
    pub step: f64,
}

#[derive(Clone, Copy, Default)]
#[repr(C)]
pub struct Steps {
    pub code: u32,
    pub dual_count: u32,
    pub primal_count: u32,
    pub dual_step: f64,
    pub primal_step: f64,
}

#[repr(C)]
pub struct DualGrad {
    pub code: u32,
    pub three: Three,
    pub wide: Wide,
}

#[repr(C)]
pub struct Updated {
    pub code: u32,
    pub record: Scaling,
}

const _: () = assert!(size_of::<Updated>() == 2752 && offset_of!(Updated, record) == 8);

#[repr(C)]
pub struct Written {
    pub code: u32,
    pub length: u64,
}

#[repr(C)]
pub struct Opened {
    pub code: u32,
    pub edition: u32,
    pub records: u32,
}

#[repr(C)]
pub struct Replayed {
    pub code: u32,
    pub records: u32,
    pub same: u32,
    pub differ: u32,
}

#[repr(C)]
pub struct Rescued {
    pub code: u32,
    pub kept: u32,
    pub dropped: u64,
    pub length: u64,
    pub right: bool,
}

const _: () = assert!(size_of::<Root>() == 16);

#[repr(C)]
pub struct Thinned {
    pub code: u32,
    pub kept: u32,
    pub dropped: u32,
    pub length: u64,
}

#[derive(Clone, Copy)]
#[repr(C)]
pub struct Largest {
    pub size: u64,
    pub file: u64,
    pub at: u64,
}

#[derive(Clone, Copy)]
#[repr(C)]
pub struct Totals {
    pub code: u32,
    pub files: u32,
    pub records: u64,
    pub dual: Largest,
    pub primal: Largest,
}

#[repr(C)]
pub struct Printed {
    pub code: u32,
    pub length: u64,
}

type In = *const f64;
type Out = *mut f64;

extern "C" {
    pub fn spindle_version() -> u32;
    pub fn spindle_sqrt(x: f64) -> f64;
    pub fn spindle_log(x: f64) -> f64;
    pub fn spindle_exp(x: f64) -> f64;
    pub fn spindle_powf(x: f64, y: f64) -> f64;
    pub fn spindle_plain_sqrt(x: f64) -> f64;
    pub fn spindle_table_sqrt(x: f64) -> Root;

    pub fn spindle_fresh(cone: Cone) -> Updated;
    pub fn spindle_is_primal_feasible(cone: Cone, s: In, ns: usize) -> Verdict;
    pub fn spindle_is_dual_feasible(cone: Cone, z: In, nz: usize) -> Verdict;
    pub fn spindle_barrier_dual(cone: Cone, z: In, nz: usize) -> Number;
    pub fn spindle_dual_grad_h(cone: Cone, z: In, nz: usize) -> DualGrad;
    pub fn spindle_house_settings(start: f64) -> Settings;
    pub fn spindle_house_strategy() -> u32;
    pub fn spindle_backtrack_search(
        cone: Cone, primal: bool, dq: In, ndq: usize, q: In, nq: usize, point: Out, np: usize, settings: Settings,
    ) -> FoundOut;
    pub fn spindle_step_length(
        cone: Cone, dz: In, ndz: usize, ds: In, nds: usize, z: In, nz: usize, s: In, ns: usize, dual_point: Out, ndp: usize,
        primal_point: Out, npp: usize, settings: Settings,
    ) -> Steps;
    pub fn spindle_common_step(
        cones: *const Cone, ncones: usize, primal: bool, dq: In, ndq: usize, q: In, nq: usize, point: Out, np: usize, settings: Settings,
    ) -> FoundOut;
    pub fn spindle_plan_step(
        cones: *const Cone, ncones: usize, dz: In, ndz: usize, ds: In, nds: usize, z: In, nz: usize, s: In, ns: usize, dual_point: Out,
        ndp: usize, primal_point: Out, npp: usize, settings: Settings,
    ) -> FoundOut;
    pub fn spindle_unit_initialization(cone: Cone, z: Out, nz: usize, s: Out, ns: usize) -> u32;
    pub fn spindle_rectify_equilibration(cone: Cone, delta: Out, nd: usize, e: In, ne: usize) -> YesNo;
    pub fn spindle_affine_ds(cone: Cone, ds: Out, nds: usize, s: In, ns: usize) -> u32;
    pub fn spindle_ds_from_dz_offset(cone: Cone, out: Out, no: usize, ds: In, nds: usize, z: In, nz: usize) -> u32;

    pub fn spindle_update_scaling_in_place(record: *mut Scaling, s: In, ns: usize, z: In, nz: usize, mu: f64, strategy: u32) -> u32;
    pub fn spindle_gradient_primal_in_place(record: *const Scaling, g: Out, ng: usize, s: In, ns: usize) -> Rounds;
    pub fn spindle_barrier_primal_in_place(record: *const Scaling, s: In, ns: usize) -> Number;
    pub fn spindle_compute_barrier_in_place(
        record: *const Scaling, z: In, nz: usize, s: In, ns: usize, dz: In, ndz: usize, ds: In, nds: usize, alpha: f64,
    ) -> Number;
    pub fn spindle_get_hs_in_place(record: *const Scaling, serial: u32, block: Out, nb: usize) -> u32;
    pub fn spindle_mul_hs_in_place(record: *const Scaling, serial: u32, y: Out, ny: usize, x: In, nx: usize) -> u32;
    pub fn spindle_higher_correction_in_place(
        record: *const Scaling, serial: u32, eta: Out, ne: usize, ds: In, nds: usize, v: In, nv: usize,
    ) -> u32;
    pub fn spindle_combined_ds_shift_in_place(
        record: *const Scaling, serial: u32, shift: Out, nsh: usize, step_z: In, nsz: usize, step_s: In, nss: usize, sigma_mu: f64,
    ) -> u32;

    pub fn spindle_trace_create(trace: *mut u8, room: usize) -> Written;
    pub fn spindle_trace_open(trace: *const u8, n: usize) -> Opened;
    pub fn spindle_record_put(
        bytes: *mut u8, room: usize, at: usize, edition: u32, cone: Cone, flag: u32, settings: Settings, dz: In, ndz: usize, ds: In,
        nds: usize, z: In, nz: usize, s: In, ns: usize, steps: Steps,
    ) -> Written;
    pub fn spindle_record_at(bytes: *const u8, n: usize, edition: u32, at: usize) -> Recorded;
    pub fn spindle_trace_seal(bytes: *mut u8, room: usize, used: usize, edition: u32) -> Written;
    pub fn spindle_replay(trace: *const u8, n: usize, at: *mut u64, nat: usize) -> Replayed;
    pub fn spindle_rescue(input: *const u8, n: usize, output: *mut u8, room: usize, edition: u32) -> Rescued;
    pub fn spindle_thin(trace: *const u8, n: usize, output: *mut u8, room: usize) -> Thinned;
    pub fn spindle_thin_in_place(trace: *mut u8, n: usize) -> Thinned;
    pub fn spindle_sheet_add(
        sheet: Totals, dual: *mut u64, nd: usize, primal: *mut u64, np: usize, skipped: *mut u8, ns: usize, file: *const u8, n: usize,
    ) -> Totals;
    pub fn spindle_sheet_join(
        sheet: Totals, dual: *mut u64, nd: usize, primal: *mut u64, np: usize, skipped: *mut u8, ns: usize, second: Totals,
        dual2: *const u64, nd2: usize, primal2: *const u64, np2: usize, skipped2: *const u8, ns2: usize,
    ) -> Totals;
    pub fn spindle_sheet_text(
        text: *mut u8, room: usize, sheet: Totals, dual: *const u64, nd: usize, primal: *const u64, np: usize, skipped: *const u8,
        ns: usize,
    ) -> Printed;
}

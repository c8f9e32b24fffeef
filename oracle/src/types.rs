// The structs of spindle.h, one call of an entry with everything that it lends, and what comes back. The C side (port.c) mirrors `Call` and `Reply`.

pub const MOST: usize = 64;

#[derive(Clone, Copy)]
#[repr(C)]
pub struct Cone {
    pub kind: u32,
    pub dim1: u32,
    pub dim2: u32,
    pub rule: u32,
    pub exps: [f64; 32],
}

#[derive(Clone, Copy)]
#[repr(C)]
pub struct Three {
    pub z: [f64; 3],
    pub grad: [f64; 3],
    pub h_dual: [f64; 6],
    pub hs: [f64; 6],
}

#[derive(Clone, Copy)]
#[repr(C)]
pub struct Wide {
    pub z: [f64; 64],
    pub mu: f64,
    pub grad: [f64; 64],
    pub p: [f64; 64],
    pub q: [f64; 32],
    pub r: [f64; 32],
    pub d1: [f64; 32],
    pub d2: f64,
}

#[derive(Clone, Copy)]
#[repr(C)]
pub struct Scaling {
    pub cone: Cone,
    pub scaled: u32,
    pub serial: u32,
    pub three: Three,
    pub wide: Wide,
}

impl Cone {
    pub const ZERO: Cone = Cone { kind: 0, dim1: 0, dim2: 0, rule: 0, exps: [0.0; 32] };
}

impl Three {
    pub const ZERO: Three = Three { z: [0.0; 3], grad: [0.0; 3], h_dual: [0.0; 6], hs: [0.0; 6] };
}

impl Wide {
    pub const ZERO: Wide =
        Wide { z: [0.0; 64], mu: 0.0, grad: [0.0; 64], p: [0.0; 64], q: [0.0; 32], r: [0.0; 32], d1: [0.0; 32], d2: 0.0 };
}

impl Scaling {
    pub const ZERO: Scaling = Scaling { cone: Cone::ZERO, scaled: 0, serial: 0, three: Three::ZERO, wide: Wide::ZERO };
}

// A lent slice in the middle of its room: everything beside it is a canary.
pub const BEFORE: usize = 4;
pub const ROOM: usize = 76;

#[derive(Clone, Copy)]
#[repr(C)]
pub struct Slice {
    pub len: u64,
    pub room: [f64; ROOM],
}

impl Slice {
    pub const EMPTY: Slice = Slice { len: 0, room: [0.0; ROOM] };

    pub fn of(numbers: &[f64]) -> Slice {
        let mut slice = Slice { len: numbers.len() as u64, room: [0.0; ROOM] };
        for (i, x) in slice.room.iter_mut().enumerate() {
            *x = f64::from_bits(0x4059_DEAD_BEEF_0000 + i as u64);
        }
        slice.room[BEFORE..BEFORE + numbers.len()].copy_from_slice(numbers);
        slice
    }

    pub fn numbers(&self) -> &[f64] {
        &self.room[BEFORE..BEFORE + self.len as usize]
    }

    pub fn numbers_mut(&mut self) -> &mut [f64] {
        &mut self.room[BEFORE..BEFORE + self.len as usize]
    }
}

pub const SLICES: usize = 6;

#[derive(Clone, Copy)]
#[repr(C)]
pub struct Call {
    pub entry: u32,
    // the strategy code of an update; 1 for the primal side of a search; the serial that a call expects of its record
    pub option: u32,
    // an entry that takes a cone takes this record's
    pub record: Scaling,
    pub slices: [Slice; SLICES],
    pub numbers: [f64; 3],
}

impl Call {
    pub const ZERO: Call = Call { entry: 0, option: 0, record: Scaling::ZERO, slices: [Slice::EMPTY; SLICES], numbers: [0.0; 3] };
}

#[derive(Clone, Copy)]
#[repr(C)]
pub struct Reply {
    pub code: u32,
    // of a feasibility test NO, YES or UNDECIDED (verdict.rs), of an equilibration 1 for yes
    pub answer: u32,
    pub counts: [u32; 2],
    pub values: [f64; 3],
    pub three: Three,
    pub wide: Wide,
    pub record: Scaling,
}

impl Reply {
    pub const ZERO: Reply =
        Reply { code: 0, answer: 0, counts: [0; 2], values: [0.0; 3], three: Three::ZERO, wide: Wide::ZERO, record: Scaling::ZERO };
}

// What a call leaves: its answer, the caller's record, and every lent slice with the canaries beside it.
#[derive(Clone, Copy)]
pub struct Answer {
    pub reply: Reply,
    pub record: Scaling,
    pub slices: [Slice; SLICES],
}

#[derive(Clone, Copy, PartialEq, Eq)]
pub enum Lent {
    Read,
    Written,
    // the packed block of get_hs: 6 numbers for kinds 1 and 2, dim1+dim2 for kind 3
    Block,
}

pub struct Entry {
    pub name: &'static str,
    pub takes_record: bool,
    pub slices: &'static [(&'static str, Lent)],
    pub numbers: &'static [&'static str],
}

use Lent::{Block, Read, Written};

pub const FRESH: u32 = 0;
pub const IS_PRIMAL_FEASIBLE: u32 = 1;
pub const IS_DUAL_FEASIBLE: u32 = 2;
pub const BARRIER_DUAL: u32 = 3;
pub const DUAL_GRAD_H: u32 = 4;
pub const HOUSE_SETTINGS: u32 = 5;
pub const BACKTRACK_SEARCH: u32 = 6;
pub const STEP_LENGTH: u32 = 7;
pub const UNIT_INITIALIZATION: u32 = 8;
pub const RECTIFY_EQUILIBRATION: u32 = 9;
pub const AFFINE_DS: u32 = 10;
pub const DS_FROM_DZ_OFFSET: u32 = 11;
pub const UPDATE_SCALING: u32 = 12;
pub const GRADIENT_PRIMAL: u32 = 13;
pub const BARRIER_PRIMAL: u32 = 14;
pub const COMPUTE_BARRIER: u32 = 15;
pub const GET_HS: u32 = 16;
pub const MUL_HS: u32 = 17;
pub const HIGHER_CORRECTION: u32 = 18;
pub const COMBINED_DS_SHIFT: u32 = 19;
pub const SQRT: u32 = 20;
pub const LOG: u32 = 21;
pub const EXP: u32 = 22;
pub const POWF: u32 = 23;

const SETTINGS: &[&str] = &["start", "step", "smallest"];

// In the order of spindle.h: the arguments of each entry.
pub static ENTRIES: [Entry; 24] = [
    Entry { name: "fresh", takes_record: false, slices: &[], numbers: &[] },
    Entry { name: "is_primal_feasible", takes_record: false, slices: &[("s", Read)], numbers: &[] },
    Entry { name: "is_dual_feasible", takes_record: false, slices: &[("z", Read)], numbers: &[] },
    Entry { name: "barrier_dual", takes_record: false, slices: &[("z", Read)], numbers: &[] },
    Entry { name: "dual_grad_h", takes_record: false, slices: &[("z", Read)], numbers: &[] },
    Entry { name: "house_settings", takes_record: false, slices: &[], numbers: &["start"] },
    Entry { name: "backtrack_search", takes_record: false, slices: &[("dq", Read), ("q", Read), ("point", Written)], numbers: SETTINGS },
    Entry {
        name: "step_length",
        takes_record: false,
        slices: &[("dz", Read), ("ds", Read), ("z", Read), ("s", Read), ("dual_point", Written), ("primal_point", Written)],
        numbers: SETTINGS,
    },
    Entry { name: "unit_initialization", takes_record: false, slices: &[("z", Written), ("s", Written)], numbers: &[] },
    Entry { name: "rectify_equilibration", takes_record: false, slices: &[("delta", Written), ("e", Read)], numbers: &[] },
    Entry { name: "affine_ds", takes_record: false, slices: &[("ds", Written), ("s", Read)], numbers: &[] },
    Entry { name: "ds_from_dz_offset", takes_record: false, slices: &[("out", Written), ("ds", Read), ("z", Read)], numbers: &[] },
    Entry { name: "update_scaling", takes_record: true, slices: &[("s", Read), ("z", Read)], numbers: &["mu"] },
    Entry { name: "gradient_primal", takes_record: true, slices: &[("g", Written), ("s", Read)], numbers: &[] },
    Entry { name: "barrier_primal", takes_record: true, slices: &[("s", Read)], numbers: &[] },
    Entry {
        name: "compute_barrier",
        takes_record: true,
        slices: &[("z", Read), ("s", Read), ("dz", Read), ("ds", Read)],
        numbers: &["alpha"],
    },
    Entry { name: "get_hs", takes_record: true, slices: &[("block", Block)], numbers: &[] },
    Entry { name: "mul_hs", takes_record: true, slices: &[("y", Written), ("x", Read)], numbers: &[] },
    Entry { name: "higher_correction", takes_record: true, slices: &[("eta", Written), ("ds", Read), ("v", Read)], numbers: &[] },
    Entry {
        name: "combined_ds_shift",
        takes_record: true,
        slices: &[("shift", Written), ("step_z", Read), ("step_s", Read)],
        numbers: &["sigma_mu"],
    },
    Entry { name: "sqrt", takes_record: false, slices: &[], numbers: &["x"] },
    Entry { name: "log", takes_record: false, slices: &[], numbers: &["x"] },
    Entry { name: "exp", takes_record: false, slices: &[], numbers: &["x"] },
    Entry { name: "powf", takes_record: false, slices: &[], numbers: &["x", "y"] },
];

pub fn entry_of(call: &Call) -> &'static Entry {
    &ENTRIES[call.entry as usize]
}

// 02, Order 6: "`get_Hs`, `mul_Hs`, correction and combined shift name the serial they expect."
pub fn names_serial(entry: u32) -> bool {
    matches!(entry, GET_HS | MUL_HS | HIGHER_CORRECTION | COMBINED_DS_SHIFT)
}

// "or is 3 in a correction or combined shift"
pub fn takes_kind_3(entry: u32) -> bool {
    !is_plain(entry) && entry != HIGHER_CORRECTION && entry != COMBINED_DS_SHIFT
}

// The entries that document 01 refuses nothing to.
pub fn is_plain(entry: u32) -> bool {
    entry == HOUSE_SETTINGS || entry >= SQRT
}

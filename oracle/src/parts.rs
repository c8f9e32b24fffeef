// Calls that tell a record's parts from each other. q, r and d1 of kind 3 have 32 places each, of which dim1, dim2 and dim1 are used. A call that takes
// one of them for another judges it to the other's length: where that is less, it misses a NaN in the last place that is used. Nothing else is wrong
// with these calls. Random ones meet it only where both dims and the NaN's place happen to fit.

use crate::expected::expected;
use crate::sums::{self, generalized};
use crate::types::*;
use alloc::vec::Vec;

pub fn rows() -> Vec<Call> {
    let mut rows = Vec::new();
    for entry in (0..SQRT).filter(|&entry| ENTRIES[entry as usize].takes_record && takes_kind_3(entry)) {
        let call = |dim2| sums::call(entry, Cone { dim2, ..generalized(&[0.5, 0.5], 1) });
        // the tail is shorter than the head, and longer
        let (mut q, mut d1, mut r) = (call(1), call(1), call(3));
        q.record.wide.q[1] = f64::NAN;
        d1.record.wide.d1[1] = f64::NAN;
        r.record.wide.r[2] = f64::NAN;
        rows.extend([q, d1, r]);
    }
    rows
}

// "an input number is NaN or infinite"
pub fn holds() -> bool {
    rows().iter().all(|call| expected(call).reply.code == 3)
}

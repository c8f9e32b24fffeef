// The Rust of documents 000 to 003, text unchanged but for what document 02 repairs (`oracle/repaired`), and what is seen of it from outside: Newton's
// rounds, the tests of a search and the points tested. `SPINDLE_RUST` names the folder of the four files.

#![allow(non_snake_case, dead_code, unused_imports)]

use crate::algebra::FloatT;
pub(crate) use crate::solver::{core::ScalingStrategy, CoreSettings};
use crate::types::{Cone as ConeData, Scaling, Wide, MOST};
pub(crate) use alloc::{boxed::Box, vec, vec::Vec};
pub(crate) use nonsymmetric_common::{
    backtrack_search, newton_raphson_onesided, Nonsymmetric3DCone, Nonsymmetric3DConeUtils, NonsymmetricCone, NonsymmetricNDCone,
};

// the one macro that the text takes from the crate itertools
pub(crate) mod itertools {
    macro_rules! izip {
        ($a:expr, $b:expr, $c:expr) => {
            core::iter::zip(core::iter::zip($a, $b), $c).map(|((a, b), c)| (a, b, c))
        };
        ($a:expr, $b:expr, $c:expr, $d:expr) => {
            core::iter::zip(core::iter::zip(core::iter::zip($a, $b), $c), $d).map(|(((a, b), c), d)| (a, b, c, d))
        };
    }
    pub(crate) use izip;
}

pub(crate) enum PrimalOrDualCone {
    PrimalCone,
    DualCone,
}

pub(crate) trait Cone<T: FloatT> {
    fn degree(&self) -> usize;
    fn numel(&self) -> usize;
    fn is_symmetric(&self) -> bool;
    fn is_sparse_expandable(&self) -> bool;
    fn allows_primal_dual_scaling(&self) -> bool;
    fn rectify_equilibration(&self, δ: &mut [T], e: &[T]) -> bool;
    fn margins(&mut self, z: &mut [T], pd: PrimalOrDualCone) -> (T, T);
    fn scaled_unit_shift(&self, z: &mut [T], α: T, pd: PrimalOrDualCone);
    fn unit_initialization(&self, z: &mut [T], s: &mut [T]);
    fn set_identity_scaling(&mut self);
    fn update_scaling(&mut self, s: &[T], z: &[T], μ: T, scaling_strategy: ScalingStrategy) -> bool;
    fn Hs_is_diagonal(&self) -> bool;
    fn get_Hs(&self, Hsblock: &mut [T]);
    fn mul_Hs(&mut self, y: &mut [T], x: &[T], work: &mut [T]);
    fn affine_ds(&self, ds: &mut [T], s: &[T]);
    fn combined_ds_shift(&mut self, shift: &mut [T], step_z: &mut [T], step_s: &mut [T], σμ: T);
    fn Δs_from_Δz_offset(&mut self, out: &mut [T], ds: &[T], work: &mut [T], z: &[T]);
    fn step_length(&mut self, dz: &[T], ds: &[T], z: &[T], s: &[T], settings: &CoreSettings<T>, αmax: T) -> (T, T);
    fn compute_barrier(&mut self, z: &[T], s: &[T], dz: &[T], ds: &[T], α: T) -> T;
}

mod text_of_003 {
    include!(concat!(env!("SPINDLE_RUST"), "/nonsymmetric_common.rs"));
}

// 003 under its own name, its two searches wrapped: the text stays as it is and is watched through its closures, of which a search's is
// asked and then overruled (document 02, Order 5).
pub(crate) mod nonsymmetric_common {
    use super::text_of_003 as text;
    pub(crate) use super::text_of_003::{Nonsymmetric3DCone, Nonsymmetric3DConeUtils, NonsymmetricCone, NonsymmetricNDCone};
    use crate::algebra::FloatT;
    use crate::types::Cone;
    use crate::verdict;

    // What the text does not hand back.
    pub(crate) struct Seen {
        pub rounds: u32,
        pub searches: usize,
        pub tests: [u32; 2],
        pub points: [[f64; crate::types::MOST]; 2],
        // of the tests: yes by the text and undecided here, no and undecided, and those at which the text has another residue
        pub turned: [u32; 2],
        pub contradicted: u32,
    }

    pub(crate) static mut SEEN: Seen =
        Seen { rounds: 0, searches: 0, tests: [0; 2], points: [[0.0; crate::types::MOST]; 2], turned: [0; 2], contradicted: 0 };

    // The cone of the searches to come, and for each whether it is on the primal side: a trial then passes by verdict.rs. With none it passes
    // by the text alone.
    pub(crate) static mut TESTED: Option<(Cone, [bool; 2])> = None;

    // Whether a trial of this search passes, of which the text says `text`.
    fn passes<T: FloatT>(place: usize, point: &[T], text: bool) -> bool {
        let seen = unsafe { &mut SEEN };
        seen.tests[place] += 1;
        let Some((cone, primal)) = (unsafe { &TESTED }) else { return text };
        let answer = verdict::answer(cone, primal[place], point, text);
        seen.turned[!text as usize] += (answer == verdict::UNDECIDED) as u32;
        seen.contradicted += (answer == verdict::CONTRADICTED) as u32;
        answer == verdict::YES
    }

    // The text evaluates f1 once in each round.
    pub(crate) fn newton_raphson_onesided<T: FloatT>(x0: T, f0: impl Fn(T) -> T, f1: impl Fn(T) -> T) -> T {
        unsafe { SEEN.rounds = 0 };
        text::newton_raphson_onesided(x0, f0, |x| {
            unsafe { SEEN.rounds += 1 };
            f1(x)
        })
    }

    pub(crate) fn backtrack_search<T: FloatT>(
        dq: &[T], q: &[T], α_init: T, α_min: T, step: T, is_in_cone_fcn: impl Fn(&[T]) -> bool, work: &mut [T],
    ) -> T {
        let place = unsafe { SEEN.searches };
        unsafe { SEEN.tests[place] = 0 };
        let is_in_cone = |point: &[T]| passes(place, point, is_in_cone_fcn(point));
        let α = text::backtrack_search(dq, q, α_init, α_min, step, is_in_cone, work);
        // the point that was tested, or q where the step is zero
        let point: &[T] = if α == T::zero() { q } else { work };
        for (i, x) in point.iter().enumerate() {
            unsafe { SEEN.points[place][i] = x.to_f64() };
        }
        unsafe { SEEN.searches += 1 };
        α
    }
}

// 003's search over any test, not watched: for a plan's long vectors (plans.rs).
pub(crate) fn long_search<T: FloatT>(dq: &[T], q: &[T], settings: &[T; 3], passes: impl Fn(&[T]) -> bool, work: &mut [T]) -> T {
    let [start, step, smallest] = *settings;
    text_of_003::backtrack_search(dq, q, start, smallest, step, passes, work)
}

pub(crate) mod expcone {
    include!(concat!(env!("SPINDLE_RUST"), "/expcone.rs"));

    use crate::types::Three;

    impl ExponentialCone<f64> {
        pub fn of_three(three: &Three) -> Self {
            Self { H_dual: DenseMatrixSym3 { data: three.h_dual }, Hs: DenseMatrixSym3 { data: three.hs }, grad: three.grad, z: three.z }
        }

        pub fn three(&self) -> Three {
            Three { z: self.z, grad: self.grad, h_dual: self.H_dual.data, hs: self.Hs.data }
        }
    }

    // the argument of omega, for cases aimed at its limits
    pub fn wright_omega(z: f64) -> f64 {
        _wright_omega(z)
    }
}

pub(crate) mod powcone {
    include!(concat!(env!("SPINDLE_RUST"), "/powcone.rs"));

    use crate::types::Three;

    impl PowerCone<f64> {
        pub fn of_three(α: f64, three: &Three) -> Self {
            Self {
                α, H_dual: DenseMatrixSym3 { data: three.h_dual }, Hs: DenseMatrixSym3 { data: three.hs }, grad: three.grad, z: three.z
            }
        }

        pub fn three(&self) -> Three {
            Three { z: self.z, grad: self.grad, h_dual: self.H_dual.data, hs: self.Hs.data }
        }
    }
}

pub(crate) mod genpowcone {
    include!(concat!(env!("SPINDLE_RUST"), "/genpowcone.rs"));

    use crate::types::Wide;

    impl GenPowerCone<f64> {
        // `GenPowerConeData::new` asserts another rule on the exponents than document 01: its fields are filled here, psi as `new` fills it.
        pub fn of_wide(α: &[f64], dim2: usize, wide: &Wide) -> Self {
            let dim1 = α.len();
            let dim = dim1 + dim2;
            let data = GenPowerConeData {
                grad: Vec::from(&wide.grad[..dim]),
                z: Vec::from(&wide.z[..dim]),
                μ: wide.mu,
                p: Vec::from(&wide.p[..dim]),
                q: Vec::from(&wide.q[..dim1]),
                r: Vec::from(&wide.r[..dim2]),
                d1: Vec::from(&wide.d1[..dim1]),
                d2: wide.d2,
                ψ: 1.0 / α.sumsq(),
                work: vec![0.0; dim],
                work_pb: vec![0.0; dim],
            };
            Self { α: Vec::from(α), dim2, data: Box::new(data) }
        }

        // The numbers of the record; places that the kind does not use are +0.
        pub fn wide(&self) -> Wide {
            let mut wide = Wide::ZERO;
            wide.z[..self.dim()].copy_from(&self.data.z);
            wide.mu = self.data.μ;
            wide.grad[..self.dim()].copy_from(&self.data.grad);
            wide.p[..self.dim()].copy_from(&self.data.p);
            wide.q[..self.dim1()].copy_from(&self.data.q);
            wide.r[..self.dim2()].copy_from(&self.data.r);
            wide.d1[..self.dim1()].copy_from(&self.data.d1);
            wide.d2 = self.data.d2;
            wide
        }
    }
}

// A cone of the text, filled from a scaling record whose cone is good.
pub(crate) enum Oracle {
    Exponential(expcone::ExponentialCone<f64>),
    Power(powcone::PowerCone<f64>),
    Generalized(genpowcone::GenPowerCone<f64>),
}

impl Oracle {
    pub fn of(cone: &ConeData, record: &Scaling) -> Oracle {
        match cone.kind {
            1 => Oracle::Exponential(expcone::ExponentialCone::of_three(&record.three)),
            2 => Oracle::Power(powcone::PowerCone::of_three(cone.exps[0], &record.three)),
            _ => {
                let α = &cone.exps[..cone.dim1 as usize];
                Oracle::Generalized(genpowcone::GenPowerCone::of_wide(α, cone.dim2 as usize, &record.wide))
            }
        }
    }

    pub fn cone(&mut self) -> &mut dyn Cone<f64> {
        match self {
            Oracle::Exponential(c) => c,
            Oracle::Power(c) => c,
            Oracle::Generalized(c) => c,
        }
    }

    pub fn nonsymmetric(&mut self) -> &mut dyn NonsymmetricCone<f64> {
        match self {
            Oracle::Exponential(c) => c,
            Oracle::Power(c) => c,
            Oracle::Generalized(c) => c,
        }
    }

    pub fn gradient_primal(&self, g: &mut [f64], s: &[f64]) {
        match self {
            Oracle::Exponential(c) => g.copy_from_slice(&c.gradient_primal(s)),
            Oracle::Power(c) => g.copy_from_slice(&c.gradient_primal(s)),
            Oracle::Generalized(c) => c.gradient_primal(g, s),
        }
    }

    // the record's numbers, those that the kind does not use +0
    pub fn store(&self, record: &mut Scaling) {
        record.three = crate::types::Three::ZERO;
        record.wide = Wide::ZERO;
        match self {
            Oracle::Exponential(c) => record.three = c.three(),
            Oracle::Power(c) => record.three = c.three(),
            Oracle::Generalized(c) => record.wide = c.wide(),
        }
    }
}

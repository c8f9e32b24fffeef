//! One step for a list of cones, on one side or on both.
use crate::{face, Cone, Found, Refusal, Settings, Trouble};
use core::mem::{align_of, offset_of, size_of};

/// The most cones that a plan can have.
pub const MOST_CONES: usize = 1024;

// The library reads a list of cones by its words: a slice of cones is that list only if a Cone lies in memory as C lays it out.
const _: () = assert!(size_of::<Cone>() == 272 && align_of::<Cone>() == 8);
const _: () = assert!(offset_of!(Cone, kind) == 0 && offset_of!(Cone, dim1) == 4 && offset_of!(Cone, dim2) == 8);
const _: () = assert!(offset_of!(Cone, rule) == 12 && offset_of!(Cone, exps) == 16);

/// 1 to 1,024 cones over one long vector: the first cone has its first numbers, the next those that follow, and so on.
///
/// A search takes the largest trial at which every cone passes on its part. That is not the least of the steps that the cones take by
/// themselves: a cone that passes at a trial may fail at a smaller one, where q lies outside of it. [`Plan::step`] takes the one step for
/// both sides of a round; [`Plan::search_primal`] and [`Plan::search_dual`] are for one side alone.
///
/// ```
/// use spindle::{Cone, Plan, Settings};
///
/// let cones = [Cone::exponential(), Cone::power(0.5)?];
/// let plan = Plan::of(&cones)?;
/// let q = [-1.0, 1.0, 1.0, 1.0, 1.0, 0.0];
/// let dq = [0.0, 0.0, 0.0, 0.0, 0.0, 4.0];
/// let mut point = [0.0; 6];
/// let found = plan.search_primal(&dq, &q, &mut point, Settings::house(1.0))?;
/// assert_eq!((found.step, found.tests), (0.125, 8)); // four trials, and both cones tested at each
/// for (cone, part) in plan.parts(&point)? {
///     assert!(cone.is_primal_feasible(part)?.is_yes());
/// }
/// # Ok::<(), spindle::Refusal>(())
/// ```
#[derive(Clone, Copy, Debug)]
pub struct Plan<'a> {
    cones: &'a [Cone],
    length: usize,
}

impl<'a> Plan<'a> {
    /// The plan of these cones, in this order. [`Refusal::BadCone`] if there are none, or more than [`MOST_CONES`].
    pub fn of(cones: &'a [Cone]) -> Result<Plan<'a>, Refusal> {
        if cones.is_empty() || cones.len() > MOST_CONES {
            return Err(Refusal::BadCone(Trouble::Cones(cones.len())));
        }
        Ok(Plan { cones, length: cones.iter().map(Cone::length).sum() })
    }

    /// Its cones.
    pub fn cones(&self) -> &'a [Cone] {
        self.cones
    }

    /// How many numbers a point of the plan has: those of its cones together.
    pub fn length(&self) -> usize {
        self.length
    }

    /// [`Plan::length`], by the name that the Rust solver has for it.
    pub fn numel(&self) -> usize {
        self.length
    }

    /// The degrees of its cones together, by which μ = ⟨s,z⟩/degree.
    pub fn degree(&self) -> usize {
        self.cones.iter().map(Cone::degree).sum()
    }

    /// The one step for both sides of a round: the largest trial at which every cone passes on its part of z + step·dz in its dual cone
    /// and on its part of s + step·ds in its primal cone; 0 exactly if there is none. `dual_point` and `primal_point` become the very
    /// points that were tested, or z and s for step 0.
    ///
    /// At a trial the cones are tested in list order on the dual side, then in list order on the primal side, and it ends at the first test
    /// that fails; [`Found::tests`] are these single tests. The step is above neither side's own, and need not be the less of the two.
    ///
    /// [`Refusal::BadLength`] if one of the six slices has another length than [`Plan::length`], [`Refusal::NotFinite`] and
    /// [`Refusal::BadSettings`] as in every search. Then neither point was written.
    ///
    /// ```
    /// use spindle::{Cone, Plan, Settings};
    ///
    /// let cones = [Cone::exponential(), Cone::power(0.5)?];
    /// let plan = Plan::of(&cones)?;
    /// let (z, s) = ([-1.0, 0.0, 1.0, 1.0, 1.0, 0.0], [-1.0, 1.0, 1.0, 1.0, 1.0, 0.0]);
    /// let (dz, ds) = ([0.0, 0.0, 0.0, 0.0, 0.0, 2.0], [0.0, 0.0, 0.0, 0.0, 0.0, 4.0]);
    /// let (mut dual, mut primal) = ([0.0; 6], [0.0; 6]);
    /// let found = plan.step(&dz, &ds, &z, &s, &mut dual, &mut primal, Settings::house(1.0))?;
    /// // the dual side fails at 1, the primal side at 1/2 and 1/4
    /// assert_eq!((found.step, found.tests), (0.125, 14));
    /// for ((cone, z), (_, s)) in plan.parts(&dual)?.zip(plan.parts(&primal)?) {
    ///     assert!(cone.is_dual_feasible(z)?.is_yes() && cone.is_primal_feasible(s)?.is_yes());
    /// }
    /// # Ok::<(), spindle::Refusal>(())
    /// ```
    #[allow(clippy::too_many_arguments)]
    pub fn step(
        &self, dz: &[f64], ds: &[f64], z: &[f64], s: &[f64], dual_point: &mut [f64], primal_point: &mut [f64], settings: Settings,
    ) -> Result<Found, Refusal> {
        let out = unsafe {
            face::spindle_plan_step(
                self.cones.as_ptr(),
                self.cones.len(),
                dz.as_ptr(),
                dz.len(),
                ds.as_ptr(),
                ds.len(),
                z.as_ptr(),
                z.len(),
                s.as_ptr(),
                s.len(),
                dual_point.as_mut_ptr(),
                dual_point.len(),
                primal_point.as_mut_ptr(),
                primal_point.len(),
                settings,
            )
        };
        Refusal::check(out.code)?;
        Ok(Found { step: out.step, tests: out.count })
    }

    /// The largest trial for which every cone's part of q + step·dq passes in its primal cone; 0 exactly if there is none. `point` becomes
    /// the tested point, or q for step 0. [`Found::tests`] are tests of single cones: a trial ends at its first cone that fails.
    pub fn search_primal(&self, dq: &[f64], q: &[f64], point: &mut [f64], settings: Settings) -> Result<Found, Refusal> {
        self.search(true, dq, q, point, settings)
    }

    /// The same for the dual cones.
    pub fn search_dual(&self, dq: &[f64], q: &[f64], point: &mut [f64], settings: Settings) -> Result<Found, Refusal> {
        self.search(false, dq, q, point, settings)
    }

    fn search(&self, primal: bool, dq: &[f64], q: &[f64], point: &mut [f64], settings: Settings) -> Result<Found, Refusal> {
        let out = unsafe {
            face::spindle_common_step(
                self.cones.as_ptr(),
                self.cones.len(),
                primal,
                dq.as_ptr(),
                dq.len(),
                q.as_ptr(),
                q.len(),
                point.as_mut_ptr(),
                point.len(),
                settings,
            )
        };
        Refusal::check(out.code)?;
        Ok(Found { step: out.step, tests: out.count })
    }

    /// Each cone with its part of a long point, in list order. [`Refusal::BadLength`] if the point has another length than the cones
    /// together.
    pub fn parts<'p>(&self, point: &'p [f64]) -> Result<Parts<'a, 'p>, Refusal> {
        if point.len() != self.length {
            return Err(Refusal::BadLength);
        }
        Ok(Parts { cones: self.cones.iter(), rest: point })
    }
}

/// What [`Plan::parts`] hands back.
#[derive(Clone, Debug)]
pub struct Parts<'a, 'p> {
    cones: core::slice::Iter<'a, Cone>,
    rest: &'p [f64],
}

impl<'a, 'p> Iterator for Parts<'a, 'p> {
    type Item = (&'a Cone, &'p [f64]);

    fn next(&mut self) -> Option<Self::Item> {
        let cone = self.cones.next()?;
        let (part, rest) = self.rest.split_at(cone.length());
        self.rest = rest;
        Some((cone, part))
    }

    fn size_hint(&self) -> (usize, Option<usize>) {
        self.cones.size_hint()
    }
}

impl ExactSizeIterator for Parts<'_, '_> {}

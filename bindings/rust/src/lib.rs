//! Step searches and scalings for the exponential, power and generalized power cone, from a library whose calls are proved to meet their
//! contracts. docs/PROMISES.md says what stands in front of them unproved: on the way to the methods of [`Scaling`] a line of C each, which
//! takes the record apart.
//!
//! ```
//! use spindle::{Answer, Cone, Settings};
//!
//! let cone = Cone::power(0.5)?;
//! let (dq, q) = ([-1.0, 0.0, 0.0], [1.0, 1.0, 0.5]);
//! let mut point = [0.0; 3];
//! let found = cone.search_primal(&dq, &q, &mut point, Settings::house(1.0))?;
//! assert!(found.step > 0.0 && cone.is_primal_feasible(&point)? == Answer::Yes);
//! # Ok::<(), spindle::Refusal>(())
//! ```
//!
//! A test of feasibility answers yes, no or undecided ([`Answer`]): near the wall of a cone the sign of what it computes is noise. A search
//! takes a point only on yes.
//!
//! A [`Plan`] searches the one step that all cones of a list can take, on one side or on both.
//!
//! A [`Recorder`] makes the same searches and keeps each in a trace, bytes that a [`Trace`] reads again, and replays: every search is run
//! once more and compared with its record. What a host that lost power left of one, [`rescue`] makes a trace again; [`thin`] and
//! [`thin_in_place`] drop the records of one that are equal to an earlier one. A [`Sheet`] counts over many of them.
//!
//! A call that is refused changes nothing that it was given: slices keep their contents, a record stays as it was. The numbers of a
//! [`Refusal`] are those of the library's scope document. No call allocates, and none panics.
//!
//! The library runs on Linux, x86-64 or Arm (aarch64). A cone passes by value, 272 bytes; the methods of [`Scaling`] pass the record's
//! address. A C call takes at most 23 KB of stack on either machine, as bench/run measures it, with these exceptions: [`thin`] and
//! [`thin_in_place`] take 66 KB, [`Trace::replay`] 42, [`rescue`], [`Sheet::add`] and sealing a trace 33.
//!
//! Why the calls are safe to make: the library takes every number, length and code and answers all of them; a slice is passed as the pointer and
//! length of a Rust slice, read or written within that length alone. The C face asks its caller that no buffer overlaps another array of its
//! call, or the record, and that no other thread uses a record while it is updated. The borrows see to both.
#![no_std]
#![deny(missing_docs)]

mod face;
mod plan;
mod sheet;
mod trace;
mod trouble;

use core::mem::{offset_of, size_of};

pub use plan::{Parts, Plan, MOST_CONES};
pub use sheet::{Most, Sheet, Side, MOST_FILES, SHEET_TEXT};
pub use trace::{
    rescue, thin, thin_in_place, Recorded, Recorder, Records, Replay, Rescue, Thin, Trace, TraceBuffer, FILE_BYTES, MOST_RECORDS,
    NEWEST_EDITION,
};
pub use trouble::Trouble;

/// The version of this crate, which is that of the library and its C header.
pub const VERSION: &str = env!("CARGO_PKG_VERSION");

/// The version of the library that the program runs with, as 10000 times its first number, 100 times its second and its third.
pub fn version() -> u32 {
    unsafe { face::spindle_version() }
}

/// Why a call was refused. [`Refusal::number`] is the number that the C face hands back. Later versions may give more.
#[derive(Clone, Copy, Debug, PartialEq, Eq, Hash)]
#[non_exhaustive]
pub enum Refusal {
    /// 1: the cone's kind, rule, exponents, dims or exponent sum, or a generalized cone in a correction or combined shift; a plan of no
    /// cones or of more than 1,024. The [`Trouble`] says which of them, with the number that is wrong.
    BadCone(Trouble),
    /// 2: a slice has another length than needed.
    BadLength,
    /// 3: an input number is NaN or infinite.
    NotFinite,
    /// 4: the search start, step or smallest step, or the strategy code.
    BadSettings,
    /// 5: the record was never scaled.
    NeverScaled,
    /// 6: the point lies where the formula has no value, and the original code would panic.
    OutOfRange,
    /// 7: the finished answer holds a NaN or an infinity.
    AnswerNotFinite,
    /// 8: a trace has no room for what would be written, or 4,096 records already; a replay has no room for its offsets, a rescue or a
    /// thinning for its trace, a sheet for another file.
    NoRoom,
    /// 9: the bytes are no trace, a record breaks a trace's layout, or an edition is not known, or has no place for a cone's rule; a sheet
    /// that no files can have. It comes before 8.
    BadTrace,
    /// 10: the record has another serial than the call expects: it is of another round. It comes after 5.
    OtherSerial,
    /// 11: the record has the last serial, 4,294,967,295, and is updated no more. It comes after 4 and before 6.
    NoSerialLeft,
    /// Any other number: the archive is of a later version than this crate.
    Unknown(u32),
}

impl Refusal {
    /// The number of the scope document's table.
    pub fn number(self) -> u32 {
        match self {
            Refusal::BadCone(_) => 1,
            Refusal::BadLength => 2,
            Refusal::NotFinite => 3,
            Refusal::BadSettings => 4,
            Refusal::NeverScaled => 5,
            Refusal::OutOfRange => 6,
            Refusal::AnswerNotFinite => 7,
            Refusal::NoRoom => 8,
            Refusal::BadTrace => 9,
            Refusal::OtherSerial => 10,
            Refusal::NoSerialLeft => 11,
            Refusal::Unknown(number) => number,
        }
    }

    /// One sentence on what the number means. What is wrong with a cone is told by its [`Trouble`], and by the refusal's `Display`.
    pub fn sentence(self) -> &'static str {
        match self {
            Refusal::BadCone(_) => {
                "bad cone: its kind, its rule, an exponent, a dim or the exponent sum is not allowed; or a plan of no cones or above 1,024"
            }
            Refusal::BadLength => "a slice has another length than needed",
            Refusal::NotFinite => "an input number is NaN or infinite",
            Refusal::BadSettings => "the search start, step, smallest step or the strategy is not allowed",
            Refusal::NeverScaled => "the record was never scaled",
            Refusal::OutOfRange => "the point lies where the formula has no value",
            Refusal::AnswerNotFinite => "the finished answer holds a NaN or an infinity",
            Refusal::NoRoom => {
                "no room for what the trace, the sheet or its text would become or for the offsets; or 4,096 records or 1,000 files already"
            }
            Refusal::BadTrace => {
                "no trace, a record that breaks a trace's layout, an edition that is not known, or a sheet that no files can have"
            }
            Refusal::OtherSerial => "the record has another serial than the call expects",
            Refusal::NoSerialLeft => "the record has the last serial: make a fresh one",
            Refusal::Unknown(_) => "a number that this crate does not know",
        }
    }

    fn check(code: u32) -> Result<(), Refusal> {
        match code {
            0 => Ok(()),
            1 => Err(Refusal::BadCone(Trouble::Unknown)),
            2 => Err(Refusal::BadLength),
            3 => Err(Refusal::NotFinite),
            4 => Err(Refusal::BadSettings),
            5 => Err(Refusal::NeverScaled),
            6 => Err(Refusal::OutOfRange),
            7 => Err(Refusal::AnswerNotFinite),
            8 => Err(Refusal::NoRoom),
            9 => Err(Refusal::BadTrace),
            10 => Err(Refusal::OtherSerial),
            11 => Err(Refusal::NoSerialLeft),
            number => Err(Refusal::Unknown(number)),
        }
    }
}

impl core::fmt::Display for Refusal {
    fn fmt(&self, f: &mut core::fmt::Formatter<'_>) -> core::fmt::Result {
        match self {
            Refusal::BadCone(trouble) => write!(f, "refused with 1: {trouble}"),
            _ => write!(f, "refused with {}: {}", self.number(), self.sentence()),
        }
    }
}

impl core::error::Error for Refusal {}

/// What a step search is told: the first trial, the factor between trials, and the step below which it gives up.
#[derive(Clone, Copy, Debug, PartialEq)]
#[repr(C)]
pub struct Settings {
    /// The first trial; above 0.
    pub start: f64,
    /// The factor from one trial to the next; above 0, at most 0.99.
    pub step: f64,
    /// No later trial below this is tested; a positive normal number.
    pub smallest: f64,
}

impl Settings {
    /// The house defaults with this start.
    pub fn house(start: f64) -> Settings {
        unsafe { face::spindle_house_settings(start) }
    }
}

/// How an update computes the scaling of a three-dimensional cone.
#[derive(Clone, Copy, Debug, PartialEq, Eq)]
#[repr(u32)]
pub enum Strategy {
    /// The dual Hessian times the caller's μ.
    Dual = 1,
    /// The primal-dual scaling, with its fallback.
    PrimalDual = 2,
}

impl Default for Strategy {
    /// The house's strategy, as the library names it: primal-dual.
    fn default() -> Strategy {
        match unsafe { face::spindle_house_strategy() } {
            1 => Strategy::Dual,
            _ => Strategy::PrimalDual,
        }
    }
}

/// What a test of feasibility answers: whether the computed residue, which is above 0 inside the cone, is above its margin.
///
/// The margins are those of document 02's Order 5: with l the logarithm of the residue, 2^-40·(s2·(1+|l|)+|s1|) for the exponential cone
/// and 2^-40·(|z2|+|z1|·(1+|l|)) for its dual; 2^-30·(e+q) for both power cones, whose residue is e-q.
///
/// Where each coordinate is zero or from 2^-500 to 2^500 in size, a yes says that the point itself lies inside,
/// with document 01's L for the logarithm and no rounding at all, and a no that no sign has caused says that it lies outside (document 02's
/// Order 12). Undecided promises nothing.
#[derive(Clone, Copy, Debug, PartialEq, Eq, Hash)]
pub enum Answer {
    /// The residue is below minus its margin, or a coordinate has the wrong sign.
    No,
    /// The residue is above its margin: the point passes.
    Yes,
    /// Neither. So is a point whose margin is infinite or no number.
    Undecided,
}

impl Answer {
    /// Whether the point passes, as the points that a search takes do.
    pub fn is_yes(self) -> bool {
        self == Answer::Yes
    }

    fn of(out: face::Verdict) -> Result<Answer, Refusal> {
        Refusal::check(out.code)?;
        Ok(match out.answer {
            0 => Answer::No,
            1 => Answer::Yes,
            _ => Answer::Undecided,
        })
    }
}

/// What a search found.
#[derive(Clone, Copy, Debug, PartialEq)]
pub struct Found {
    /// The first allowed trial whose point passed, its test's answer being [`Answer::Yes`]; 0 exactly if none did. Where it is not 0, a
    /// point with coordinates of the sizes that [`Answer`] names lies exactly inside.
    pub step: f64,
    /// How many points were tested; of a [`Plan`], how many cones.
    pub tests: u32,
}

/// How far from 1 the computed sum of a generalized cone's exponents may be: document 02's Order 9. Exactly that far is taken.
///
/// Every cone is under a rule, and carries it into its records and into traces; to the exponential and the power cone it makes no
/// difference. What rule 2 takes rule 1 takes as well, with equal answers. The constructors take the newer one, [`Rule::NEWEST`], unless
/// they are told another.
///
/// ```
/// use spindle::{Cone, Rule};
///
/// // a sum of 1 + 2^-45
/// let exponents = [0.25, 0.75 + 2f64.powi(-45)];
/// let why = Cone::generalized(&exponents, 2).unwrap_err();
/// assert_eq!(why.to_string(), "refused with 1: the exponents sum to 1.0000000000000284: rule 2 takes 1 within 2^-50");
/// let old = Cone::generalized_under(Rule::One, &exponents, 2)?;
/// assert_eq!((old.rule(), old.under(Rule::Two)), (Rule::One, Err(why)));
/// # Ok::<(), spindle::Refusal>(())
/// ```
#[derive(Clone, Copy, Debug, PartialEq, Eq, Hash)]
#[repr(u32)]
pub enum Rule {
    /// Of cones from the planner's release 1: the sum is within 2^-40 of 1.
    One = 1,
    /// From the planner's release 2 on: the sum is within 2^-50 of 1.
    Two = 2,
}

impl Rule {
    /// The newer one, which a cone has whose constructor was not told another: rule 2.
    pub const NEWEST: Rule = Rule::Two;

    /// The number that the C face and a trace have: 1 or 2.
    pub fn number(self) -> u32 {
        self as u32
    }
}

impl Default for Rule {
    /// [`Rule::NEWEST`].
    fn default() -> Rule {
        Rule::NEWEST
    }
}

/// Which of the three cones it is.
#[derive(Clone, Copy, Debug, PartialEq, Eq, Hash)]
#[repr(u32)]
pub enum Kind {
    /// The exponential cone.
    Exponential = 1,
    /// The power cone.
    Power = 2,
    /// The generalized power cone.
    Generalized = 3,
}

impl Kind {
    /// The number that the C face and a trace have: 1, 2 or 3.
    pub fn number(self) -> u32 {
        self as u32
    }
}

/// A cone. The constructors refuse what the library would refuse. They take the newer rule, [`Rule::NEWEST`]; [`Cone::under`] and
/// [`Cone::generalized_under`] name another.
#[derive(Clone, Copy, Debug, PartialEq)]
#[repr(C)]
pub struct Cone {
    kind: u32,
    dim1: u32,
    dim2: u32,
    rule: u32,
    exps: [f64; 32],
}

// the C struct's size, and where its rule stands
const _: () = assert!(size_of::<Cone>() == 272 && offset_of!(Cone, rule) == 12);

impl Cone {
    /// The exponential cone, under the newer rule.
    pub fn exponential() -> Cone {
        Cone { kind: 1, dim1: 0, dim2: 0, rule: Rule::NEWEST as u32, exps: [0.0; 32] }
    }

    /// The power cone with an exponent above 0 and below 1, under the newer rule.
    pub fn power(exponent: f64) -> Result<Cone, Refusal> {
        let mut exps = [0.0; 32];
        exps[0] = exponent;
        Cone { kind: 2, dim1: 0, dim2: 0, rule: Rule::NEWEST as u32, exps }.judged()
    }

    /// The generalized power cone: 1 to 32 exponents that sum to 1, and a tail of 1 to 32 numbers. It is under the newer rule,
    /// [`Rule::Two`]: the exponents, added from the first on, may be off by 2^-50. A cone of release 1, whose sum may be off by 2^-40, is
    /// made by [`Cone::generalized_under`].
    pub fn generalized(exponents: &[f64], dim2: usize) -> Result<Cone, Refusal> {
        Cone::generalized_under(Rule::NEWEST, exponents, dim2)
    }

    /// The generalized power cone under the rule that is named.
    pub fn generalized_under(rule: Rule, exponents: &[f64], dim2: usize) -> Result<Cone, Refusal> {
        if exponents.len() > 32 {
            return Err(Refusal::BadCone(Trouble::Dim1(exponents.len())));
        }
        if dim2 > 32 {
            return Err(Refusal::BadCone(Trouble::Dim2(dim2)));
        }
        let mut exps = [0.0; 32];
        exps[..exponents.len()].copy_from_slice(exponents);
        Cone { kind: 3, dim1: exponents.len() as u32, dim2: dim2 as u32, rule: rule as u32, exps }.judged()
    }

    /// The same cone under the rule that is named: [`Refusal::BadCone`] where that does not take it, as rule 2 does not take every
    /// generalized cone of rule 1. Rule 1 takes every cone.
    pub fn under(self, rule: Rule) -> Result<Cone, Refusal> {
        Cone { rule: rule as u32, ..self }.judged()
    }

    /// The rule that the cone is under.
    pub fn rule(&self) -> Rule {
        if self.rule == 1 {
            Rule::One
        } else {
            Rule::Two
        }
    }

    fn judged(self) -> Result<Cone, Refusal> {
        match unsafe { face::spindle_fresh(self) }.code {
            0 => Ok(self),
            1 => Err(Refusal::BadCone(Trouble::of(&self).unwrap_or(Trouble::Unknown))),
            code => Refusal::check(code).map(|()| self),
        }
    }

    /// Which of the three cones it is.
    pub fn kind(&self) -> Kind {
        match self.kind {
            1 => Kind::Exponential,
            2 => Kind::Power,
            _ => Kind::Generalized,
        }
    }

    /// How many numbers the head and the tail of a point have. A generalized cone's head has a number for each exponent; the other two
    /// kinds have 3 and 0, as in a trace.
    ///
    /// ```
    /// use spindle::{Cone, Kind};
    /// let cone = Cone::generalized(&[0.5, 0.25, 0.25], 2)?;
    /// assert_eq!((cone.kind(), cone.dims(), cone.exponents()), (Kind::Generalized, (3, 2), &[0.5, 0.25, 0.25][..]));
    /// assert_eq!((cone.length(), cone.degree()), (5, 4));
    /// let cone = Cone::power(0.75)?;
    /// assert_eq!((cone.kind(), cone.dims(), cone.exponents()), (Kind::Power, (3, 0), &[0.75][..]));
    /// assert_eq!((cone.length(), cone.degree()), (3, 3));
    /// # Ok::<(), spindle::Refusal>(())
    /// ```
    pub fn dims(&self) -> (usize, usize) {
        match self.kind() {
            Kind::Generalized => (self.dim1 as usize, self.dim2 as usize),
            _ => (3, 0),
        }
    }

    /// The exponents: none, one, or as many as the head has numbers.
    pub fn exponents(&self) -> &[f64] {
        let count = match self.kind() {
            Kind::Exponential => 0,
            Kind::Power => 1,
            Kind::Generalized => self.dim1 as usize,
        };
        &self.exps[..count]
    }

    /// How many numbers a point of the cone has: both [`Cone::dims`] together.
    pub fn length(&self) -> usize {
        let (head, tail) = self.dims();
        head + tail
    }

    /// What the cone adds to a plan's degree, by which μ = ⟨s,z⟩/degree: 3, or one more than the exponents.
    pub fn degree(&self) -> usize {
        match self.kind() {
            Kind::Generalized => self.dim1 as usize + 1,
            _ => 3,
        }
    }

    /// [`Cone::length`], by the name that the Rust solver has for it.
    pub fn numel(&self) -> usize {
        self.length()
    }

    /// A record for this cone that was never scaled.
    pub fn scaling(&self) -> Scaling {
        unsafe { face::spindle_fresh(*self) }.record
    }

    /// Whether s is in the primal cone.
    ///
    /// ```
    /// use spindle::{Answer, Cone};
    /// let cone = Cone::exponential();
    /// assert_eq!(cone.is_primal_feasible(&[-1.0, 1.0, 1.0])?, Answer::Yes);
    /// assert_eq!(cone.is_primal_feasible(&[0.0, 1.0, 1.0])?, Answer::Undecided); // on the wall itself
    /// # Ok::<(), spindle::Refusal>(())
    /// ```
    pub fn is_primal_feasible(&self, s: &[f64]) -> Result<Answer, Refusal> {
        Answer::of(unsafe { face::spindle_is_primal_feasible(*self, s.as_ptr(), s.len()) })
    }

    /// Whether z is in the dual cone.
    pub fn is_dual_feasible(&self, z: &[f64]) -> Result<Answer, Refusal> {
        Answer::of(unsafe { face::spindle_is_dual_feasible(*self, z.as_ptr(), z.len()) })
    }

    /// The dual barrier at z.
    pub fn barrier_dual(&self, z: &[f64]) -> Result<f64, Refusal> {
        number(unsafe { face::spindle_barrier_dual(*self, z.as_ptr(), z.len()) })
    }

    /// The gradient and the Hessian of the dual barrier at z. [`Refusal::OutOfRange`] where a generalized cone's ζ is not above 0.
    pub fn dual_gradient(&self, z: &[f64]) -> Result<DualGradient, Refusal> {
        let out = unsafe { face::spindle_dual_grad_h(*self, z.as_ptr(), z.len()) };
        Refusal::check(out.code)?;
        Ok(DualGradient { three: out.three, wide: out.wide })
    }

    /// The first allowed step for which the test of q + step·dq says [`Answer::Yes`] in the primal cone; `point` becomes the tested point,
    /// or q for step 0. A point that is undecided does not pass.
    pub fn search_primal(&self, dq: &[f64], q: &[f64], point: &mut [f64], settings: Settings) -> Result<Found, Refusal> {
        self.search(true, dq, q, point, settings)
    }

    /// The same for the dual cone.
    pub fn search_dual(&self, dq: &[f64], q: &[f64], point: &mut [f64], settings: Settings) -> Result<Found, Refusal> {
        self.search(false, dq, q, point, settings)
    }

    fn search(&self, primal: bool, dq: &[f64], q: &[f64], point: &mut [f64], settings: Settings) -> Result<Found, Refusal> {
        let out = unsafe {
            face::spindle_backtrack_search(
                *self,
                primal,
                dq.as_ptr(),
                dq.len(),
                q.as_ptr(),
                q.len(),
                point.as_mut_ptr(),
                point.len(),
                settings,
            )
        };
        Refusal::check(out.code)?;
        Ok(Found { step: out.step, tests: out.count })
    }

    /// Both searches of a round: along dz from z in the dual cone, then along ds from s in the primal cone. Hands back the dual and the
    /// primal answer; `dual_point` and `primal_point` become the tested points, or z and s for step 0.
    #[allow(clippy::too_many_arguments)]
    pub fn step_length(
        &self, dz: &[f64], ds: &[f64], z: &[f64], s: &[f64], dual_point: &mut [f64], primal_point: &mut [f64], settings: Settings,
    ) -> Result<(Found, Found), Refusal> {
        self.steps(dz, ds, z, s, dual_point, primal_point, settings).map(|steps| steps.found())
    }

    #[allow(clippy::too_many_arguments)]
    fn steps(
        &self, dz: &[f64], ds: &[f64], z: &[f64], s: &[f64], dual_point: &mut [f64], primal_point: &mut [f64], settings: Settings,
    ) -> Result<face::Steps, Refusal> {
        let out = unsafe {
            face::spindle_step_length(
                *self,
                dz.as_ptr(),
                dz.len(),
                ds.as_ptr(),
                ds.len(),
                z.as_ptr(),
                z.len(),
                s.as_ptr(),
                s.len(),
                dual_point.as_mut_ptr(),
                dual_point.len(),
                primal_point.as_mut_ptr(),
                primal_point.len(),
                settings,
            )
        };
        Refusal::check(out.code)?;
        Ok(out)
    }

    /// Writes the starting points, z and s.
    pub fn unit_initialization(&self, z: &mut [f64], s: &mut [f64]) -> Result<(), Refusal> {
        Refusal::check(unsafe { face::spindle_unit_initialization(*self, z.as_mut_ptr(), z.len(), s.as_mut_ptr(), s.len()) })
    }

    /// Writes e's mean over each of its numbers, so that the whole cone is scaled by one.
    pub fn rectify_equilibration(&self, delta: &mut [f64], e: &[f64]) -> Result<(), Refusal> {
        Refusal::check(unsafe { face::spindle_rectify_equilibration(*self, delta.as_mut_ptr(), delta.len(), e.as_ptr(), e.len()) }.code)
    }

    /// Writes the affine step's ds, which is s.
    pub fn affine_ds(&self, ds: &mut [f64], s: &[f64]) -> Result<(), Refusal> {
        Refusal::check(unsafe { face::spindle_affine_ds(*self, ds.as_mut_ptr(), ds.len(), s.as_ptr(), s.len()) })
    }

    /// Writes the offset of Δs from Δz, which is ds. z is judged and not read.
    pub fn ds_from_dz_offset(&self, out: &mut [f64], ds: &[f64], z: &[f64]) -> Result<(), Refusal> {
        Refusal::check(unsafe {
            face::spindle_ds_from_dz_offset(*self, out.as_mut_ptr(), out.len(), ds.as_ptr(), ds.len(), z.as_ptr(), z.len())
        })
    }
}

/// The numbers of a three-dimensional record. Blocks are packed (0,0),(0,1),(1,1),(0,2),(1,2),(2,2).
#[derive(Clone, Copy, Debug, PartialEq)]
#[repr(C)]
pub struct Three {
    /// The point of the last update.
    pub z: [f64; 3],
    /// The dual gradient there.
    pub grad: [f64; 3],
    /// The dual Hessian there.
    pub h_dual: [f64; 6],
    /// The scaling block.
    pub hs: [f64; 6],
}

/// The numbers of a generalized record; places behind the cone's dims are +0.
#[derive(Clone, Copy, Debug, PartialEq)]
#[repr(C)]
pub struct Wide {
    /// The point of the last update.
    pub z: [f64; 64],
    /// The central path parameter.
    pub mu: f64,
    /// The dual gradient at z.
    pub grad: [f64; 64],
    /// The scaling is μ·(D + pp' - qq' - rr'), where q stands in the head's places and r in the tail's.
    pub p: [f64; 64],
    /// The head's vector of the scaling: see `p`.
    pub q: [f64; 32],
    /// The tail's vector of the scaling: see `p`.
    pub r: [f64; 32],
    /// The head of the diagonal D.
    pub d1: [f64; 32],
    /// The tail of the diagonal D.
    pub d2: f64,
}

// the C structs' sizes, and where their parts stand
const _: () = assert!(size_of::<Three>() == 144 && offset_of!(Three, grad) == 24);
const _: () = assert!(offset_of!(Three, h_dual) == 48 && offset_of!(Three, hs) == 96);
const _: () = assert!(size_of::<Wide>() == 2320 && offset_of!(Wide, mu) == 512 && offset_of!(Wide, grad) == 520);
const _: () = assert!(offset_of!(Wide, p) == 1032 && offset_of!(Wide, q) == 1544 && offset_of!(Wide, r) == 1800);
const _: () = assert!(offset_of!(Wide, d1) == 2056 && offset_of!(Wide, d2) == 2312);

/// The gradient and Hessian of the dual barrier: `three` for kinds 1 and 2, `wide` for kind 3; the other is +0.
#[derive(Clone, Copy, Debug, PartialEq)]
pub struct DualGradient {
    /// Kinds 1 and 2: `grad` and `h_dual`.
    pub three: Three,
    /// Kind 3: `grad`, `p`, `q`, `r`, `d1`, `d2`.
    pub wide: Wide,
}

/// Which update made a record: [`Scaling::update`] hands it back, and the four calls that use a scaling take it. Nothing else makes one, so
/// a round's number or a count of one's own does not pass for it, and before the first update there is none to pass:
///
/// ```compile_fail,E0308
/// # use spindle::{Cone, Strategy};
/// # let (mut z, mut s, mut block) = ([0.0; 3], [0.0; 3], [0.0; 6]);
/// # let cone = Cone::exponential();
/// # cone.unit_initialization(&mut z, &mut s)?;
/// let mut record = cone.scaling();
/// record.update(&s, &z, 1.0, Strategy::default())?;
/// record.get_hs(1, &mut block)?; // a number is no Serial
/// # Ok::<(), spindle::Refusal>(())
/// ```
///
/// A record that was kept from another round is refused:
///
/// ```
/// # use spindle::{Cone, Refusal, Strategy};
/// # let (mut z, mut s, mut block) = ([0.0; 3], [0.0; 3], [0.0; 6]);
/// # let cone = Cone::exponential();
/// # cone.unit_initialization(&mut z, &mut s)?;
/// let mut record = cone.scaling();
/// let first = record.update(&s, &z, 1.0, Strategy::default())?;
/// let before = record;
/// let second = record.update(&s, &z, 1.0, Strategy::default())?;
/// record.get_hs(second, &mut block)?;
/// assert_eq!(before.get_hs(second, &mut block), Err(Refusal::OtherSerial));
/// assert_eq!(record.get_hs(first, &mut block), Err(Refusal::OtherSerial));
/// # Ok::<(), Refusal>(())
/// ```
#[derive(Clone, Copy, Debug, PartialEq, Eq, Hash)]
pub struct Serial(u32);

impl Serial {
    /// How many updates the record had completed, with this one.
    pub fn number(self) -> u32 {
        self.0
    }
}

/// The scaling record of a cone.
#[derive(Clone, Copy, Debug, PartialEq)]
#[repr(C)]
pub struct Scaling {
    cone: Cone,
    scaled: u32,
    serial: u32,
    three: Three,
    wide: Wide,
}

// the calls in place take the record apart where C has its parts
const _: () = assert!(size_of::<Scaling>() == 2744 && offset_of!(Scaling, scaled) == 272 && offset_of!(Scaling, serial) == 276);
const _: () = assert!(offset_of!(Scaling, three) == 280 && offset_of!(Scaling, wide) == 424);

impl Scaling {
    /// The cone that the record was made for.
    pub fn cone(&self) -> &Cone {
        &self.cone
    }

    /// Whether an update was ever completed.
    pub fn is_scaled(&self) -> bool {
        self.scaled != 0
    }

    /// The numbers of kinds 1 and 2.
    pub fn three(&self) -> &Three {
        &self.three
    }

    /// The numbers of kind 3.
    pub fn wide(&self) -> &Wide {
        &self.wide
    }

    /// Scales anew at (s, z). μ counts for generalized cones and for [`Strategy::Dual`]; it is judged always. A refused update leaves the
    /// record as it was, its serial too. A completed one hands back the new serial, for the four calls below that take one.
    pub fn update(&mut self, s: &[f64], z: &[f64], mu: f64, strategy: Strategy) -> Result<Serial, Refusal> {
        Refusal::check(unsafe {
            face::spindle_update_scaling_in_place(self, s.as_ptr(), s.len(), z.as_ptr(), z.len(), mu, strategy as u32)
        })?;
        Ok(Serial(self.serial))
    }

    /// Writes the primal gradient at s and hands back Newton's rounds (0 where Newton was not entered). Of the record, this and the two
    /// barriers use the cone alone: it need not have been scaled.
    pub fn gradient_primal(&self, g: &mut [f64], s: &[f64]) -> Result<u32, Refusal> {
        let out = unsafe { face::spindle_gradient_primal_in_place(self, g.as_mut_ptr(), g.len(), s.as_ptr(), s.len()) };
        Refusal::check(out.code)?;
        Ok(out.rounds)
    }

    /// The primal barrier at s.
    pub fn barrier_primal(&self, s: &[f64]) -> Result<f64, Refusal> {
        number(unsafe { face::spindle_barrier_primal_in_place(self, s.as_ptr(), s.len()) })
    }

    /// The dual barrier at z + α·dz and the primal barrier at s + α·ds, summed.
    pub fn compute_barrier(&self, z: &[f64], s: &[f64], dz: &[f64], ds: &[f64], alpha: f64) -> Result<f64, Refusal> {
        number(unsafe {
            face::spindle_compute_barrier_in_place(
                self,
                z.as_ptr(),
                z.len(),
                s.as_ptr(),
                s.len(),
                dz.as_ptr(),
                dz.len(),
                ds.as_ptr(),
                ds.len(),
                alpha,
            )
        })
    }

    /// Writes the scaling block: six packed numbers, or the diagonal of a generalized cone.
    pub fn get_hs(&self, serial: Serial, block: &mut [f64]) -> Result<(), Refusal> {
        Refusal::check(unsafe { face::spindle_get_hs_in_place(self, serial.0, block.as_mut_ptr(), block.len()) })
    }

    /// Writes the scaling times x.
    pub fn mul_hs(&self, serial: Serial, y: &mut [f64], x: &[f64]) -> Result<(), Refusal> {
        Refusal::check(unsafe { face::spindle_mul_hs_in_place(self, serial.0, y.as_mut_ptr(), y.len(), x.as_ptr(), x.len()) })
    }

    /// Writes the third-order correction η for the steps ds and v; zeros where the Hessian has no Cholesky factor. Not for generalized
    /// cones.
    pub fn higher_correction(&self, serial: Serial, eta: &mut [f64], ds: &[f64], v: &[f64]) -> Result<(), Refusal> {
        corrected(unsafe {
            face::spindle_higher_correction_in_place(
                self,
                serial.0,
                eta.as_mut_ptr(),
                eta.len(),
                ds.as_ptr(),
                ds.len(),
                v.as_ptr(),
                v.len(),
            )
        })
    }

    /// Writes the combined step's shift: the dual gradient times σμ, less the third-order correction. Not for generalized cones.
    pub fn combined_ds_shift(
        &self, serial: Serial, shift: &mut [f64], step_z: &[f64], step_s: &[f64], sigma_mu: f64,
    ) -> Result<(), Refusal> {
        corrected(unsafe {
            face::spindle_combined_ds_shift_in_place(
                self,
                serial.0,
                shift.as_mut_ptr(),
                shift.len(),
                step_z.as_ptr(),
                step_z.len(),
                step_s.as_ptr(),
                step_s.len(),
                sigma_mu,
            )
        })
    }
}

/// The four kernels, and both square roots by name: every double taken, nothing refused. A NaN answer has the bits 7FF8000000000000.
pub mod kernels {
    use crate::face;

    /// The square root, correctly rounded: that of [`table_sqrt`] without its count.
    pub fn sqrt(x: f64) -> f64 {
        unsafe { face::spindle_sqrt(x) }
    }

    /// A square root, and the correction steps that it took.
    #[derive(Clone, Copy, Debug, PartialEq)]
    #[repr(C)]
    pub struct Root {
        /// The root.
        pub root: f64,
        /// 4 or 5 at a positive number, never more; 0 at a zero, at +infinity and where the root is NaN.
        pub steps: u32,
    }

    /// The plain square root, which checks an estimate by squares of whole numbers. It has the bits of [`table_sqrt`] for every double.
    pub fn plain_sqrt(x: f64) -> f64 {
        unsafe { face::spindle_plain_sqrt(x) }
    }

    /// The square root from a table estimate, corrected with whole-number steps, and how many it took.
    ///
    /// ```
    /// use spindle::kernels;
    /// let two = kernels::table_sqrt(2.0);
    /// assert_eq!((two.root, two.steps), (std::f64::consts::SQRT_2, 5));
    /// assert_eq!(kernels::plain_sqrt(2.0), two.root);
    /// ```
    pub fn table_sqrt(x: f64) -> Root {
        unsafe { face::spindle_table_sqrt(x) }
    }

    /// The natural logarithm; minus infinity for zero and below.
    pub fn log(x: f64) -> f64 {
        unsafe { face::spindle_log(x) }
    }

    /// The exponential; +infinity above 709, +0 below -708.
    pub fn exp(x: f64) -> f64 {
        unsafe { face::spindle_exp(x) }
    }

    /// x to the power y by exp(y·log x), exact at y 0, 1 and 2.
    pub fn powf(x: f64, y: f64) -> f64 {
        unsafe { face::spindle_powf(x, y) }
    }
}

impl face::Steps {
    /// The dual and the primal answer.
    fn found(&self) -> (Found, Found) {
        (Found { step: self.dual_step, tests: self.dual_count }, Found { step: self.primal_step, tests: self.primal_count })
    }
}

// A record's cone was judged when it was made: a correction refuses it with 1 only where it has none.
fn corrected(code: u32) -> Result<(), Refusal> {
    match code {
        1 => Err(Refusal::BadCone(Trouble::NoCorrection)),
        _ => Refusal::check(code),
    }
}

fn number(out: face::Number) -> Result<f64, Refusal> {
    Refusal::check(out.code)?;
    Ok(out.value)
}

#[cfg(test)]
mod tests {
    use super::Refusal;

    #[test]
    fn every_number_is_told() {
        assert_eq!(Refusal::check(0), Ok(()));
        for number in (1..=12).chain([u32::MAX]) {
            let refusal = Refusal::check(number).unwrap_err();
            assert_eq!(refusal.number(), number);
            assert_eq!(matches!(refusal, Refusal::Unknown(_)), number > 11);
        }
    }
}

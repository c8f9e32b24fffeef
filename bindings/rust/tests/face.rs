//! Every call once where it is done and once for each number that it can give, with untouched slices and records at a refusal.
use spindle::{kernels, Answer, Cone, Kind, Plan, Refusal, Rule, Scaling, Serial, Settings, Strategy, Trouble};

const UNTOUCHED: [f64; 6] = [11.0, 12.0, 13.0, 14.0, 15.0, 16.0];

fn exponential() -> Cone {
    Cone::exponential()
}

fn power() -> Cone {
    Cone::power(0.5).unwrap()
}

fn generalized() -> Cone {
    Cone::generalized(&[0.25, 0.75], 2).unwrap()
}

/// A completed update at the cone's own starting point.
fn update(record: &mut Scaling) -> Serial {
    let cone = *record.cone();
    let n = cone.numel();
    let (mut z, mut s) = ([0.0; 64], [0.0; 64]);
    cone.unit_initialization(&mut z[..n], &mut s[..n]).unwrap();
    record.update(&s[..n], &z[..n], 1.0, Strategy::PrimalDual).unwrap()
}

/// A record that was scaled once, and its serial.
fn scaled(cone: Cone) -> (Scaling, Serial) {
    let mut record = cone.scaling();
    let serial = update(&mut record);
    (record, serial)
}

#[test]
fn cones_are_judged_when_they_are_made() {
    for exponent in [0.0, -0.0, 1.0, 1.5, -0.5, f64::NAN, f64::INFINITY] {
        assert_eq!(Cone::power(exponent), Err(Refusal::BadCone(Trouble::PowerExponent { bits: exponent.to_bits() })));
    }
    assert!(Cone::power(f64::MIN_POSITIVE).is_ok());
    assert!(Cone::generalized(&[1.0], 1).is_ok());
    assert!(Cone::generalized(&[1.0 / 32.0; 32], 32).is_ok());
    assert_eq!(Cone::generalized(&[], 1), Err(Refusal::BadCone(Trouble::Dim1(0))));
    assert_eq!(Cone::generalized(&[1.0 / 33.0; 33], 1), Err(Refusal::BadCone(Trouble::Dim1(33))));
    assert_eq!(Cone::generalized(&[1.0], 0), Err(Refusal::BadCone(Trouble::Dim2(0))));
    assert_eq!(Cone::generalized(&[1.0], 33), Err(Refusal::BadCone(Trouble::Dim2(33))));
    for (place, exponent) in [(0, 0.0), (1, -0.25), (1, f64::NAN), (0, 1.5)] {
        let mut exponents = [0.5; 2];
        exponents[place] = exponent;
        assert_eq!(Cone::generalized(&exponents, 1), Err(Refusal::BadCone(Trouble::Exponent { place, bits: exponent.to_bits() })));
    }
}

/// What a caller reads at night: the number that is wrong, and what it may be.
#[test]
fn a_refused_cone_is_told_in_words() {
    let words = |cone: Result<Cone, Refusal>| cone.unwrap_err().to_string();
    assert_eq!(words(Cone::power(1.0)), "refused with 1: the exponent is 1.0: a power cone's is above 0 and below 1");
    assert_eq!(words(Cone::generalized(&[], 1)), "refused with 1: there are 0 exponents: a generalized cone has 1 to 32");
    assert_eq!(words(Cone::generalized(&[1.0], 33)), "refused with 1: the tail has 33 numbers: a generalized cone's has 1 to 32");
    assert_eq!(
        words(Cone::generalized(&[0.5, f64::NAN], 1)),
        "refused with 1: exponent 1, counted from 0, is NaN: it is above 0 and at most 1"
    );
    assert_eq!(words(Cone::generalized(&[0.3, 0.3], 1)), "refused with 1: the exponents sum to 0.6: rule 2 takes 1 within 2^-50");
    assert_eq!(
        words(Cone::generalized_under(Rule::One, &[0.5, 0.25], 1)),
        "refused with 1: the exponents sum to 0.75: rule 1 takes 1 within 2^-40"
    );
    let Refusal::BadCone(trouble) = Plan::of(&[]).unwrap_err() else { panic!("another refusal") };
    assert_eq!((trouble, trouble.to_string().as_str()), (Trouble::Cones(0), "the plan has 0 cones: it has 1 to 1024"));
    let (record, serial) = scaled(generalized());
    let why = record.higher_correction(serial, &mut [0.0; 3], &[0.0; 3], &[0.0; 3]).unwrap_err();
    assert_eq!(why.to_string(), "refused with 1: a generalized cone has no correction and no combined shift");
    assert_eq!((why.number(), why.sentence().starts_with("bad cone: ")), (1, true));
}

/// The parts of a cone, of each kind and at both ends of its dims.
#[test]
fn a_cone_hands_out_its_parts() {
    let exponents = [1.0 / 32.0; 32];
    let cases = [
        (exponential(), Kind::Exponential, (3, 0), &exponents[..0], 3),
        (Cone::power(0.3).unwrap(), Kind::Power, (3, 0), &[0.3], 3),
        (Cone::generalized(&[1.0], 1).unwrap(), Kind::Generalized, (1, 1), &[1.0], 2),
        (Cone::generalized(&[0.25, 0.75], 3).unwrap(), Kind::Generalized, (2, 3), &[0.25, 0.75], 3),
        (Cone::generalized(&exponents, 32).unwrap(), Kind::Generalized, (32, 32), &exponents, 33),
    ];
    for (i, (cone, kind, dims, exponents, degree)) in cases.into_iter().enumerate() {
        assert_eq!((cone.kind(), cone.dims(), cone.exponents(), cone.degree()), (kind, dims, exponents, degree), "cone {i}");
        assert_eq!((cone.length(), cone.numel()), (dims.0 + dims.1, dims.0 + dims.1));
        // at a point of the dual cone the dual barrier's gradient times the point is minus the degree
        let (mut z, mut s) = (vec![0.0; cone.length()], vec![0.0; cone.length()]);
        cone.unit_initialization(&mut z, &mut s).unwrap();
        let dual = cone.dual_gradient(&z).unwrap();
        let gradient = if kind == Kind::Generalized { &dual.wide.grad[..] } else { &dual.three.grad[..] };
        let product: f64 = gradient.iter().zip(&z).map(|(g, z)| g * z).sum();
        assert!((product + degree as f64).abs() < 1e-9, "cone {i}: {product}");
        let parts = [Kind::Exponential, Kind::Power, Kind::Generalized].map(Kind::number);
        assert_eq!(parts, [1, 2, 3]);
    }
}

/// Sums at the limit of each rule and at the next double beyond it, on both sides of 1; and sums that depend on their order.
#[test]
fn each_rule_has_its_tolerance() {
    use Rule::{One, Two};
    let taken = |rule, exponents: &[f64]| Cone::generalized_under(rule, exponents, 1).map(|cone| cone.rule());
    let refused = |rule, sum: f64| Err(Refusal::BadCone(Trouble::Sum { bits: sum.to_bits(), rule }));
    let (far, near) = (2f64.powi(-40), 2f64.powi(-50));
    let next = |sum: f64| f64::from_bits(if sum < 1.0 { sum.to_bits() - 1 } else { sum.to_bits() + 1 });
    for side in [-1.0, 1.0] {
        for (sum, one, two) in [
            (1.0, Ok(One), Ok(Two)),
            (1.0 + side * near, Ok(One), Ok(Two)),
            (next(1.0 + side * near), Ok(One), refused(Two, next(1.0 + side * near))),
            (1.0 + side * far, Ok(One), refused(Two, 1.0 + side * far)),
            (next(1.0 + side * far), refused(One, next(1.0 + side * far)), refused(Two, next(1.0 + side * far))),
        ] {
            assert_eq!((taken(One, &[0.5, sum - 0.5]), taken(Two, &[0.5, sum - 0.5])), (one, two), "sum {sum:e}");
            assert_eq!(Cone::generalized(&[0.5, sum - 0.5], 1).map(|cone| cone.rule()), two, "the newer rule by default");
        }
    }
    // crumbs of a quarter of a unit in the last place: behind 1 they are lost one by one, before it they are not
    let mut exponents = [2f64.powi(-54); 32];
    (exponents[0], exponents[1]) = (0.5, 0.5 + near);
    assert_eq!(taken(Two, &exponents), Ok(Two));
    exponents.reverse();
    assert_eq!((taken(One, &exponents), taken(Two, &exponents)), (Ok(One), refused(Two, exponents.iter().sum())));
    (exponents[30], exponents[31]) = (0.5, 0.5 + far);
    assert_eq!(taken(One, &exponents), refused(One, exponents.iter().sum()));
    exponents.reverse();
    assert_eq!(taken(One, &exponents), Ok(One));
}

#[test]
fn a_cone_carries_its_rule() {
    assert_eq!((Rule::default(), Rule::NEWEST, Rule::One.number(), Rule::Two.number()), (Rule::Two, Rule::Two, 1, 2));
    for cone in [exponential(), power(), generalized()] {
        assert_eq!(cone.rule(), Rule::NEWEST);
        let old = cone.under(Rule::One).unwrap();
        assert_eq!((old.rule(), old == cone, old.under(Rule::Two)), (Rule::One, false, Ok(cone)));
        for cone in [cone, old] {
            let (record, _) = scaled(cone);
            assert_eq!((cone.scaling().cone().rule(), record.cone().rule()), (cone.rule(), cone.rule()));
        }
        // equal answers but for the rule that is carried
        let (mut first, serial) = scaled(old);
        let (second, other) = scaled(cone);
        assert_eq!((serial, first.three(), first.wide()), (other, second.three(), second.wide()));
        let n = cone.numel();
        let point = vec![0.25; n];
        assert_eq!(old.is_primal_feasible(&point), cone.is_primal_feasible(&point));
        assert_eq!(first.update(&vec![f64::NAN; n], &point, 1.0, Strategy::Dual), Err(Refusal::NotFinite));
        assert_eq!(first.cone(), &old);
    }
    let wide = Cone::generalized_under(Rule::One, &[0.25, 0.75 + 2f64.powi(-41)], 2).unwrap();
    assert!(matches!(wide.under(Rule::Two), Err(Refusal::BadCone(Trouble::Sum { rule: Rule::Two, .. }))));
    assert_eq!(wide.under(Rule::One), Ok(wide));
}

#[test]
fn border_points() {
    let cone = exponential();
    assert_eq!(cone.is_primal_feasible(&[-1.0, 1.0, 1.0]), Ok(Answer::Yes));
    assert_eq!(cone.is_primal_feasible(&[0.0, 1.0, 1.0]), Ok(Answer::Undecided));
    assert_eq!(cone.is_dual_feasible(&[-1.0, 0.0, 1.0]), Ok(Answer::Yes));
    assert_eq!(cone.is_dual_feasible(&[-1.0, -1.0, 1.0]), Ok(Answer::Undecided));
    assert_eq!(power().is_primal_feasible(&[1.0, 1.0, 0.0]), Ok(Answer::Yes));
    assert_eq!(power().is_primal_feasible(&[1.0, 1.0, 1.0]), Ok(Answer::Undecided));
    let dual = cone.dual_gradient(&[-1.0, 0.0, 1.0]).unwrap();
    assert_eq!(dual.three.grad, [1.0, -1.0, -2.0]);
    let mut g = [7.0; 3];
    assert_eq!(cone.scaling().gradient_primal(&mut g, &[2.0, 1.0, 1.0]), Err(Refusal::OutOfRange));
    assert_eq!(g, [7.0; 3]);
}

/// Both sides of each margin, a failed sign, and a margin that is infinite.
#[test]
fn margins_part_the_answers() {
    use Answer::{No, Undecided, Yes};
    // with s2 = s3 = 1 the logarithm is 0: the residue is -s1 and its margin 2^-40·(1 + |s1|); at 2^-40·(1 + 2^-40) the two are equal
    let unit = 2f64.powi(-40);
    let border = unit * (1.0 + unit);
    let next = |x: f64| f64::from_bits(x.to_bits() + 1);
    let cone = exponential();
    for (s1, answer) in [(-next(border), Yes), (-border, Undecided), (border, Undecided), (next(border), No)] {
        assert_eq!(cone.is_primal_feasible(&[s1, 1.0, 1.0]), Ok(answer), "s1 {s1}");
    }
    // at -z1 = z3 = 1 the dual residue is z2 + 1 and its margin 2^-40·(|z2| + 1), near 2^-39
    for (by, answer) in [(2.1, Yes), (1.9, Undecided), (0.0, Undecided), (-1.9, Undecided), (-2.1, No)] {
        assert_eq!(cone.is_dual_feasible(&[-1.0, -1.0 + by * unit, 1.0]), Ok(answer), "{by} units");
    }
    // with heads 1 (on the dual side: the exponents) the exponential is 1: the residue is 1 - q and its margin 2^-30·(1 + q), near 2^-29
    let unit = 2f64.powi(-30);
    for (by, answer) in [(2.1, Yes), (1.9, Undecided), (0.0, Undecided), (-1.9, Undecided), (-2.1, No)] {
        let tail = (1.0 - by * unit).sqrt();
        assert_eq!(power().is_primal_feasible(&[1.0, 1.0, tail]), Ok(answer), "{by} units");
        assert_eq!(power().is_dual_feasible(&[0.5, 0.5, -tail]), Ok(answer), "{by} units");
        assert_eq!(generalized().is_primal_feasible(&[1.0, 1.0, 0.8 * tail, 0.6 * tail]), Ok(answer), "{by} units");
        assert_eq!(generalized().is_dual_feasible(&[0.25, 0.75, 0.6 * tail, -0.8 * tail]), Ok(answer), "{by} units");
    }
    assert_eq!(cone.is_primal_feasible(&[-1.0, 0.0, 1.0]), Ok(No));
    assert_eq!(cone.is_dual_feasible(&[0.0, 5.0, 1.0]), Ok(No));
    assert_eq!(power().is_primal_feasible(&[1.0, -1.0, 1.0]), Ok(No));
    assert_eq!(generalized().is_dual_feasible(&[0.0, 1.0, 0.0, 0.0]), Ok(No));
    assert_eq!(power().is_primal_feasible(&[1.0, 1.0, 1e200]), Ok(Undecided));
    assert_eq!(power().is_primal_feasible(&[1e300, 1e300, 0.0]), Ok(Undecided));
    assert!(Yes.is_yes() && !No.is_yes() && !Undecided.is_yes());
}

/// A search passes over trials that are undecided, as it does over those that are outside.
#[test]
fn undecided_does_not_pass() {
    let settings = Settings { start: 1.0, step: 0.5, smallest: 0.25 };
    let mut point = [0.0; 3];
    // the residue of each trial is a quarter, an eighth, a sixteenth of 2^-40: above 0, and within the margin
    let found = exponential().search_primal(&[-(2f64.powi(-42)), 0.0, 0.0], &[0.0, 1.0, 1.0], &mut point, settings).unwrap();
    assert_eq!((found.step, found.tests, point), (0.0, 3, [0.0, 1.0, 1.0]));
    // the first trial is on the wall, the second inside
    let found = exponential().search_primal(&[1.0, 0.0, 0.0], &[-1.0, 1.0, 1.0], &mut point, settings).unwrap();
    assert_eq!((found.step, found.tests, point), (0.5, 2, [-0.5, 1.0, 1.0]));
    // a trial that overflows is undecided, though the Rust's test takes it: its residue is +infinity
    let far = Settings { start: 4.0, step: 0.25, smallest: 0.5 };
    let found = exponential().search_primal(&[-f64::MAX, 0.0, 0.0], &[-1.0, 1.0, 1.0], &mut point, far).unwrap();
    assert_eq!((found.step, found.tests, point), (1.0, 2, [-f64::MAX, 1.0, 1.0]));
}

#[test]
fn searches_hand_back_the_tested_point() {
    let cone = exponential();
    let mut point = [0.0; 3];
    let settings = Settings { start: 1.0, step: 0.5, smallest: 0.125 };
    let found = cone.search_primal(&[0.0, -4.0, 0.0], &[-1.0, 1.0, 1.0], &mut point, settings).unwrap();
    assert_eq!((found.step, found.tests, point), (0.125, 4, [-1.0, 0.5, 1.0]));

    let none = cone.search_primal(&[0.0; 3], &[0.0, -1.0, 1.0], &mut point, Settings { smallest: 0.25, ..settings }).unwrap();
    assert_eq!((none.step, none.tests, point), (0.0, 3, [0.0, -1.0, 1.0]));

    let house = cone.search_primal(&[0.0; 3], &[0.0, -1.0, 1.0], &mut point, Settings::house(1.0)).unwrap();
    assert_eq!((house.step, house.tests), (0.0, 14));
    let old = Settings { start: 1.0, step: 0.8, smallest: 0.0001 };
    let outright = cone.search_primal(&[0.0; 3], &[0.0, -1.0, 1.0], &mut point, old).unwrap();
    assert_eq!((outright.step, outright.tests), (0.0, 42));
    assert_eq!(Strategy::default(), Strategy::PrimalDual);

    let (mut dual, mut primal) = ([0.0; 3], [0.0; 3]);
    let z = [-1.0, 0.0, 1.0];
    let (d, p) = cone.step_length(&[0.0; 3], &[0.0; 3], &z, &[-1.0, 1.0, 1.0], &mut dual, &mut primal, Settings::house(0.5)).unwrap();
    assert_eq!((d.step, d.tests, p.step, p.tests), (0.5, 1, 0.5, 1));
    assert_eq!((dual, primal), (z, [-1.0, 1.0, 1.0]));
}

#[test]
fn settings_are_refused() {
    let good = Settings::house(1.0);
    let mut point = UNTOUCHED;
    let q = [-1.0, 1.0, 1.0];
    let mut ask = |settings| exponential().search_primal(&[0.0; 3], &q, &mut point[..3], settings).map(|f| f.tests);
    assert_eq!(ask(Settings { start: 0.0, ..good }), Err(Refusal::BadSettings));
    assert_eq!(ask(Settings { start: -1.0, ..good }), Err(Refusal::BadSettings));
    assert_eq!(ask(Settings { start: f64::NAN, ..good }), Err(Refusal::NotFinite));
    assert_eq!(ask(Settings { step: 0.0, ..good }), Err(Refusal::BadSettings));
    assert_eq!(ask(Settings { step: 0.991, ..good }), Err(Refusal::BadSettings));
    assert_eq!(ask(Settings { smallest: 0.0, ..good }), Err(Refusal::BadSettings));
    assert_eq!(ask(Settings { smallest: f64::MIN_POSITIVE / 2.0, ..good }), Err(Refusal::BadSettings));
    assert_eq!(ask(Settings { step: 0.99, ..good }), Ok(1));
    assert_eq!(point[3..], UNTOUCHED[3..]);
}

#[test]
fn lengths_are_refused_before_numbers() {
    for cone in [exponential(), power(), generalized()] {
        let n = cone.numel();
        for wrong in [0, n - 1, n + 1] {
            assert_eq!(cone.is_primal_feasible(&vec![f64::NAN; wrong]), Err(Refusal::BadLength));
        }
        assert_eq!(cone.is_primal_feasible(&vec![f64::NAN; n]), Err(Refusal::NotFinite));
    }
}

#[test]
fn a_record_is_scaled_and_used() {
    for cone in [exponential(), power(), generalized()] {
        let n = cone.numel();
        let block = if n == 3 { 6 } else { n };
        let mut out = vec![9.0; block];
        let fresh = cone.scaling();
        let (record, serial) = scaled(cone);
        assert!(!fresh.is_scaled());
        assert_eq!(fresh.get_hs(serial, &mut out), Err(Refusal::NeverScaled));
        assert_eq!(out, vec![9.0; block]);

        assert!(record.is_scaled());
        assert_eq!(record.cone(), &cone);
        record.get_hs(serial, &mut out).unwrap();
        assert!(out.iter().all(|x| x.is_finite()));
        let (x, mut y) = (vec![1.0; n], vec![0.0; n]);
        record.mul_hs(serial, &mut y, &x).unwrap();
        assert!(y.iter().all(|x| x.is_finite()));
        assert_eq!(record.mul_hs(serial, &mut y[..n - 1], &x), Err(Refusal::BadLength));

        let (mut z, mut s) = (vec![0.0; n], vec![0.0; n]);
        cone.unit_initialization(&mut z, &mut s).unwrap();
        let zero = vec![0.0; n];
        let both = record.compute_barrier(&z, &s, &zero, &zero, 0.5).unwrap();
        assert!(both.is_finite() && record.barrier_primal(&s).unwrap().is_finite() && cone.barrier_dual(&z).unwrap().is_finite());
    }
}

#[test]
fn the_primal_side_uses_the_cone_alone() {
    for cone in [exponential(), power(), generalized()] {
        let n = cone.numel();
        let (mut z, mut s) = (vec![0.0; n], vec![0.0; n]);
        cone.unit_initialization(&mut z, &mut s).unwrap();
        s[n - 1] += 0.125;
        let (fresh, record) = (cone.scaling(), scaled(cone).0);
        let (mut g, mut h) = (vec![0.0; n], vec![0.0; n]);
        assert_eq!(fresh.gradient_primal(&mut g, &s), record.gradient_primal(&mut h, &s));
        assert_eq!(g, h);
        assert!(g.iter().any(|x| *x != 0.0));
        assert_eq!(fresh.barrier_primal(&s), record.barrier_primal(&s));
        assert_eq!(fresh.compute_barrier(&z, &s, &z, &s, 0.25), record.compute_barrier(&z, &s, &z, &s, 0.25));
    }

    // docs/DIFFERENCES.md, F3
    let cone = Cone::generalized(&[0.5, 0.5], 2).unwrap();
    let (s, z) = ([1.0, 1.0, 0.5, 0.0], [1.0, 1.0, 0.0, 0.5]);
    let mut record = cone.scaling();
    record.update(&s, &z, 1.0, Strategy::Dual).unwrap();
    let mut g = [0.0; 4];
    assert_eq!(record.gradient_primal(&mut g, &s), Ok(1));
    assert_eq!(g, [-2.2152504370215302, -2.2152504370215302, 2.861001748086121, 0.0]);
}

#[test]
fn a_refused_update_keeps_the_record() {
    for cone in [exponential(), power(), generalized()] {
        let n = cone.numel();
        let (mut record, serial) = scaled(cone);
        let before = record;
        let bad = vec![f64::INFINITY; n];
        assert_eq!(record.update(&bad, &bad, 1.0, Strategy::Dual), Err(Refusal::NotFinite));
        assert_eq!(record, before);
        let mut out = vec![0.0; if n == 3 { 6 } else { n }];
        record.get_hs(serial, &mut out).unwrap();
    }
}

#[test]
fn serials_tell_rounds_apart() {
    for cone in [exponential(), power(), generalized()] {
        let n = cone.numel();
        let mut record = cone.scaling();
        let mut rounds = Vec::new();
        for round in 1..=4 {
            let serial = update(&mut record);
            assert_eq!(serial.number(), round);
            rounds.push((record, serial));
        }
        let block = if n == 3 { 6 } else { n };
        let (x, mut y, mut out) = (vec![1.0; n], vec![9.0; n], vec![9.0; block]);
        for (i, (record, _)) in rounds.iter().enumerate() {
            for (j, &(_, serial)) in rounds.iter().enumerate() {
                let wanted = if i == j { Ok(()) } else { Err(Refusal::OtherSerial) };
                out.fill(9.0);
                y.fill(9.0);
                assert_eq!(record.get_hs(serial, &mut out), wanted);
                assert_eq!(record.mul_hs(serial, &mut y, &x), wanted);
                assert_eq!((out == vec![9.0; block], y == vec![9.0; n]), (i != j, i != j));
                if n == 3 {
                    let mut eta = [0.5; 3];
                    assert_eq!(record.higher_correction(serial, &mut eta, &[0.1, 0.2, 0.3], &[0.3, 0.1, 0.2]), wanted);
                    assert_eq!(record.combined_ds_shift(serial, &mut eta, &[0.1, 0.2, 0.3], &[0.3, 0.1, 0.2], 0.5), wanted);
                    assert_eq!(eta == [0.5; 3], i != j);
                }
            }
        }
        // lengths and numbers are judged before the serial, 5 before it, too
        let (last, first) = (rounds[3].0, rounds[0].1);
        assert_eq!(last.get_hs(first, &mut out[..block - 1]), Err(Refusal::BadLength));
        assert_eq!(last.mul_hs(first, &mut y, &vec![f64::NAN; n]), Err(Refusal::NotFinite));
        assert_eq!(cone.scaling().get_hs(first, &mut out), Err(Refusal::NeverScaled));
    }
}

#[test]
fn corrections_are_for_three_dimensions() {
    let mut eta = [0.5; 3];
    for cone in [exponential(), power()] {
        let (record, serial) = scaled(cone);
        record.higher_correction(serial, &mut eta, &[0.1, 0.2, 0.3], &[0.3, 0.1, 0.2]).unwrap();
        record.combined_ds_shift(serial, &mut eta, &[0.1, 0.2, 0.3], &[0.3, 0.1, 0.2], 0.5).unwrap();
    }
    eta = [0.5; 3];
    let (record, serial) = scaled(generalized());
    assert_eq!(record.higher_correction(serial, &mut eta, &[0.0; 3], &[0.0; 3]), Err(Refusal::BadCone(Trouble::NoCorrection)));
    assert_eq!(record.combined_ds_shift(serial, &mut eta, &[0.0; 3], &[0.0; 3], 0.5), Err(Refusal::BadCone(Trouble::NoCorrection)));
    assert_eq!(eta, [0.5; 3]);
}

#[test]
fn small_vectors_are_copied() {
    let cone = exponential();
    let (mut out, s) = ([0.0; 3], [1.0, -2.0, -0.0]);
    cone.affine_ds(&mut out, &s).unwrap();
    assert_eq!(out.map(f64::to_bits), s.map(f64::to_bits));
    cone.ds_from_dz_offset(&mut out, &s, &[4.0, 5.0, 6.0]).unwrap();
    assert_eq!(out.map(f64::to_bits), s.map(f64::to_bits));
    assert_eq!(cone.ds_from_dz_offset(&mut out, &s, &[f64::NAN; 3]), Err(Refusal::NotFinite));
    cone.rectify_equilibration(&mut out, &[1.0, 2.0, 3.0]).unwrap();
    assert_eq!(out, [2.0, 1.0, (1.0 / 3.0) * 2.0]);
}

#[test]
fn kernels_take_every_double() {
    assert_eq!(kernels::sqrt(2.0), 2f64.sqrt());
    assert_eq!(kernels::sqrt(-0.0).to_bits(), (-0.0f64).to_bits());
    assert_eq!(kernels::log(1.0).to_bits(), 0);
    assert_eq!(kernels::exp(0.0), 1.0);
    assert_eq!(kernels::powf(-3.0, 2.0), 9.0);
    let nan = 0x7ff8_0000_0000_0000;
    for x in [f64::NAN, -f64::NAN, f64::from_bits(0x7ff0_0000_0000_0001), f64::from_bits(0xfff7_0000_0000_0003)] {
        assert_eq!(kernels::sqrt(x).to_bits(), nan);
        assert_eq!(kernels::log(x).to_bits(), nan);
        assert_eq!(kernels::exp(x).to_bits(), nan);
        assert_eq!(kernels::powf(x, 1.0).to_bits(), nan);
        assert_eq!(kernels::powf(x, 2.0).to_bits(), nan);
    }
    assert_eq!(kernels::sqrt(-1.0).to_bits(), nan);
    assert_eq!(kernels::powf(-8.0, 3.0).to_bits(), nan);
}

#[test]
fn both_roots_agree() {
    let agree = |x: f64, steps: &[u32]| {
        let table = kernels::table_sqrt(x);
        assert_eq!(table.root.to_bits(), kernels::plain_sqrt(x).to_bits(), "{x:e}");
        assert_eq!(table.root.to_bits(), kernels::sqrt(x).to_bits(), "{x:e}");
        if x >= 0.0 {
            assert_eq!(table.root.to_bits(), x.sqrt().to_bits(), "{x:e}");
        }
        assert!(steps.contains(&table.steps), "{x:e} took {} steps", table.steps);
    };
    for x in [0.0, -0.0, f64::INFINITY, f64::NAN, -1.0, f64::NEG_INFINITY, -f64::MIN_POSITIVE, f64::from_bits(0x7ff0_0000_0000_0001)] {
        agree(x, &[0]);
    }
    agree(1.0, &[5]);
    agree(2.0, &[5]);
    agree(1.5, &[4]);
    for field in 0..2047u64 {
        for digits in [1, (1 << 51) + 1, (1 << 52) - 1] {
            agree(f64::from_bits(field << 52 | digits), &[4, 5]);
        }
    }
    assert_eq!(kernels::table_sqrt(-1.0).root.to_bits(), 0x7ff8_0000_0000_0000);
}

#[test]
fn refusals_speak() {
    assert_eq!(Refusal::BadLength.number(), 2);
    assert_eq!(Refusal::NotFinite.to_string(), "refused with 3: an input number is NaN or infinite");
    assert_eq!(Refusal::Unknown(12).to_string(), "refused with 12: a number that this crate does not know");
}

#[test]
fn version_is_the_headers() {
    let header = include_str!("../../../include/spindle.h");
    assert!(header.contains(&format!("#define SPINDLE_VERSION \"{}\"\n", spindle::VERSION)));
}

// One step of a plan, from Rust, on one side and on both: the limits, the order of tests, and what one cone and two cones give.
use spindle::{Answer, Cone, Found, Plan, Refusal, Settings, Trouble, MOST_CONES};

// cones of all kinds, each with a point inside of it on both sides
fn cones(count: usize) -> (Vec<Cone>, Vec<f64>, Vec<f64>) {
    let kinds = [Cone::exponential(), Cone::power(0.25).unwrap(), Cone::generalized(&[0.5, 0.25, 0.25], 2).unwrap()];
    let inside: [(&[f64], &[f64]); 3] = [
        (&[-1.0, 1.0, 1.0], &[-1.0, 0.0, 1.0]),
        (&[1.0, 1.0, 0.0], &[1.0, 1.0, 0.0]),
        (&[1.0, 1.0, 1.0, 0.0, 0.0], &[1.0, 1.0, 1.0, 0.0, 0.0]),
    ];
    let (mut list, mut primal, mut dual) = (Vec::new(), Vec::new(), Vec::new());
    for i in 0..count {
        list.push(kinds[i % 3]);
        primal.extend_from_slice(inside[i % 3].0);
        dual.extend_from_slice(inside[i % 3].1);
    }
    (list, primal, dual)
}

fn place(list: &[Cone], cone: usize) -> usize {
    list[..cone].iter().map(Cone::length).sum()
}

#[test]
fn every_size_and_side_passes_at_once() {
    for count in [1, 2, 900, MOST_CONES] {
        let (list, primal, dual) = cones(count);
        let plan = Plan::of(&list).unwrap();
        assert_eq!(plan.length(), primal.len());
        let dq = vec![0.0; primal.len()];
        let mut point = vec![9.0; primal.len()];
        let found = plan.search_primal(&dq, &primal, &mut point, Settings::house(1.0)).unwrap();
        assert_eq!(found, Found { step: 1.0, tests: count as u32 });
        assert_eq!(point, primal);
        let found = plan.search_dual(&dq, &dual, &mut point, Settings::house(1.0)).unwrap();
        assert_eq!(found, Found { step: 1.0, tests: count as u32 });
        assert_eq!(point, dual);
    }
}

// The cone at this place passes from the fourth trial on: three trials end at it, and the fourth goes through the whole list.
#[test]
fn a_trial_ends_at_its_first_failing_cone() {
    for count in [1, 2, 900, MOST_CONES] {
        let (list, q, _) = cones(count);
        let plan = Plan::of(&list).unwrap();
        for fails in [0, count / 2, count - 1] {
            let mut dq = vec![0.0; q.len()];
            // the second number of every kind falls from 1 and has to stay above 0
            dq[place(&list, fails) + 1] = -4.0;
            let mut point = vec![9.0; q.len()];
            let found = plan.search_primal(&dq, &q, &mut point, Settings::house(1.0)).unwrap();
            assert_eq!(found, Found { step: 0.125, tests: 3 * (fails as u32 + 1) + count as u32 });
            for (i, (cone, part)) in plan.parts(&point).unwrap().enumerate() {
                assert_eq!(cone.is_primal_feasible(part), Ok(Answer::Yes));
                assert_eq!(part[1], if i == fails { 0.5 } else { q[place(&list, i) + 1] });
            }
        }
    }
}

#[test]
fn zero_and_the_start_point_where_no_trial_passes() {
    let (list, mut q, _) = cones(900);
    let plan = Plan::of(&list).unwrap();
    q[place(&list, 899) + 1] = -1.0;
    let dq = vec![0.0; q.len()];
    let mut point = vec![9.0; q.len()];
    let found = plan.search_primal(&dq, &q, &mut point, Settings::house(1.0)).unwrap();
    assert_eq!(found, Found { step: 0.0, tests: 14 * 900 });
    assert_eq!(point, q);
}

#[test]
fn one_cone_is_searched_as_by_itself() {
    let (list, q, _) = cones(3);
    for (cone, at) in list.iter().zip([0, 3, 6]) {
        let q = &q[at..at + cone.length()];
        let mut dq = vec![0.0; q.len()];
        dq[1] = -3.0;
        let (mut alone, mut planned) = (vec![9.0; q.len()], vec![9.0; q.len()]);
        for settings in
            [Settings::house(1.0), Settings { start: 0.5, step: 0.99, smallest: 0.01 }, Settings { start: 1.0, step: 0.5, smallest: 0.9 }]
        {
            let single = cone.search_primal(&dq, q, &mut alone, settings);
            let plan = Plan::of(core::slice::from_ref(cone)).unwrap();
            assert_eq!(plan.search_primal(&dq, q, &mut planned, settings), single);
            assert_eq!(alone, planned);
        }
    }
}

// The first cone passes at 1 alone, the second at 1/4 and below: the least of both steps is 1/4, and no trial passes both.
#[test]
fn not_the_least_of_the_cones_own_steps() {
    let list = [Cone::exponential(); 2];
    let (q, dq) = ([-1.0, 1.0, -1.0, -1.0, 1.0, 1.0], [0.0, 0.0, 2.0, 0.0, -2.0, 0.0]);
    let settings = Settings { start: 1.0, step: 0.5, smallest: 0.125 };
    let mut part = [0.0; 3];
    assert_eq!(list[0].search_primal(&dq[..3], &q[..3], &mut part, settings), Ok(Found { step: 1.0, tests: 1 }));
    assert_eq!(list[1].search_primal(&dq[3..], &q[3..], &mut part, settings), Ok(Found { step: 0.25, tests: 3 }));
    let mut point = [9.0; 6];
    let found = Plan::of(&list).unwrap().search_primal(&dq, &q, &mut point, settings);
    assert_eq!(found, Ok(Found { step: 0.0, tests: 5 }));
    assert_eq!(point, q);
}

#[test]
fn refusals_leave_the_point_alone() {
    assert_eq!(Plan::of(&[]).unwrap_err(), Refusal::BadCone(Trouble::Cones(0)));
    assert_eq!(Plan::of(&[Cone::exponential(); MOST_CONES + 1]).unwrap_err(), Refusal::BadCone(Trouble::Cones(1025)));
    let (list, q, _) = cones(MOST_CONES);
    let plan = Plan::of(&list).unwrap();
    let n = q.len();
    let dq = vec![0.0; n];
    let house = Settings::house(1.0);
    let mut point = vec![9.0; n + 1];
    let mut refused = |dq: &[f64], q: &[f64], np: usize, settings: Settings, why: Refusal| {
        assert_eq!(plan.search_primal(dq, q, &mut point[..np], settings), Err(why));
        assert_eq!(plan.search_dual(dq, q, &mut point[..np], settings), Err(why));
        assert!(point.iter().all(|&x| x == 9.0));
    };
    refused(&dq[1..], &q, n, house, Refusal::BadLength);
    refused(&dq, &q[1..], n, house, Refusal::BadLength);
    refused(&dq, &q, n - 1, house, Refusal::BadLength);
    refused(&dq, &q, n + 1, house, Refusal::BadLength);
    let mut last = q.clone();
    last[n - 1] = f64::NAN;
    refused(&dq, &last, n, house, Refusal::NotFinite);
    refused(&last, &q, n, Settings { step: 1.0, ..house }, Refusal::NotFinite);
    refused(&dq, &q, n, Settings { step: 1.0, ..house }, Refusal::BadSettings);
    assert_eq!(plan.parts(&q[1..]).unwrap_err(), Refusal::BadLength);
    assert_eq!(plan.parts(&q).unwrap().len(), MOST_CONES);
}

// ---- both sides

#[test]
fn every_size_takes_its_first_trial_on_both_sides() {
    for count in [1, 2, 900, MOST_CONES] {
        let (list, s, z) = cones(count);
        let plan = Plan::of(&list).unwrap();
        assert_eq!((plan.length(), plan.numel()), (s.len(), s.len()));
        assert_eq!(plan.degree(), list.iter().map(Cone::degree).sum());
        let still = vec![0.0; s.len()];
        let (mut dual, mut primal) = (vec![9.0; s.len()], vec![9.0; s.len()]);
        let found = plan.step(&still, &still, &z, &s, &mut dual, &mut primal, Settings::house(1.0)).unwrap();
        assert_eq!(found, Found { step: 1.0, tests: 2 * count as u32 });
        assert_eq!((dual, primal), (z, s));
    }
}

// The cone at this place passes from the fourth trial on, on one side: three trials end at its test, and the fourth goes through both lists.
#[test]
fn a_trial_tests_the_dual_side_and_then_the_primal_side() {
    for count in [1, 2, 900, MOST_CONES] {
        let (list, s, z) = cones(count);
        let plan = Plan::of(&list).unwrap();
        for fails in [0, count / 2, count - 1] {
            let at = place(&list, fails);
            let still = vec![0.0; s.len()];
            let (mut dual, mut primal) = (vec![9.0; s.len()], vec![9.0; s.len()]);

            // the second number of every kind falls from 1 and has to stay above 0
            let mut ds = still.clone();
            ds[at + 1] = -4.0;
            let found = plan.step(&still, &ds, &z, &s, &mut dual, &mut primal, Settings::house(1.0)).unwrap();
            let before = (count + fails + 1) as u32;
            assert_eq!(found, Found { step: 0.125, tests: 3 * before + 2 * count as u32 });
            assert_eq!((&dual, primal[at + 1]), (&z, 0.5));

            // an exponential cone's third number has to stay above 0, of the other kinds the first
            let falls = if list[fails] == Cone::exponential() { at + 2 } else { at };
            let mut dz = still.clone();
            dz[falls] = -4.0;
            let found = plan.step(&dz, &still, &z, &s, &mut dual, &mut primal, Settings::house(1.0)).unwrap();
            assert_eq!(found, Found { step: 0.125, tests: 3 * (fails as u32 + 1) + 2 * count as u32 });
            assert_eq!((dual[falls], &primal), (0.5, &s));
            for ((cone, z), (_, s)) in plan.parts(&dual).unwrap().zip(plan.parts(&primal).unwrap()) {
                assert_eq!((cone.is_dual_feasible(z), cone.is_primal_feasible(s)), (Ok(Answer::Yes), Ok(Answer::Yes)));
            }
        }
    }
}

#[test]
fn zero_hands_out_both_start_points() {
    let (list, mut s, z) = cones(900);
    let plan = Plan::of(&list).unwrap();
    s[place(&list, 899) + 1] = -1.0;
    let still = vec![0.0; s.len()];
    let (mut dual, mut primal) = (vec![9.0; s.len()], vec![9.0; s.len()]);
    let moving = vec![1e-3; s.len()];
    let found = plan.step(&moving, &still, &z, &s, &mut dual, &mut primal, Settings::house(1e-3)).unwrap();
    assert_eq!(found, Found { step: 0.0, tests: 4 * 2 * 900 });
    assert_eq!((dual, primal), (z, s));
}

// The dual side passes at 1 alone, the primal side at 1/4 and below: the less of both is 1/4, where the dual side fails.
#[test]
fn not_the_less_of_the_two_sides_own_steps() {
    let list = [Cone::exponential()];
    let plan = Plan::of(&list).unwrap();
    let (z, dz) = ([-1.0, 0.0, -1.0], [0.0, 0.0, 2.0]);
    let (s, ds) = ([-1.0, 1.0, 1.0], [0.0, -2.0, 0.0]);
    let settings = Settings { start: 1.0, step: 0.5, smallest: 0.125 };
    let (mut dual, mut primal) = ([9.0; 3], [9.0; 3]);
    assert_eq!(plan.search_dual(&dz, &z, &mut dual, settings), Ok(Found { step: 1.0, tests: 1 }));
    assert_eq!(plan.search_primal(&ds, &s, &mut primal, settings), Ok(Found { step: 0.25, tests: 3 }));
    assert_eq!(plan.step(&dz, &ds, &z, &s, &mut dual, &mut primal, settings), Ok(Found { step: 0.0, tests: 5 }));
    assert_eq!((dual, primal), (z, s));
}

// Each of the six lengths, one number less and one more; NaN and both infinities in each of the four vectors; each setting at its limit; and the order of it all.
#[test]
fn refusals_leave_both_points_alone() {
    let (list, s, z) = cones(MOST_CONES);
    let plan = Plan::of(&list).unwrap();
    let n = plan.length();
    let house = Settings::house(1.0);
    let still = vec![0.0; n];
    let mut lent = (vec![9.0; n + 1], vec![9.0; n + 1]);
    let mut step = |vectors: &[Vec<f64>; 4], np: [usize; 2], settings: Settings| {
        let (dual, primal) = (&mut lent.0[..np[0]], &mut lent.1[..np[1]]);
        let found = plan.step(&vectors[0], &vectors[1], &vectors[2], &vectors[3], dual, primal, settings);
        assert!(lent.0.iter().chain(&lent.1).all(|&x| x == 9.0), "a point was written");
        found
    };
    let good = [still.clone(), still, z, s];
    for i in 0..6 {
        for other in [n - 1, n + 1] {
            let (mut vectors, mut np) = (good.clone(), [n; 2]);
            match i {
                0..=3 => vectors[i].resize(other, 0.0),
                _ => np[i - 4] = other,
            }
            assert_eq!(step(&vectors, np, house), Err(Refusal::BadLength), "slice {i} of {other} numbers");
            // before the numbers and the settings
            vectors[(i + 1) % 4][0] = f64::NAN;
            assert_eq!(step(&vectors, np, Settings { step: 1.0, ..house }), Err(Refusal::BadLength));
        }
    }
    for i in 0..4 {
        for wrong in [f64::NAN, f64::INFINITY, f64::NEG_INFINITY] {
            for at in [0, n - 1] {
                let mut vectors = good.clone();
                vectors[i][at] = wrong;
                assert_eq!(step(&vectors, [n; 2], house), Err(Refusal::NotFinite), "vector {i} at {at}");
                assert_eq!(step(&vectors, [n; 2], Settings { step: 1.0, ..house }), Err(Refusal::NotFinite), "before the settings");
            }
        }
    }
    for settings in
        [Settings { start: f64::NAN, ..house }, Settings { step: f64::INFINITY, ..house }, Settings { smallest: f64::NAN, ..house }]
    {
        assert_eq!(step(&good, [n; 2], settings), Err(Refusal::NotFinite), "{settings:?}");
    }
    for settings in [
        Settings { start: 0.0, ..house },
        Settings { start: -1.0, ..house },
        Settings { step: 0.0, ..house },
        Settings { step: 0.99 + f64::EPSILON, ..house },
        Settings { smallest: 0.0, ..house },
        Settings { smallest: f64::MIN_POSITIVE / 2.0, ..house },
    ] {
        assert_eq!(step(&good, [n; 2], settings), Err(Refusal::BadSettings), "{settings:?}");
    }
    // the last numbers that are taken
    let (mut dual, mut primal) = (vec![9.0; n], vec![9.0; n]);
    let settings = Settings { start: 5e-324, step: 0.99, smallest: f64::MIN_POSITIVE };
    let found = plan.step(&good[0], &good[1], &good[2], &good[3], &mut dual, &mut primal, settings);
    assert_eq!(found, Ok(Found { step: 5e-324, tests: 2 * MOST_CONES as u32 }));
}

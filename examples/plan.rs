//! One cone's work in a round of a plan: scale, take the Hessian block, search both steps, test a point, record the search, and see a refusal.
use spindle::{Cone, Recorder, Refusal, Strategy, Trace};

fn main() -> Result<(), Refusal> {
    // under the newer rule, rule 2; a cone of release 1 is made by generalized_under(Rule::One, ..)
    let cone = Cone::generalized(&[0.25, 0.75], 2)?;
    let n = cone.numel();
    let (mut z, mut s) = (vec![0.0; n], vec![0.0; n]);
    cone.unit_initialization(&mut z, &mut s)?;

    let mut record = cone.scaling();
    let serial = record.update(&s, &z, 1.0, Strategy::default())?;
    let mut diagonal = vec![0.0; n];
    record.get_hs(serial, &mut diagonal)?;
    println!("diagonal {diagonal:?}");

    let (dz, ds) = (vec![-0.5, 0.25, 0.75, -0.5], vec![-2.0, 0.0, 1.0, 0.5]);
    let (mut dual, mut primal) = (vec![0.0; n], vec![0.0; n]);
    let mut bytes = vec![0; 1000];
    let mut recorder = Recorder::create(&mut bytes)?;
    let (d, p) = recorder.step_length(&cone, &dz, &ds, &z, &s, &mut dual, &mut primal, 1.0)?;
    println!("dual step {} after {} tests, at {dual:?}", d.step, d.tests);
    println!("primal step {} after {} tests, at {primal:?}", p.step, p.tests);

    // a point that a search took tests as yes; on the wall of a cone a test is undecided
    println!("tested: {:?}, on the wall: {:?}", cone.is_primal_feasible(&primal)?, cone.is_primal_feasible(&[1.0, 1.0, 0.6, 0.8])?);

    // what was recorded are bytes: they go into a file, and whoever reads that sees the search
    for record in Trace::open(recorder.bytes())? {
        println!("recorded at {}: z {:?}, dz {:?}, dual step {}", record.offset(), record.z(), record.dz(), record.dual().step);
    }

    // a refusal says why, and changes nothing
    match record.get_hs(serial, &mut diagonal[..n - 1]) {
        Ok(()) => println!("this does not happen"),
        Err(why) => println!("{why}"),
    }

    // nor does a record of the round before answer for this one
    let before = record;
    let serial = record.update(&s, &z, 1.0, Strategy::default())?;
    match before.get_hs(serial, &mut diagonal) {
        Ok(()) => println!("nor does this"),
        Err(why) => println!("{why}"),
    }
    Ok(())
}

// A planner in Rust over an installed library: one step for two cones.
use spindle::{Cone, Plan, Settings};

fn main() -> Result<(), spindle::Refusal> {
    let cones = [Cone::exponential(), Cone::power(0.5)?];
    let plan = Plan::of(&cones)?;
    let (q, dq) = ([-1.0, 1.0, 1.0, 1.0, 1.0, 0.0], [0.0, 0.0, 0.0, 0.0, 0.0, 4.0]);
    let mut point = [0.0; 6];
    let found = plan.search_primal(&dq, &q, &mut point, Settings::house(1.0))?;
    println!("step {} after {} tests of a cone", found.step, found.tests);
    Ok(())
}

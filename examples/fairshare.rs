//! The two plans of examples/fairshare.c, over the crate: the same steps in the same order, and the same lines. docs/loop.md explains them.
#![allow(clippy::needless_range_loop)] // loops over places, as in the C
use spindle::kernels::{log, powf, sqrt};
use spindle::{Cone, Kind, Plan, Refusal, Scaling, Serial, Settings, Strategy};
use std::ops::Range;

const MACHINES: usize = 12;
const HOSTS: usize = 4;
const C: f64 = 10.0;

struct Machine {
    from: usize,
    to: usize,
    weight: f64,
    cost: f64, // 0: its delay is free
    power: f64,
}

/// Minimise q'x so that Ax + s = b. The first `orthant` rows of s are not below 0, the others lie in the cones, one behind the other.
struct Problem {
    machines: Vec<Machine>, // the plan that it was made of
    general: bool,
    a: Vec<Vec<f64>>,
    b: Vec<f64>,
    q: Vec<f64>,
    factor: Vec<f64>, // by which the row was multiplied
    orthant: usize,
    cones: Vec<Cone>,
    rows: Vec<Range<usize>>, // a cone's rows
}

/// Where the plan stands, or a direction.
#[derive(Clone)]
struct Point {
    x: Vec<f64>,
    s: Vec<f64>,
    z: Vec<f64>,
    tau: f64,
    kappa: f64,
}

struct Residual {
    x: Vec<f64>,
    z: Vec<f64>,
    tau: f64,
}

/// A round's scaling of each cone, and the system K that it makes: K = L D L'.
struct System {
    records: Vec<Scaling>,
    serials: Vec<Serial>,
    k: Vec<Vec<f64>>,
    l: Vec<Vec<f64>>,
    d: Vec<f64>,
    for_tau: Vec<f64>, // K's answer to (-q, b)
}

/// What a round's two directions need.
struct Round {
    residual: Residual,
    mu: f64,
    sigma: f64,
    affine: Point,
}

#[derive(Default)]
struct Counts {
    tests: u64,         // of a cone
    used: u64,          // parts of points
    yes: u64,           // those among them that are a yes
    cuts: u64,          // steps cut in 7
    barriers: [f64; 2], // their sum at the start; the largest at the end of a step
}

fn dot(v: &[f64], w: &[f64]) -> f64 {
    let mut sum = 0.0;
    for (v, w) in v.iter().zip(w) {
        sum += v * w;
    }
    sum
}

/// A NaN stays, as f64::max would not have it.
fn larger(v: f64, w: f64) -> f64 {
    if v > w || v.is_nan() {
        v
    } else {
        w
    }
}

fn largest(v: &[f64]) -> f64 {
    v.iter().fold(0.0, |most, v| larger(most, v.abs()))
}

// ---- the plan as a problem over cones

fn machines() -> Vec<Machine> {
    let machine = |i: usize| Machine {
        from: i % HOSTS,
        to: (i + 1 + i / HOSTS) % HOSTS,
        weight: (1 + i % 3) as f64,
        cost: if i < 6 { 0.25 * (1 + i % 2) as f64 } else { 0.0 },
        power: [2.0, 3.0, 1.5][i % 3],
    };
    (0..MACHINES).map(machine).collect()
}

impl Problem {
    fn variables(&self) -> usize {
        self.q.len()
    }

    fn degree(&self) -> usize {
        self.orthant + self.cones.iter().map(Cone::degree).sum::<usize>()
    }

    /// One cone more, with a variable of its own: s = (variable, 1, ..). Hands back the row behind the 1.
    fn add_cone(&mut self, cone: Cone, price: f64) -> usize {
        let (first, variable) = (self.b.len(), self.variables());
        self.q.push(price);
        for row in &mut self.a {
            row.push(0.0);
        }
        for _ in 0..cone.length() {
            self.a.push(vec![0.0; variable + 1]);
            self.b.push(0.0);
        }
        self.a[first][variable] = -1.0;
        self.b[first + 1] = 1.0;
        self.rows.push(first..first + cone.length());
        self.cones.push(cone);
        first + 2
    }

    fn of(machines: Vec<Machine>, general: bool) -> Result<Problem, Refusal> {
        let mut p = Problem {
            machines: vec![],
            general,
            a: vec![vec![0.0; MACHINES]; 2 * HOSTS],
            b: vec![C; 2 * HOSTS],
            q: vec![0.0; MACHINES],
            factor: vec![],
            orthant: 2 * HOSTS,
            cones: vec![],
            rows: vec![],
        };
        for (i, machine) in machines.iter().enumerate() {
            p.a[machine.from][i] = 1.0;
            p.a[HOSTS + machine.to][i] = 1.0;
        }
        for (i, machine) in machines.iter().enumerate() {
            // t <= log x: (t, 1, x)
            let row = p.add_cone(Cone::exponential(), -machine.weight);
            p.a[row][i] = -1.0;
        }
        for (i, machine) in machines.iter().enumerate().filter(|(_, machine)| machine.cost > 0.0) {
            // x^p <= d: (d, 1, x)
            let row = p.add_cone(Cone::power(1.0 / machine.power)?, machine.cost);
            p.a[row][i] = -1.0;
        }
        for h in 0..HOSTS {
            // (d, 1, in/C, out/C), or (d, 1, in/C)
            let row = p.add_cone(if general { Cone::generalized(&[0.5, 0.5], 2)? } else { Cone::power(0.4)? }, 1.0);
            for (i, machine) in machines.iter().enumerate() {
                if machine.to == h {
                    p.a[row][i] = -1.0 / C;
                }
                if general && machine.from == h {
                    p.a[row + 1][i] = -1.0 / C;
                }
            }
        }
        p.machines = machines;
        p.even_out()?;
        Ok(p)
    }

    /// Divides each row by its largest entry; the rows of one cone get one factor, their mean.
    fn even_out(&mut self) -> Result<(), Refusal> {
        self.factor = self.a.iter().map(|row| if largest(row) > 0.0 { 1.0 / largest(row) } else { 1.0 }).collect();
        for (cone, rows) in self.cones.iter().zip(&self.rows) {
            let factor = &mut self.factor[rows.clone()];
            let mut delta = vec![0.0; factor.len()];
            cone.rectify_equilibration(&mut delta, factor)?;
            let mean = delta[0] * factor[0];
            factor.fill(mean);
        }
        for (i, factor) in self.factor.iter().enumerate() {
            for entry in &mut self.a[i] {
                *entry *= factor;
            }
            self.b[i] *= factor;
        }
        Ok(())
    }
}

// ---- the system of equations: dense, since the plan is small

impl System {
    /// Variables have pivots above 0, rows below. A little is added to each; solve takes it away again.
    fn factorise(&mut self, n: usize) {
        for j in 0..self.d.len() {
            self.d[j] = self.k[j][j] + if j < n { 1e-9 } else { -1e-9 };
            for k in 0..j {
                self.d[j] -= self.l[j][k] * self.l[j][k] * self.d[k];
            }
            for i in j + 1..self.d.len() {
                let mut entry = self.k[i][j];
                for k in 0..j {
                    entry -= self.l[i][k] * self.l[j][k] * self.d[k];
                }
                self.l[i][j] = entry / self.d[j];
            }
        }
    }

    fn solve(&self, right: &[f64]) -> Vec<f64> {
        let all = right.len();
        let (mut v, mut rest) = (vec![0.0; all], vec![0.0; all]);
        for _refinement in 0..4 {
            for i in 0..all {
                rest[i] = right[i] - dot(&self.k[i], &v);
            }
            for i in 0..all {
                rest[i] -= dot(&self.l[i][..i], &rest);
            }
            for i in 0..all {
                rest[i] /= self.d[i];
            }
            for i in (0..all).rev() {
                for k in i + 1..all {
                    rest[i] -= self.l[k][i] * rest[k];
                }
            }
            for i in 0..all {
                v[i] += rest[i];
            }
        }
        v
    }
}

// ---- a round; the numbers are those of docs/loop.md

impl System {
    /// 2, kinds 1 and 2: get_hs gives the whole block, its upper triangle packed.
    fn put_block(&mut self, first: usize, k: usize) -> Result<(), Refusal> {
        let mut block = [0.0; 6];
        self.records[k].get_hs(self.serials[k], &mut block)?;
        for (next, (i, j)) in [(0, 0), (0, 1), (1, 1), (0, 2), (1, 2), (2, 2)].into_iter().enumerate() {
            self.k[first + i][first + j] = -block[next];
            self.k[first + j][first + i] = -block[next];
        }
        Ok(())
    }

    /// 2, kind 3: get_hs gives the diagonal mu D alone. The block is mu (D + pp' - qq' - rr') of the record.
    fn put_wide_block(&mut self, first: usize, k: usize) -> Result<(), Refusal> {
        let (length, head) = (self.records[k].cone().length(), self.records[k].cone().dims().0);
        let wide = *self.records[k].wide();
        let mut diagonal = vec![0.0; length];
        self.records[k].get_hs(self.serials[k], &mut diagonal)?;
        for j in 0..length {
            for i in 0..length {
                let mut entry = wide.p[i] * wide.p[j];
                if i < head && j < head {
                    entry -= wide.q[i] * wide.q[j];
                }
                if i >= head && j >= head {
                    entry -= wide.r[i - head] * wide.r[j - head];
                }
                self.k[first + i][first + j] = -(wide.mu * entry + if i == j { diagonal[i] } else { 0.0 });
            }
        }
        Ok(())
    }

    /// 1 and 2: each record is scaled at s and z; K = [0 A'; A -Hs].
    fn scale(&mut self, p: &Problem, at: &Point, mu: f64, strategy: Strategy) -> Result<(), Refusal> {
        let n = p.variables();
        for (i, row) in p.a.iter().enumerate() {
            for (j, &entry) in row.iter().enumerate() {
                self.k[n + i][j] = entry;
                self.k[j][n + i] = entry;
            }
        }
        for i in 0..p.orthant {
            self.k[n + i][n + i] = -at.s[i] / at.z[i];
        }
        self.serials.clear();
        for (k, rows) in p.rows.iter().enumerate() {
            self.serials.push(self.records[k].update(&at.s[rows.clone()], &at.z[rows.clone()], mu, strategy)?);
            if p.cones[k].kind() == Kind::Generalized {
                self.put_wide_block(n + rows.start, k)?;
            } else {
                self.put_block(n + rows.start, k)?;
            }
        }
        self.factorise(n);
        let right: Vec<f64> = p.q.iter().map(|q| -q).chain(p.b.iter().copied()).collect();
        self.for_tau = self.solve(&right);
        Ok(())
    }

    /// 3 and 5: the direction for Hs dz + ds = -c and tau dkappa + kappa dtau = -t, which takes the share `by` of the residuals away.
    fn direct(&self, p: &Problem, at: &Point, r: &Residual, by: f64, c: &[f64], t: f64) -> Result<Point, Refusal> {
        let n = p.variables();
        let rows = c.iter().zip(&r.z).map(|(c, r)| c - by * r);
        let right: Vec<f64> = r.x.iter().map(|r| by * r).chain(rows).collect();
        let v = self.solve(&right);
        let above = by * r.tau - t / at.tau + dot(&p.q, &v[..n]) + dot(&p.b, &v[n..]);
        let below = at.kappa / at.tau - dot(&p.q, &self.for_tau[..n]) - dot(&p.b, &self.for_tau[n..]);
        let tau = above / below;
        let kappa = -(t + at.kappa * tau) / at.tau;
        let mut x: Vec<f64> = v.iter().zip(&self.for_tau).map(|(v, w)| v + tau * w).collect();
        let z = x.split_off(n);
        let mut s = vec![0.0; z.len()];
        for i in 0..p.orthant {
            s[i] = -(at.s[i] / at.z[i] * z[i] + c[i]);
        }
        for (k, rows) in p.rows.iter().enumerate() {
            let (mut product, mut offset) = (vec![0.0; rows.len()], vec![0.0; rows.len()]);
            self.records[k].mul_hs(self.serials[k], &mut product, &z[rows.clone()])?;
            p.cones[k].ds_from_dz_offset(&mut offset, &c[rows.clone()], &at.z[rows.clone()])?;
            for (i, row) in rows.clone().enumerate() {
                s[row] = -(product[i] + offset[i]);
            }
        }
        Ok(Point { x, s, z, tau, kappa })
    }

    /// 5: c = affine_ds + shift, the correction at this share of the affine direction. For kind 3 there is no call: its shift is sigma mu
    /// times the record's gradient.
    fn combined_side(&self, p: &Problem, at: &Point, affine: &Point, share: f64, sigma_mu: f64) -> Result<Vec<f64>, Refusal> {
        let mut c = affine_side(p, at)?;
        for i in 0..p.orthant {
            c[i] += (share * affine.s[i] * affine.z[i] - sigma_mu) / at.z[i];
        }
        for (k, rows) in p.rows.iter().enumerate() {
            let mut shift = vec![0.0; rows.len()];
            let step_z: Vec<f64> = affine.z[rows.clone()].iter().map(|z| share * z).collect();
            if p.cones[k].kind() == Kind::Generalized {
                for (shift, grad) in shift.iter_mut().zip(&self.records[k].wide().grad) {
                    *shift = sigma_mu * grad;
                }
            } else {
                self.records[k].combined_ds_shift(self.serials[k], &mut shift, &step_z, &affine.s[rows.clone()], sigma_mu)?;
            }
            for (c, shift) in c[rows.clone()].iter_mut().zip(&shift) {
                *c += shift;
            }
        }
        Ok(c)
    }

    /// 7: the barriers' sum at the step's end. On the central path it is minus the degrees of the library's cones, whose primal barriers
    /// end in minus their degree; off it, it is larger.
    fn barriers(&self, p: &Problem, at: &Point, along: &Point, step: f64) -> Result<f64, Refusal> {
        let (tau, kappa) = (at.tau + step * along.tau, at.kappa + step * along.kappa);
        let mut product = tau * kappa;
        let mut sum = -log(tau) - log(kappa);
        for i in 0..at.s.len() {
            product += (at.s[i] + step * along.s[i]) * (at.z[i] + step * along.z[i]);
        }
        for i in 0..p.orthant {
            sum -= log(at.s[i] + step * along.s[i]) + log(at.z[i] + step * along.z[i]);
        }
        for (record, rows) in self.records.iter().zip(&p.rows) {
            let [z, s, dz, ds] = [&at.z, &at.s, &along.z, &along.s].map(|v| &v[rows.clone()]);
            sum += record.compute_barrier(z, s, dz, ds, step)?;
        }
        let degree = (p.degree() + 1) as f64;
        Ok(sum + degree * log(product / degree))
    }
}

/// 3: c = affine_ds. Of the orthant, too, it is s.
fn affine_side(p: &Problem, at: &Point) -> Result<Vec<f64>, Refusal> {
    let mut c = at.s.clone();
    for (cone, rows) in p.cones.iter().zip(&p.rows) {
        cone.affine_ds(&mut c[rows.clone()], &at.s[rows.clone()])?;
    }
    Ok(c)
}

/// 4: what tau, kappa and the orthant allow, at most 1. They are convex: where they allow a step, they allow every smaller one.
fn allowed(p: &Problem, at: &Point, along: &Point) -> f64 {
    let mut most = 1.0;
    let mut keep = |from: f64, by: f64| {
        if by < 0.0 && -from / by < most {
            most = -from / by;
        }
    };
    keep(at.tau, along.tau);
    keep(at.kappa, along.kappa);
    for i in 0..p.orthant {
        keep(at.s[i], along.s[i]);
        keep(at.z[i], along.z[i]);
    }
    most
}

/// 4 and 6: the largest trial from `start` down at which every cone passes on both sides; `tested` gets the points.
fn search(p: &Problem, at: &Point, along: &Point, start: f64, tested: &mut Point, counts: &mut Counts) -> Result<f64, Refusal> {
    let l = p.orthant;
    let found = Plan::of(&p.cones)?.step(
        &along.z[l..],
        &along.s[l..],
        &at.z[l..],
        &at.s[l..],
        &mut tested.z[l..],
        &mut tested.s[l..],
        Settings::house(start),
    )?;
    counts.tests += u64::from(found.tests);
    Ok(found.step)
}

/// 6 and 7: a step for both sides, off the wall and near the path; every point on the way to it was tested. 0 if there is none.
fn step_of(p: &Problem, y: &System, at: &Point, along: &Point, tested: &mut Point, counts: &mut Counts) -> Result<f64, Refusal> {
    let mut step = search(p, at, along, 0.99 * allowed(p, at, along), tested, counts)?;
    if step > 0.0 {
        step = search(p, at, along, 0.99 * step, tested, counts)?;
    }
    while step > 0.0 {
        let sum = y.barriers(p, at, along, step)?;
        if sum < 1.0 {
            counts.barriers[1] = larger(counts.barriers[1], sum); // clarabel's bound, and a wide one: docs/FINDINGS.md, 9
            break;
        }
        counts.cuts += 1;
        step = search(p, at, along, 0.5 * step, tested, counts)?;
    }
    Ok(step)
}

/// 5 to 7: the combined direction, with the correction at this share of the affine one, and its step.
fn combined_step(
    p: &Problem, y: &System, at: &Point, r: &Round, share: f64, tested: &mut Point, counts: &mut Counts,
) -> Result<(Point, f64), Refusal> {
    let sigma_mu = r.sigma * r.mu;
    let c = y.combined_side(p, at, &r.affine, share, sigma_mu)?;
    let t = at.tau * at.kappa + share * r.affine.tau * r.affine.kappa - sigma_mu;
    let combined = y.direct(p, at, &r.residual, 1.0 - r.sigma, &c, t)?;
    let step = step_of(p, y, at, &combined, tested, counts)?;
    Ok((combined, step))
}

/// 8: the cones take the points that were tested, and the rest moves by the same step.
fn go(p: &Problem, at: &mut Point, along: &Point, step: f64, tested: &Point) {
    for (x, dx) in at.x.iter_mut().zip(&along.x) {
        *x += step * dx;
    }
    for i in 0..p.orthant {
        at.s[i] += step * along.s[i];
        at.z[i] += step * along.z[i];
    }
    at.s[p.orthant..].copy_from_slice(&tested.s[p.orthant..]);
    at.z[p.orthant..].copy_from_slice(&tested.z[p.orthant..]);
    at.tau += step * along.tau;
    at.kappa += step * along.kappa;
}

/// The customer's question, asked of every part of both points that the plan goes on from.
fn count_used(p: &Problem, at: &Point, counts: &mut Counts) -> Result<(), Refusal> {
    for (cone, rows) in p.cones.iter().zip(&p.rows) {
        counts.used += 2;
        counts.yes += u64::from(cone.is_dual_feasible(&at.z[rows.clone()])?.is_yes());
        counts.yes += u64::from(cone.is_primal_feasible(&at.s[rows.clone()])?.is_yes());
    }
    Ok(())
}

// ---- where the plan begins, and how far it has come

fn begin(p: &Problem) -> Result<(System, Point), Refusal> {
    let (n, m) = (p.variables(), p.b.len());
    let mut at = Point { x: vec![0.0; n], s: vec![1.0; m], z: vec![1.0; m], tau: 1.0, kappa: 1.0 };
    for (cone, rows) in p.cones.iter().zip(&p.rows) {
        cone.unit_initialization(&mut at.z[rows.clone()], &mut at.s[rows.clone()])?;
    }
    let square = vec![vec![0.0; n + m]; n + m];
    let records = p.cones.iter().map(Cone::scaling).collect();
    Ok((System { records, serials: vec![], k: square.clone(), l: square, d: vec![0.0; n + m], for_tau: vec![] }, at))
}

fn residual_of(p: &Problem, at: &Point) -> Residual {
    let mut x: Vec<f64> = p.q.iter().map(|q| -q * at.tau).collect();
    for (row, z) in p.a.iter().zip(&at.z) {
        for (x, entry) in x.iter_mut().zip(row) {
            *x -= entry * z;
        }
    }
    let z = (0..p.b.len()).map(|i| dot(&p.a[i], &at.x) + at.s[i] - p.b[i] * at.tau).collect();
    Residual { x, z, tau: dot(&p.q, &at.x) + dot(&p.b, &at.z) + at.kappa }
}

fn gap_of(p: &Problem, at: &Point) -> f64 {
    let (q_x, b_z) = (dot(&p.q, &at.x), dot(&p.b, &at.z));
    let (primal, dual) = (q_x.abs() / at.tau, b_z.abs() / at.tau);
    (q_x + b_z).abs() / at.tau / larger(1.0, if primal < dual { primal } else { dual })
}

fn worst(at: &Point, r: &Residual) -> f64 {
    larger(largest(&r.x), largest(&r.z)) / at.tau
}

// ---- the smooth problem's own conditions

fn host_slope(machine: &Machine, load_in: &[f64], load_out: &[f64], general: bool) -> f64 {
    if general {
        2.0 * (load_in[machine.to] + load_out[machine.from]) / C / C
    } else {
        2.5 * powf(load_in[machine.to] / C, 1.5) / C
    }
}

/// Of each machine's share the slope of the utility is the price of its two capacities; no host is above its capacity; prices are not below
/// 0, and 0 where room is left. Hands back by how much the worst of these fails.
fn conditions(p: &Problem, at: &Point) -> f64 {
    let price: Vec<f64> = (0..2 * HOSTS).map(|h| at.z[h] * p.factor[h] / at.tau).collect();
    let (mut load_in, mut load_out, mut most) = ([0.0; HOSTS], [0.0; HOSTS], 0.0);
    for (machine, x) in p.machines.iter().zip(&at.x) {
        load_in[machine.to] += x / at.tau;
        load_out[machine.from] += x / at.tau;
    }
    for (machine, x) in p.machines.iter().zip(&at.x) {
        let share = x / at.tau;
        let mut slope = machine.weight / share - host_slope(machine, &load_in, &load_out, p.general);
        slope -= machine.cost * machine.power * powf(share, machine.power - 1.0);
        most = larger(most, (slope - price[machine.from] - price[HOSTS + machine.to]).abs());
    }
    for (price, load) in price.iter().zip(load_out.iter().chain(&load_in)) {
        for fails in [load - C, -price, (price * (C - load)).abs()] {
            most = larger(most, fails);
        }
    }
    most
}

// ---- the loop

/// Gap and residuals are below the tolerance, and the conditions hold within its root: a share that is off by d changes the utility, and so
/// the gap, by some d*d alone.
fn ends(p: &Problem, at: &Point, r: &Residual, tolerance: f64) -> bool {
    gap_of(p, at) < tolerance && worst(at, r) < tolerance && conditions(p, at) < sqrt(tolerance)
}

/// Whether the plan was solved, and where it ended.
fn run(p: &Problem, mut strategy: Strategy, tolerance: f64, counts: &mut Counts) -> Result<(bool, Point), Refusal> {
    let (mut system, mut at) = begin(p)?;
    count_used(p, &at, counts)?;
    counts.barriers = [system.barriers(p, &at, &at, 0.0)?; 2];
    let mut tested = at.clone();
    let mut still = 0;
    for round in 0..60 {
        let residual = residual_of(p, &at);
        let gap = gap_of(p, &at);
        if ends(p, &at, &residual, tolerance) {
            println!("solved after {round} rounds, gap {gap:.9}");
            return Ok((true, at));
        }
        let mu = (dot(&at.s, &at.z) + at.tau * at.kappa) / (p.degree() + 1) as f64;
        system.scale(p, &at, mu, strategy)?;

        let affine = system.direct(p, &at, &residual, 1.0, &affine_side(p, &at)?, at.tau * at.kappa)?;
        let far = search(p, &at, &affine, 0.99 * allowed(p, &at, &affine), &mut tested, counts)?;

        let r = Round { residual, mu, sigma: (1.0 - far) * (1.0 - far) * (1.0 - far), affine };
        let (mut combined, mut step) = combined_step(p, &system, &at, &r, far, &mut tested, counts)?;
        if step == 0.0 {
            (combined, step) = combined_step(p, &system, &at, &r, 0.0, &mut tested, counts)?;
            // 9
        }

        let name = if strategy == Strategy::Dual { "dual" } else { "primal-dual" };
        println!("round {round:2}: gap {gap:.9}, {name} scaling, step {step:.6}");
        if step < 0.1 && strategy == Strategy::PrimalDual {
            strategy = Strategy::Dual; // 9: the plan stays where it is, and the round is made again
            continue;
        }
        still = if far == 0.0 { still + 1 } else { 0 }; // sigma is 1: such a round goes to the path's middle alone
        if step == 0.0 || still == 3 {
            println!("no way on in round {round}: the last points stand, gap {gap:.9}");
            return Ok((false, at));
        }
        go(p, &mut at, &combined, step, &tested);
        count_used(p, &at, counts)?;
    }
    println!("not solved in 60 rounds");
    Ok((false, at))
}

/// One plan, from machines to conditions. Whether all held.
fn plan(name: &str, general: bool, strategy: Strategy, tolerance: f64) -> Result<bool, Refusal> {
    let problem = Problem::of(machines(), general)?;
    let mut counts = Counts::default();
    println!("{name}: {MACHINES} machines, {HOSTS} hosts, {} cones", problem.cones.len());
    let (solved, at) = run(&problem, strategy, tolerance, &mut counts)?;
    println!("{} tests of a cone; {} parts of points used, {} of them a yes", counts.tests, counts.used, counts.yes);
    let [start, most] = counts.barriers;
    println!("barriers: their sum is {start:.3} at the start, at most {most:.3} at a step's end; {} steps cut", counts.cuts);
    for (i, machine) in problem.machines.iter().enumerate() {
        println!("machine {i:2}, host {} to {}: {:.5}", machine.from, machine.to, at.x[i] / at.tau);
    }
    println!("the smooth problem's conditions hold within {:.6}", conditions(&problem, &at));
    Ok(solved && counts.yes == counts.used)
}

fn tolerance_of(word: &str) -> f64 {
    let tolerance = word.parse().unwrap_or(0.0);
    if tolerance > 0.0 && tolerance < 1.0 {
        return tolerance;
    }
    eprintln!("fairshare: the tolerance is a number above 0 and below 1: {word}");
    std::process::exit(2)
}

fn main() -> Result<(), Box<dyn std::error::Error>> {
    let tolerance = std::env::args().nth(1).map_or(1e-6, |word| tolerance_of(&word));
    let first = plan("All three kinds", true, Strategy::Dual, tolerance)?;
    let second = plan("Exponential and power cones", false, Strategy::PrimalDual, tolerance)?;
    if first && second {
        return Ok(());
    }
    Err("a plan was not solved, or its conditions do not hold".into())
}

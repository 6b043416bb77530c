//! One piece of the Rust, again and again, on a seeded problem: for tools/speed, whose driver.c makes the same numbers.
use std::hint::black_box;
use std::time::Instant;

use crate::linalg::basic::arrays::{Array, Array1, Array2, ArrayView1};
use crate::linalg::basic::matrix::DenseMatrix;
use crate::linear::elastic_net::inside;
use crate::linear::lasso_optimizer::inside as optimizer;

type Matrix = DenseMatrix<f64>;

const ALPHA: f64 = 0.1;
const L1_RATIO: f64 = 0.5;
/// Above 0, as the solver asks, and below every error.
const TOL: f64 = f64::MIN_POSITIVE;

/// Numbers of (-1, 1) by SplitMix64.
struct Numbers(u64);

impl Numbers {
    fn next(&mut self) -> f64 {
        self.0 = self.0.wrapping_add(0x9e3779b97f4a7c15);
        let mut w = self.0;
        w = (w ^ (w >> 30)).wrapping_mul(0xbf58476d1ce4e5b9);
        w = (w ^ (w >> 27)).wrapping_mul(0x94d049bb133111eb);
        w ^= w >> 31;
        ((w >> 12) as f64 + 0.5) * 2f64.powi(-51) - 1.0
    }
    fn take(&mut self, count: usize) -> Vec<f64> {
        (0..count).map(|_| self.next()).collect()
    }
}

struct Problem {
    x: Matrix,
    y: Vec<f64>,
    w: Vec<f64>,
    v: Vec<f64>,
    grad: Vec<f64>,
    l2: f64,
}

/// The matrix is stored by columns, as `from_2d_array` does it; its numbers are drawn by rows.
fn problem(n: usize, p: usize) -> Problem {
    let mut of = Numbers(n as u64 * 1000 + p as u64);
    let by_rows = of.take(n * p);
    let by_columns = (0..n * p).map(|i| by_rows[i % n * p + i / n]).collect();
    Problem {
        x: DenseMatrix::new(n, p, by_columns, true).unwrap(),
        y: of.take(n),
        w: of.take(p),
        v: of.take(n + p),
        grad: of.take(2 * p),
        l2: ALPHA * (1.0 - L1_RATIO) * n as f64,
    }
}

/// `calls` calls of `count` repetitions each; the nanoseconds of the best call.
struct Plan {
    count: usize,
    calls: usize,
    best: u128,
}

impl Plan {
    fn timed<R>(&mut self, piece: impl FnOnce() -> R) -> R {
        let start = Instant::now();
        let answer = piece();
        self.best = self.best.min(start.elapsed().as_nanos());
        answer
    }

    /// The last answer. The Rust makes its outputs anew and cleared, in every repetition.
    fn repeat<R>(&mut self, piece: impl Fn() -> R) -> R {
        let (count, calls) = (self.count, self.calls);
        let mut call = || {
            self.timed(|| {
                for _ in 1..count {
                    black_box(piece());
                }
                black_box(piece())
            })
        };
        for _ in 1..calls {
            call();
        }
        call()
    }
}

fn sum_of(values: Vec<f64>) -> u64 {
    let add = |sum: u64, value: f64| (sum.rotate_left(5) ^ value.to_bits()).wrapping_mul(0x9e3779b97f4a7c15);
    values.into_iter().fold(0, add)
}

fn by_rows(m: Matrix) -> Vec<f64> {
    m.iterator(0).copied().collect()
}

/// Targets of a fit: the matrix times w, and a tenth of the numbers drawn.
fn targets(q: &Problem) -> Vec<f64> {
    let of_row = |i: usize| (0..q.w.len()).fold(0.0, |sum, j| sum + q.x.get((i, j)) * q.w[j]);
    (0..q.y.len()).map(|i| of_row(i) + 0.1 * q.y[i]).collect()
}

/// Solver rounds: weights within bounds of 1, t = 1, the Gram of the matrix as it is, a start of 0.
fn rounds(q: &Problem, plan: &mut Plan) -> Vec<f64> {
    let (mut d1, mut d2, mut prb, mut prs) = (vec![], vec![], vec![], vec![]);
    for w in &q.w {
        let (q1, q2) = (1.0 / (1.0 + w), 1.0 / (1.0 - w));
        let (a, b) = (q1 * q1 + q2 * q2, q1 * q1 - q2 * q2);
        d1.push(a);
        d2.push(b);
        prb.push(2.0 + a);
        prs.push((2.0 + a) * a - b * b);
    }
    let of = optimizer::amid(q.x.ab(true, &q.x, false), d1, d2, prb, prs);
    let count = plan.count;
    let mut dxu = vec![];
    for _ in 0..plan.calls {
        dxu = vec![0.0; q.grad.len()];
        plan.timed(|| optimizer::solve(black_box(&of), black_box(&q.grad), &mut dxu, black_box(TOL), black_box(count)));
    }
    dxu
}

/// Trials of which none is accepted: bounds of 1, half of w, a tenth of the right side as the direction, phi and gdx of 0. What they leave, and the halved s.
fn trials(q: &Problem, plan: &mut Plan, matvec: impl Fn(&Vec<f64>) -> Vec<f64>) -> Vec<f64> {
    let (n, p) = (q.y.len(), q.w.len());
    let mut y = targets(q);
    y.resize(n + p, 0.0);
    let y = y.sub_scalar(y.mean_by());
    let w: Vec<f64> = q.w.iter().map(|w| 0.5 * w).collect();
    let dxu: Vec<f64> = q.grad.iter().map(|g| 0.1 * g).collect();
    let (u, dx, du) = (vec![1.0; p], dxu[..p].to_vec(), dxu[p..].to_vec());
    let lambda = ALPHA * L1_RATIO * n as f64 * (1.0 / (1.0 + q.l2).sqrt());
    let mut left = vec![];
    for _ in 0..plan.calls {
        let (given, scalars, count) = black_box(([&w, &u, &dx, &du], [lambda, 1.0, 0.0, 0.0], plan.count));
        let (neww, newu, newf, newz, s, made): (_, _, Matrix, _, _, _) = plan.timed(|| optimizer::search((n + p, p), given, &y, scalars, count, &matvec));
        assert_eq!(made, count);
        left = [neww, newu, by_rows(newf), newz, vec![s]].concat();
    }
    left
}

/// A whole fit: M rounds with a tolerance that none reaches, or so many as 1e-4 takes.
fn fits(q: &Problem, plan: &mut Plan, lazy: bool, limit: Option<usize>) -> Vec<f64> {
    let (y, tol) = (targets(q), if limit.is_some() { 0.0 } else { 1e-4 });
    plan.repeat(|| inside::whole(black_box(&q.x), black_box(&y), ALPHA, L1_RATIO, black_box(tol), black_box(limit.unwrap_or(1000)), lazy))
}

fn piece(what: &str, limit: Option<usize>, q: &Problem, plan: &mut Plan) -> Result<Vec<f64>, String> {
    let (means, deviations) = inside::statistics(&q.x);
    let stored = || inside::scaled(&q.x, &q.y, &means, &deviations, q.l2);
    let lazy = || inside::Lazy::new(&q.x, means.clone(), deviations.clone(), q.l2);
    Ok(match what {
        "round" => rounds(q, plan),
        "fit-eager" | "fit-lazy" => fits(q, plan, what == "fit-lazy", limit),
        "trial-eager" | "step-eager" => {
            let design = stored();
            trials(q, plan, |v| v.xa(true, &design))
        }
        "trial-lazy" | "step-lazy" => {
            let design = lazy();
            trials(q, plan, |v| design.matvec(v))
        }
        "predict" => {
            let net = inside::model(&q.w, q.v[0]);
            plan.repeat(|| black_box(&net).predict(black_box(&q.x)).unwrap())
        }
        "statistics" => {
            let (a, b) = plan.repeat(|| inside::statistics(black_box(&q.x)));
            [a, b].concat()
        }
        "scale" => by_rows(plan.repeat(|| {
            let (x, y, l2) = black_box((&q.x, &q.y, q.l2));
            inside::scaled(x, y, black_box(&means), black_box(&deviations), l2)
        })),
        "ab" => {
            let design = stored();
            by_rows(plan.repeat(|| black_box(&design).ab(true, black_box(&design), false)))
        }
        "eager-rows" => {
            let design = stored();
            plan.repeat(|| black_box(&q.w).xa(true, black_box(&design)))
        }
        "eager-columns" => {
            let design = stored();
            plan.repeat(|| black_box(&q.v).xa(false, black_box(&design)))
        }
        "lazy-gram" => {
            let design = lazy();
            by_rows(plan.repeat(|| black_box(&design).gram()))
        }
        "lazy-rows" => {
            let design = lazy();
            plan.repeat(|| black_box(&design).matvec(black_box(&q.w)))
        }
        "lazy-columns" => {
            let design = lazy();
            plan.repeat(|| black_box(&design).transposed(black_box(&q.v)))
        }
        _ => return Err(format!("measure: {what} is no piece")),
    })
}

/// Piece (of a fit also `piece:M`), sizes, repetitions, the sum of the last answer's bits, nanoseconds of the best call.
pub fn run(what: &str, sizes: [&str; 4]) -> Result<String, String> {
    let [n, p, count, calls] = sizes.map(|word| word.parse::<usize>().unwrap_or(0));
    if n < 2 || p < 1 || count < 1 || calls < 1 {
        return Err("measure: two rows, a column, a repetition and a call at least".to_string());
    }
    let mut plan = Plan { count, calls, best: u128::MAX };
    let (name, limit) = match what.split_once(':') {
        Some((name, limit)) => (name, Some(limit.parse().map_err(|_| format!("measure: {limit} is no limit"))?)),
        None => (what, None),
    };
    let answer = piece(name, limit, &problem(n, p), &mut plan)?;
    Ok(format!("{what} {n} {p} {count} {:016x} {}\n", sum_of(answer), plan.best))
}

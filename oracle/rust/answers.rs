//! The Rust's answer to each problem, as lines of words and as a line to read.
use crate::counts;
use crate::error::Failed;
use crate::linalg::basic::arrays::{Array, Array1, Array2, ArrayView1};
use crate::linalg::basic::matrix::DenseMatrix;
use crate::linear::bg_solver::BiconjugateGradientSolver;
use crate::linear::elastic_net::{inside, ElasticNetParameters};
use crate::problems::{self, Design, Fit, Predict, Problem, Solver};
use crate::words::{self, bits, line_text};

type Lines = Vec<Vec<u64>>;

/// What the plain build cannot know, since nothing counts there.
const COUNTING: bool = cfg!(fixed);

struct Lone;
impl<'a> BiconjugateGradientSolver<'a, f64, DenseMatrix<f64>> for Lone {}

fn matrix(n: usize, p: usize, values: &[f64]) -> DenseMatrix<f64> {
    DenseMatrix::new(n, p, values.to_vec(), false).unwrap()
}

fn all_bits(values: &[f64]) -> Vec<u64> {
    values.iter().map(|&x| bits(x)).collect()
}

/// 01's number and place for the Rust's message.
fn refusal(failed: &Failed) -> (u64, u64) {
    let message = failed.to_string();
    if let Some((_, column)) = message.split_once("Cannot rescale constant column ") {
        return (6, column.parse().unwrap());
    }
    let known = [("Exceeded maximum number", 7), ("tolerance shoud be > 0", 8), ("iterations should be > 0", 10)];
    match known.iter().find(|(text, _)| message.contains(text)) {
        Some((_, number)) => (*number, 0),
        None => panic!("a refusal that 01 does not know: {message}"),
    }
}

/// Ended, refusal, place, counts, intercept; weights.
fn fit(q: &Fit) -> Lines {
    let parameters = ElasticNetParameters {
        lazy_normalization: q.flags & 2 != 0,
        alpha: q.alpha,
        l1_ratio: q.l1_ratio,
        normalize: q.flags & 1 != 0,
        tol: q.tol,
        max_iter: q.limit,
    };
    counts::take();
    let result = inside::Net::fit(&matrix(q.n, q.p, &q.x), &q.y, parameters);
    let c = counts::take();
    let (ended, (number, place), intercept, weights) = match result {
        Ok(net) => {
            let w: Vec<f64> = net.coefficients().iterator(0).copied().collect();
            (if c.converged { 1 } else { 2 }, (0, 0), *net.intercept(), w)
        }
        Err(failed) => (0, refusal(&failed), 0.0, vec![0.0; q.p]),
    };
    vec![vec![ended, number, place, c.openings, c.solver, c.trials, bits(intercept)], all_bits(&weights)]
}

/// Refusal, error; solution.
fn solver(q: &Solver) -> Lines {
    let a = matrix(q.order, q.order, &q.a);
    let mut x = q.x.clone();
    let (number, error) = match Lone.solve_mut(&a, &q.b, &mut x, q.tol, q.limit) {
        Ok(error) => (0, error),
        Err(failed) => (refusal(&failed).0, 0.0),
    };
    vec![vec![number, bits(error)], all_bits(&x)]
}

fn predict(q: &Predict) -> Lines {
    let model = inside::model(&q.w, q.intercept);
    vec![all_bits(&model.predict(&matrix(q.n, q.p, &q.x)).unwrap())]
}

/// Means, deviations; gamma, padding, lambda; centred targets; Gram; products.
fn design(q: &Design) -> Result<Lines, String> {
    let x = matrix(q.n, q.p, &q.x);
    let n = q.n as f64;
    let (l1, l2) = (q.alpha * q.l1_ratio * n, q.alpha * (1.0 - q.l1_ratio) * n);
    let of = if q.flags & 2 != 0 { inside::lazy } else { inside::eager };
    let d = of(&x, &q.y, q.flags & 1 != 0, l2, &q.w, &q.v).map_err(|f| f.to_string())?;
    let lambda = num_traits::Float::max(l1 * d.gamma, f64::EPSILON);
    let centred = d.targets.sub_scalar(d.targets.mean_by());
    let mut lines = vec![
        all_bits(&d.means),
        all_bits(&d.deviations),
        all_bits(&[d.gamma, d.padding, lambda]),
        all_bits(&centred),
    ];
    let gram: Vec<f64> = d.gram.iterator(0).copied().collect();
    lines.extend(gram.chunks(q.p).map(all_bits));
    lines.push(all_bits(&d.product));
    lines.push(all_bits(&d.transposed));
    Ok(lines)
}

fn answer(problem: &Problem) -> Result<Lines, String> {
    match problem {
        Problem::Fit(q) => Ok(fit(q)),
        Problem::Solver(q) => Ok(solver(q)),
        Problem::Predict(q) => Ok(predict(q)),
        Problem::Design(q) => design(q),
    }
}

/// How a record's problem is broken into lines: header, matrix rows, vectors.
fn problem_lines(problem: &Problem, words: &[u64]) -> Lines {
    let (header, rows, width, vectors) = match problem {
        Problem::Fit(q) => (8, q.n, q.p, vec![q.n]),
        Problem::Solver(q) => (4, q.order, q.order, vec![q.order; 2]),
        Problem::Predict(q) => (3, q.n, q.p, vec![q.p + 1]),
        Problem::Design(q) => (6, q.n, q.p, vec![q.n, q.p, q.n + q.p]),
    };
    let mut rest = words;
    let mut lines = Vec::new();
    for length in [vec![header], vec![width; rows], vectors].concat() {
        lines.push(rest[..length].to_vec());
        rest = &rest[length..];
    }
    lines
}

/// Reads every problem first, so that a damaged file gives no answer at all.
fn problems(path: &str) -> Result<Vec<(Problem, Vec<u64>)>, String> {
    let mut all = Vec::new();
    for (record, words) in (0..).zip(words::read(path)?) {
        let (problem, used) = problems::read(&words, path, record)?;
        if used != words.len() {
            return Err(format!("{}: words after the problem", words::place(path, record, used as u64 + 1)));
        }
        all.push((problem, words));
    }
    Ok(all)
}

pub fn store(path: &str, out: &str) -> Result<String, String> {
    if !COUNTING {
        return Err("the plain build counts nothing, so it stores nothing".to_string());
    }
    let all = problems(path)?;
    let mut text = format!("{:016x}\n", all.len());
    for (record, (problem, words)) in (0..).zip(&all) {
        let mut lines = problem_lines(problem, words);
        lines.extend(answer(problem).map_err(|e| format!("{}: {e}", words::place(path, record, 0)))?);
        let length: usize = lines.iter().map(Vec::len).sum();
        if length as u64 > words::LONGEST {
            return Err(format!("{}: {length} words with the answer", words::place(path, record, 0)));
        }
        text += &words::record_text(&lines);
    }
    words::write(out, &text)?;
    Ok(String::new())
}

pub fn verify(path: &str) -> Result<String, String> {
    if !COUNTING {
        return Err("the plain build counts nothing, so it verifies nothing".to_string());
    }
    let records = words::read(path)?;
    for (record, words) in (0..).zip(&records) {
        let (problem, used) = problems::read(words, path, record)?;
        let ours = answer(&problem)?.concat();
        let theirs = &words[used..];
        if ours.len() != theirs.len() {
            return Err(format!("{}: {} words of answer, not {}", words::place(path, record, 0), theirs.len(), ours.len()));
        }
        if let Some(i) = (0..ours.len()).find(|&i| ours[i] != theirs[i]) {
            let at = words::place(path, record, (used + i + 1) as u64);
            return Err(format!("{at}: {:016x} stored, {:016x} found", theirs[i], ours[i]));
        }
    }
    Ok(format!("{path}: {} records, all as stored\n", records.len()))
}

pub fn show(path: &str) -> Result<String, String> {
    let mut text = String::new();
    for (record, (problem, _)) in problems(path)?.iter().enumerate() {
        let lines = answer(problem)?;
        let line = match problem {
            Problem::Fit(_) => fit_line(&lines),
            Problem::Solver(_) if lines[0][0] != 0 => format!("solver refused {}", lines[0][0]),
            Problem::Solver(_) => format!("solver error {:016x} x {}", lines[0][1], line_text(&lines[1])),
            Problem::Predict(_) => format!("predict {}", line_text(&lines[0])),
            Problem::Design(_) => format!("design {}", line_text(&lines.concat())),
        };
        text += &format!("{record} {line}\n");
    }
    Ok(text)
}

fn fit_line(lines: &Lines) -> String {
    let head = &lines[0];
    let counted = if COUNTING {
        format!("rounds {} solver {} trials {} ", head[3], head[4], head[5])
    } else {
        String::new()
    };
    if head[0] == 0 {
        return format!("fit refused {} at {} {counted}", head[1], head[2]).trim_end().to_string();
    }
    let ended = if !COUNTING { "done" } else { ["", "converged", "limit"][head[0] as usize] };
    format!("fit {ended} {counted}intercept {:016x} w {}", head[6], line_text(&lines[1]))
}

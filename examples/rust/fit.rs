//! The calls of Xangoravit from Rust: fits four rows of two features in budgets of 20 steps, then predicts a fifth row.
//! What each slice holds is said in ../c/xangoravit.h.

const SETTINGS: usize = 8;
const RECORD: usize = 16;
const ANSWER: usize = 7;
const PENDING: u64 = 0;
const LIMIT: u64 = 2;

// A slice is passed as a pointer and the number of its elements; no call keeps a pointer.
#[rustfmt::skip]
#[link(name = "c_api", kind = "static")]
unsafe extern "C" {
    fn xangoravit_scratch_words(n: usize, p: usize, settings: *const u64, settings_length: usize) -> usize;
    fn xangoravit_start(n: usize, p: usize, x: *const f64, x_length: usize, y: *const f64, y_length: usize, settings: *const u64, settings_length: usize,
        scratch: *mut f64, scratch_length: usize, record: *mut u64, record_length: usize, answer: *mut u64, answer_length: usize) -> u64;
    fn xangoravit_resume(n: usize, p: usize, x: *const f64, x_length: usize, y: *const f64, y_length: usize, settings: *const u64, settings_length: usize,
        record: *mut u64, record_length: usize, scratch: *mut f64, scratch_length: usize, weights: *mut f64, weights_length: usize, budget: u64,
        answer: *mut u64, answer_length: usize) -> u64;
    fn xangoravit_predict(n: usize, p: usize, x: *const f64, x_length: usize, weights: *const f64, weights_length: usize, intercept: f64,
        out: *mut f64, out_length: usize, answer: *mut u64, answer_length: usize) -> u64;
}

/// What a fit hands back: whether its rounds ran out, the three counts, the intercept.
struct Fitted {
    limit: bool,
    counts: [u64; 3],
    intercept: f64,
}

/// Fits in budgets of so many steps; a refusal is its number and place.
#[rustfmt::skip]
fn fit(n: usize, p: usize, x: &[f64], y: &[f64], settings: &[u64; SETTINGS], weights: &mut [f64], budget: u64) -> Result<Fitted, (u64, u64)> {
    let mut scratch = vec![0.0; unsafe { xangoravit_scratch_words(n, p, settings.as_ptr(), SETTINGS) }];
    let (mut record, mut answer) = ([0; RECORD], [0; ANSWER]);
    let (s, r, a, w) = (scratch.as_mut_ptr(), record.as_mut_ptr(), answer.as_mut_ptr(), weights.as_mut_ptr());
    // The slices are ours, as long as is said, and apart.
    let mut number = unsafe {
        xangoravit_start(n, p, x.as_ptr(), x.len(), y.as_ptr(), y.len(), settings.as_ptr(), SETTINGS, s, scratch.len(), r, RECORD, a, ANSWER)
    };
    while number == 0 && answer[0] == PENDING {
        number = unsafe {
            xangoravit_resume(n, p, x.as_ptr(), x.len(), y.as_ptr(), y.len(), settings.as_ptr(), SETTINGS, r, RECORD, s, scratch.len(), w, weights.len(), budget, a, ANSWER)
        };
        println!("rounds {} solver {} trials {}", answer[3], answer[4], answer[5]);
    }
    if number != 0 {
        return Err((number, answer[2]));
    }
    Ok(Fitted { limit: answer[0] == LIMIT, counts: [answer[3], answer[4], answer[5]], intercept: f64::from_bits(answer[6]) })
}

fn main() {
    let x = [1.0, 0.0, 0.0, 1.0, 1.0, 1.0, 2.0, 1.0];
    let y = [1.0, 2.0, 3.0, 4.0];
    // alpha, l1_ratio, tol, M; panels, which an eager fit does not look at; normalise, eager
    let settings = [0.01f64.to_bits(), 0.5f64.to_bits(), 1e-4f64.to_bits(), 100, 0, 0, 1, 0];
    let mut weights = [0.0; 2];
    let fitted = match fit(4, 2, &x, &y, &settings, &mut weights, 20) {
        Ok(fitted) => fitted,
        Err((number, place)) => {
            println!("refused {number} at {place}");
            std::process::exit(1);
        }
    };
    println!("{} after {:?}: intercept {:?}, weights {:?}", if fitted.limit { "limit" } else { "converged" }, fitted.counts, fitted.intercept, weights);
    let (row, mut out, mut answer) = ([3.0, 1.0], [0.0], [0; ANSWER]);
    let number = unsafe { xangoravit_predict(1, 2, row.as_ptr(), 2, weights.as_ptr(), 2, fitted.intercept, out.as_mut_ptr(), 1, answer.as_mut_ptr(), ANSWER) };
    println!("predicted for {row:?}: {:?} (refusal {number})", out[0]);
}

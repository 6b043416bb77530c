//! A window on lasso_optimizer.rs, as inside.rs is one on elastic_net.rs.
use super::*;

type Optimizer<T, X> = InteriorPointOptimizer<T, X>;

/// An optimizer inside a round: its Gram, and what the Newton step has made of weights and bounds.
pub fn amid<X: Array2<f64>>(gram: X, d1: Vec<f64>, d2: Vec<f64>, prb: Vec<f64>, prs: Vec<f64>) -> Optimizer<f64, X> {
    Optimizer { ata: gram, d1, d2, prb, prs }
}

/// Its solver for `rounds` rounds, as `optimize` calls it.
pub fn solve<X: Array2<f64>>(of: &Optimizer<f64, X>, grad: &Vec<f64>, dxu: &mut Vec<f64>, tol: f64, rounds: usize) -> f64 {
    of.solve_mut(&of.ata, grad, dxu, tol, rounds + 1).unwrap()
}

/// The line search of `optimize_with_products`, line for line, from a place and a direction: neww, newu, newf, the last newz (kept for measure.rs), s and the trials made.
pub fn search<T: FloatNumber, X: Array2<T>, F: Fn(&Vec<T>) -> Vec<T>>(
    (n, p): (usize, usize),
    [w, u, dx, du]: [&Vec<T>; 4],
    y: &Vec<T>,
    [lambda, t, phi, gdx]: [T; 4],
    max_ls_iter: usize,
    matvec: F,
) -> (Vec<T>, Vec<T>, X, Vec<T>, T, usize) {
    let alpha = T::from_f64(0.01).unwrap();
    let beta = T::from_f64(0.5).unwrap();
    let mut neww = w.clone();
    let mut newu = u.clone();
    let mut newf = X::fill(p, 2, -T::one());
    let mut kept = Vec::new();
    let mut s = T::one();

    let mut lsiter = 0;
    while lsiter < max_ls_iter {
        for i in 0..p {
            neww[i] = w[i] + s * dx[i];
            newu[i] = u[i] + s * du[i];
            newf.set((i, 0), neww[i] - newu[i]);
            newf.set((i, 1), -neww[i] - newu[i]);
        }

        if newf
            .iterator(0)
            .fold(T::neg_infinity(), |max, v| v.max(max))
            < T::zero()
        {
            let mut newz = matvec(&neww);
            for i in 0..n {
                newz[i] -= y[i];
            }

            let newphi = newz.dot(&newz) + lambda * newu.sum() - Optimizer::<T, X>::sumlogneg(&newf) / t;
            kept = newz;
            if newphi - phi <= alpha * s * gdx {
                break;
            }
        }
        s = beta * s;
        lsiter += 1;
    }
    (neww, newu, newf, kept, s, lsiter)
}

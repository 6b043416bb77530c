//! A window on elastic_net.rs: a child of that module may call its private functions.
use super::*;
use crate::linalg::basic::arrays::{ArrayView1, MutArrayView2};
use crate::linalg::basic::matrix::DenseMatrix;

type Matrix = DenseMatrix<f64>;
pub type Net = ElasticNet<f64, f64, Matrix, Vec<f64>>;

/// A model as `fit` leaves it, to predict with.
pub fn model(weights: &Vec<f64>, intercept: f64) -> Net {
    ElasticNet {
        coefficients: Some(Matrix::from_column(weights)),
        intercept: Some(intercept),
        _phantom_ty: PhantomData,
        _phantom_y: PhantomData,
    }
}

/// What a fit has before its first round.
pub struct Design {
    pub means: Vec<f64>,
    pub deviations: Vec<f64>,
    pub gamma: f64,
    pub padding: f64,
    pub targets: Vec<f64>,
    pub gram: Matrix,
    pub product: Vec<f64>,
    pub transposed: Vec<f64>,
}

pub fn eager(x: &Matrix, y: &Vec<f64>, normalise: bool, l2: f64, w: &Vec<f64>, v: &Vec<f64>) -> Result<Design, Failed> {
    let (n, p) = x.shape();
    let (scaled, means, deviations) = if normalise {
        Net::rescale_x(x)?
    } else {
        (x.clone(), vec![0.0; p], vec![1.0; p])
    };
    let (design, targets, gamma) = Net::augment_x_and_y(&scaled, y, l2);
    Ok(Design {
        means,
        deviations,
        gamma,
        padding: *design.get((n, 0)),
        targets,
        gram: design.ab(true, &design, false),
        product: w.xa(true, &design),
        transposed: v.xa(false, &design),
    })
}

pub fn lazy(x: &Matrix, y: &Vec<f64>, normalise: bool, l2: f64, w: &Vec<f64>, v: &Vec<f64>) -> Result<Design, Failed> {
    let (n, p) = x.shape();
    let (means, deviations) = if normalise {
        Net::normalization_stats(x)?
    } else {
        (vec![0.0; p], vec![1.0; p])
    };
    let keep = |values: &Vec<f64>| normalise.then(|| values.clone());
    let design = LazyDesign::new(x, keep(&means), keep(&deviations)).with_l2(l2);
    Ok(Design {
        gamma: design.gamma(),
        // The padding is private there; the padded tail of the product with ones is padding · 1.
        padding: design.matvec(&vec![1.0; p])[n],
        targets: Net::augment_y(y, n + p),
        gram: design.gram(),
        product: design.matvec(w),
        transposed: design.transpose_matvec(v),
        means,
        deviations,
    })
}

/// The steps of `eager` and `lazy` one by one, for measure.rs.
pub fn statistics(x: &Matrix) -> (Vec<f64>, Vec<f64>) {
    Net::normalization_stats(x).unwrap()
}

/// `rescale_x` less its statistics, then `augment_x_and_y`.
pub fn scaled(x: &Matrix, y: &Vec<f64>, means: &[f64], deviations: &[f64], l2: f64) -> Matrix {
    let mut scaled = x.clone();
    scaled.scale_mut(means, deviations, 0);
    Net::augment_x_and_y(&scaled, y, l2).0
}

/// Weights, then the intercept, of a whole fit that normalises.
pub fn whole(x: &Matrix, y: &Vec<f64>, alpha: f64, l1_ratio: f64, tol: f64, max_iter: usize, lazy_normalization: bool) -> Vec<f64> {
    let parameters = ElasticNetParameters { alpha, l1_ratio, normalize: true, tol, max_iter, lazy_normalization };
    let net = Net::fit(x, y, parameters).unwrap();
    net.coefficients().iterator(0).chain([net.intercept()]).copied().collect()
}

pub struct Lazy<'a>(LazyDesign<'a, f64, Matrix>);

impl<'a> Lazy<'a> {
    pub fn new(x: &'a Matrix, means: Vec<f64>, deviations: Vec<f64>, l2: f64) -> Self {
        Lazy(LazyDesign::new(x, Some(means), Some(deviations)).with_l2(l2))
    }
    pub fn gram(&self) -> Matrix {
        self.0.gram()
    }
    pub fn matvec(&self, w: &Vec<f64>) -> Vec<f64> {
        self.0.matvec(w)
    }
    pub fn transposed(&self, v: &Vec<f64>) -> Vec<f64> {
        self.0.transpose_matvec(v)
    }
}

//! Stands in for the crate `lazymatrix`: a matrix beside its centres and scales, which hands both to the
//! matrix's own normalised products. All arithmetic is the caller's (lazy_normalization.rs).

pub trait Scalar: num_traits::Float {}
impl<T: num_traits::Float> Scalar for T {}

// The bounds that the products name. Only the published crate's own default products would call them.
pub trait ElemDivAssign<F> {}
pub trait DotSlice<F> {}
pub trait SubScalarAssign<F> {}
pub trait ScaledSubSlice<F> {}
impl<F: Scalar> ElemDivAssign<F> for Vec<F> {}
impl<F: Scalar> DotSlice<F> for Vec<F> {}
impl<F: Scalar> SubScalarAssign<F> for Vec<F> {}
impl<F: Scalar> ScaledSubSlice<F> for Vec<F> {}

pub trait SumEntries<F> {
    fn sum_entries(&self) -> F;
}

pub trait MatrixShape {
    fn nrows(&self) -> usize;
    fn ncols(&self) -> usize;
}

pub trait MatrixErrorType {
    type Error;
}

pub trait MatrixWrite<T>: MatrixShape {
    fn set(&mut self, row: usize, column: usize, value: T);
}

pub trait VectorView<T> {
    fn len(&self) -> usize;
    fn get(&self, index: usize) -> T;
}

pub trait MatVecInto<V>: MatrixShape + MatrixErrorType {
    fn matvec_into(&self, x: &V, out: &mut V) -> Result<(), Self::Error>;
    fn matvec_normalized_into<F: Scalar>(
        &self,
        x: &V,
        centers: Option<&[F]>,
        scales: Option<&[F]>,
        out: &mut V,
    ) -> Result<(), Self::Error>
    where
        V: ElemDivAssign<F> + DotSlice<F> + SubScalarAssign<F>;
}

pub trait MatTransposeVecInto<V, O>: MatrixShape + MatrixErrorType {
    fn mat_transpose_vec_into(&self, x: &V, out: &mut O) -> Result<(), Self::Error>;
    fn mat_transpose_vec_normalized_into<F: Scalar>(
        &self,
        x: &V,
        centers: Option<&[F]>,
        scales: Option<&[F]>,
        out: &mut O,
    ) -> Result<(), Self::Error>
    where
        V: SumEntries<F>,
        O: ScaledSubSlice<F> + ElemDivAssign<F>;
}

pub trait WeightedGramKernel<T>: MatrixShape + MatrixErrorType {
    fn weighted_gram_normalized_into<W, O>(
        &self,
        weights: &W,
        centers: Option<&[T]>,
        scales: Option<&[T]>,
        out: &mut O,
    ) -> Result<(), Self::Error>
    where
        W: VectorView<T> + ?Sized,
        O: MatrixWrite<T> + ?Sized;
}

pub trait WeightedGramInto<T>: MatrixErrorType {
    fn weighted_gram_into<W, O>(&self, weights: &W, out: &mut O) -> Result<(), Self::Error>
    where
        W: VectorView<T> + ?Sized,
        O: MatrixWrite<T> + ?Sized;
}

pub struct LazyMatrix<M, T> {
    matrix: M,
    centers: Option<Vec<T>>,
    scales: Option<Vec<T>>,
}

impl<M: MatrixShape, T: Scalar> LazyMatrix<M, T> {
    pub fn from_parts(matrix: M, centers: Option<Vec<T>>, scales: Option<Vec<T>>) -> Self {
        Self { matrix, centers, scales }
    }
    pub fn nrows(&self) -> usize {
        self.matrix.nrows()
    }
    pub fn ncols(&self) -> usize {
        self.matrix.ncols()
    }
    pub fn centers(&self) -> Option<&[T]> {
        self.centers.as_deref()
    }
    pub fn scales(&self) -> Option<&[T]> {
        self.scales.as_deref()
    }

    pub fn matvec_into<V>(&self, x: &V, out: &mut V) -> Result<(), M::Error>
    where
        M: MatVecInto<V>,
        V: ElemDivAssign<T> + DotSlice<T> + SubScalarAssign<T>,
    {
        self.matrix.matvec_normalized_into(x, self.centers(), self.scales(), out)
    }

    pub fn mat_transpose_vec_into<V, O>(&self, x: &V, out: &mut O) -> Result<(), M::Error>
    where
        M: MatTransposeVecInto<V, O>,
        V: SumEntries<T>,
        O: ScaledSubSlice<T> + ElemDivAssign<T>,
    {
        self.matrix.mat_transpose_vec_normalized_into(x, self.centers(), self.scales(), out)
    }
}

impl<M: MatrixErrorType, T> MatrixErrorType for LazyMatrix<M, T> {
    type Error = M::Error;
}

impl<M: WeightedGramKernel<T>, T: Scalar> WeightedGramInto<T> for LazyMatrix<M, T> {
    fn weighted_gram_into<W, O>(&self, weights: &W, out: &mut O) -> Result<(), M::Error>
    where
        W: VectorView<T> + ?Sized,
        O: MatrixWrite<T> + ?Sized,
    {
        self.matrix.weighted_gram_normalized_into(weights, self.centers(), self.scales(), out)
    }
}

//! Problems as read from a record, inside the sizes that 01 allows.
use crate::words::place;

pub struct Fit {
    pub n: usize,
    pub p: usize,
    pub flags: u64,
    pub limit: usize,
    pub alpha: f64,
    pub l1_ratio: f64,
    pub tol: f64,
    pub x: Vec<f64>,
    pub y: Vec<f64>,
}

pub struct Solver {
    pub order: usize,
    pub limit: usize,
    pub tol: f64,
    pub a: Vec<f64>,
    pub b: Vec<f64>,
    pub x: Vec<f64>,
}

pub struct Predict {
    pub n: usize,
    pub p: usize,
    pub x: Vec<f64>,
    pub w: Vec<f64>,
    pub intercept: f64,
}

pub struct Design {
    pub n: usize,
    pub p: usize,
    pub flags: u64,
    pub alpha: f64,
    pub l1_ratio: f64,
    pub x: Vec<f64>,
    pub y: Vec<f64>,
    pub w: Vec<f64>,
    pub v: Vec<f64>,
}

pub enum Problem {
    Fit(Fit),
    Solver(Solver),
    Predict(Predict),
    Design(Design),
}

struct Cursor<'a> {
    words: &'a [u64],
    at: usize,
    path: &'a str,
    record: u64,
}

impl Cursor<'_> {
    fn wrong<T>(&self, what: &str) -> Result<T, String> {
        Err(format!("{}: {what}", place(self.path, self.record, self.at as u64)))
    }

    /// Words are counted from 1 here, since word 0 is the record's length.
    fn word(&mut self) -> Result<u64, String> {
        self.at += 1;
        match self.words.get(self.at - 1) {
            Some(word) => Ok(*word),
            None => self.wrong("the record is too short"),
        }
    }

    fn whole(&mut self, name: &str, low: u64, high: u64) -> Result<usize, String> {
        let value = self.word()?;
        if value < low || value > high {
            return self.wrong(&format!("{name} is {value}, not {low} to {high}"));
        }
        Ok(value as usize)
    }

    fn float(&mut self, name: &str, low: f64, high: f64) -> Result<f64, String> {
        let value = f64::from_bits(self.word()?);
        if !(value >= low && value <= high) {
            return self.wrong(&format!("{name} is {value:e}, not {low:e} to {high:e}"));
        }
        Ok(value)
    }

    fn floats(&mut self, count: usize) -> Result<Vec<f64>, String> {
        (0..count).map(|_| self.float("a value", f64::MIN, f64::MAX)).collect()
    }
}

/// The problem of a record and how many words it took.
pub fn read(words: &[u64], path: &str, record: u64) -> Result<(Problem, usize), String> {
    let mut c = Cursor { words, at: 0, path, record };
    let problem = match c.whole("the kind", 1, 4)? {
        1 => Problem::Fit(fit(&mut c)?),
        2 => Problem::Solver(solver(&mut c)?),
        3 => Problem::Predict(predict(&mut c)?),
        _ => Problem::Design(design(&mut c)?),
    };
    Ok((problem, c.at))
}

fn shape(c: &mut Cursor) -> Result<(usize, usize), String> {
    Ok((c.whole("n", 1, 4096)?, c.whole("p", 1, 64)?))
}

fn fit(c: &mut Cursor) -> Result<Fit, String> {
    let (n, p) = shape(c)?;
    Ok(Fit {
        n,
        p,
        flags: c.whole("the flags", 0, 3)? as u64,
        limit: c.whole("M", 0, 1000)?,
        alpha: c.float("alpha", 0.0, 1e6)?,
        l1_ratio: c.float("l1_ratio", 0.0, 1.0)?,
        tol: c.float("tol", 0.0, f64::MAX)?,
        x: c.floats(n * p)?,
        y: c.floats(n)?,
    })
}

fn solver(c: &mut Cursor) -> Result<Solver, String> {
    let order = c.whole("the order", 1, 64)?;
    Ok(Solver {
        order,
        limit: c.whole("the limit", 0, 5000)?,
        tol: c.float("tol", f64::MIN, f64::MAX)?,
        a: c.floats(order * order)?,
        b: c.floats(order)?,
        x: c.floats(order)?,
    })
}

fn predict(c: &mut Cursor) -> Result<Predict, String> {
    let (n, p) = shape(c)?;
    Ok(Predict { n, p, x: c.floats(n * p)?, w: c.floats(p)?, intercept: c.floats(1)?[0] })
}

fn design(c: &mut Cursor) -> Result<Design, String> {
    let (n, p) = shape(c)?;
    Ok(Design {
        n,
        p,
        flags: c.whole("the flags", 0, 3)? as u64,
        alpha: c.float("alpha", 0.0, 1e6)?,
        l1_ratio: c.float("l1_ratio", 0.0, 1.0)?,
        x: c.floats(n * p)?,
        y: c.floats(n)?,
        w: c.floats(p)?,
        v: c.floats(n + p)?,
    })
}

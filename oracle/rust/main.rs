//! The oracle's crate root: the Rust's modules, what they lean on, and the driver.
#![allow(dead_code, unused_imports)]

mod answers;
mod counts;
mod measure;
mod problems;
mod vectors;
mod words;

mod api;
mod error;
mod numbers {
    pub mod basenum;
    pub mod floatnum;
    pub mod realnum;
}
mod linalg {
    pub mod basic {
        pub mod arrays;
        pub mod matrix;
    }
    pub mod traits {
        pub mod stats;
        // Decompositions: DenseMatrix names them, no fit calls them.
        pub mod cholesky {
            pub trait CholeskyDecomposable<T> {}
        }
        pub mod evd {
            pub trait EVDDecomposable<T> {}
        }
        pub mod lu {
            pub trait LUDecomposable<T> {}
        }
        pub mod qr {
            pub trait QRDecomposable<T> {}
        }
        pub mod svd {
            pub trait SVDDecomposable<T> {}
        }
    }
}
mod linear {
    pub mod bg_solver;
    pub mod elastic_net;
    pub mod lasso_optimizer;
    pub mod lazy_normalization;
}
mod rand_custom {
    pub fn get_rng_impl(_: Option<u64>) -> rand::rngs::SmallRng {
        panic!("the oracle draws no random number")
    }
}

const USE: &str = "oracle answer PROBLEMS OUT   problems with their answers, as stored
oracle show PROBLEMS         one line for each answer
oracle verify STORED         are these the answers?
oracle root|ln WORDS OUT     bits of root or logarithm, one word a line
oracle facts                 how this std sums
oracle measure PIECE N P COUNT CALLS   a piece of the Rust again and again, for tools/speed";

fn main() {
    let args: Vec<String> = std::env::args().skip(1).collect();
    let args: Vec<&str> = args.iter().map(String::as_str).collect();
    let done = match args[..] {
        ["answer", problems, out] => answers::store(problems, out),
        ["show", problems] => answers::show(problems),
        ["verify", stored] => answers::verify(stored),
        ["root", input, out] => words::map(input, out, f64::sqrt),
        ["ln", input, out] => words::map(input, out, num_traits::Float::ln),
        ["facts"] => Ok(facts()),
        ["measure", what, n, p, count, calls] => measure::run(what, [n, p, count, calls]),
        _ => Err(USE.to_string()),
    };
    match done {
        Ok(text) => print!("{text}"),
        Err(message) => {
            eprintln!("{message}");
            std::process::exit(1);
        }
    }
}

fn facts() -> String {
    let sum = |values: &[f64]| values.iter().sum::<f64>().to_bits();
    let platform = f64::max(std::hint::black_box(0.0), std::hint::black_box(-0.0));
    format!(
        "sum of nothing      {:016x}\nsum of -0           {:016x}\nsum of -0, +0       {:016x}\nf64::max(+0, -0)    {:016x}\n",
        sum(&[]),
        sum(&[-0.0]),
        sum(&[-0.0, 0.0]),
        platform.to_bits()
    )
}

//! The numbers that 01 fixes where the Rust leaves the choice to the platform. Joined to a copy of num_traits.

const LN2_HI: f64 = f64::from_bits(0x3fe62e42_fee00000);
const LN2_LO: f64 = f64::from_bits(0x3dea39ef_35793c76);
const TWO54: f64 = f64::from_bits(0x43500000_00000000);
/// Lg1 to Lg7 of e_log.c.
const LG: [f64; 7] = [
    f64::from_bits(0x3fe55555_55555593),
    f64::from_bits(0x3fd99999_9997fa04),
    f64::from_bits(0x3fd24924_94229359),
    f64::from_bits(0x3fcc71c5_1d8e78af),
    f64::from_bits(0x3fc74664_96cb03de),
    f64::from_bits(0x3fc39a09_d078c69f),
    f64::from_bits(0x3fc2f112_df3e5244),
];

fn high(x: f64) -> i32 {
    (x.to_bits() >> 32) as i32
}

/// The natural logarithm, step for step as fdlibm's e_log.c.
pub fn ln(x: f64) -> f64 {
    let (mut x, mut k) = (x, 0i32);
    if high(x) < 0x0010_0000 {
        if x == 0.0 {
            return f64::NEG_INFINITY;
        }
        if high(x) < 0 {
            return f64::NAN;
        }
        k -= 54;
        x *= TWO54;
    }
    if high(x) >= 0x7ff0_0000 {
        return x + x;
    }
    k += (high(x) >> 20) - 1023;
    let hx = high(x) & 0x000f_ffff;
    let i = (hx + 0x95f64) & 0x0010_0000;
    let top = (hx | (i ^ 0x3ff0_0000)) as u64;
    k += i >> 20;
    let f = f64::from_bits(top << 32 | x.to_bits() & 0xffff_ffff) - 1.0;
    if 0x000f_ffff & (2 + hx) < 3 {
        ln_near_one(f, k)
    } else {
        ln_wide(f, k, hx)
    }
}

/// |f| below 2^-20.
fn ln_near_one(f: f64, k: i32) -> f64 {
    let dk = k as f64;
    if f == 0.0 {
        return if k == 0 { 0.0 } else { dk * LN2_HI + dk * LN2_LO };
    }
    let r = f * f * (0.5 - 0.33333333333333333 * f);
    if k == 0 { f - r } else { dk * LN2_HI - ((r - dk * LN2_LO) - f) }
}

fn ln_wide(f: f64, k: i32, hx: i32) -> f64 {
    let dk = k as f64;
    let s = f / (2.0 + f);
    let z = s * s;
    let w = z * z;
    let t1 = w * (LG[1] + w * (LG[3] + w * LG[5]));
    let t2 = z * (LG[0] + w * (LG[2] + w * (LG[4] + w * LG[6])));
    let r = t2 + t1;
    if (hx - 0x6147a) | (0x6b851 - hx) > 0 {
        let hfsq = 0.5 * f * f;
        if k == 0 {
            f - (hfsq - s * (hfsq + r))
        } else {
            dk * LN2_HI - ((hfsq - (s * (hfsq + r) + dk * LN2_LO)) - f)
        }
    } else if k == 0 {
        f - s * (f - r)
    } else {
        dk * LN2_HI - ((s * (f - r) - dk * LN2_LO) - f)
    }
}

/// Only the powers that a fit takes; any other is a mistake and stops the run.
pub fn powf(x: f64, n: f64) -> f64 {
    if n == 1.0 {
        x
    } else if n == 2.0 {
        x * x
    } else if n == 0.5 {
        x.sqrt()
    } else {
        panic!("no rule for this power")
    }
}

pub fn powi(x: f64, n: i32) -> f64 {
    powf(x, n as f64)
}

pub fn max(a: f64, b: f64) -> f64 {
    if a.is_nan() || a == 0.0 && b == 0.0 && a.is_sign_negative() {
        b
    } else if b.is_nan() || a >= b {
        a
    } else {
        b
    }
}

pub fn min(a: f64, b: f64) -> f64 {
    if a.is_nan() || a == 0.0 && b == 0.0 && a.is_sign_positive() {
        b
    } else if b.is_nan() || a <= b {
        a
    } else {
        b
    }
}

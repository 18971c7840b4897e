//! Numbers on the limits and beyond them.

pub const TIMES: &[f64] = &[
    0.0,
    -0.0,
    5e-324,
    -5e-324,
    2.2250738585072014e-308,
    1e-300,
    1e9,
    -1e9,
    1_000_000_000.000_000_1,
    -1_000_000_000.000_000_1,
    999_999_999.999_999_9,
    1e10,
    1e300,
    f64::MAX,
    f64::MIN,
    f64::INFINITY,
    f64::INFINITY,
    f64::NEG_INFINITY,
    f64::NAN,
    1.0,
    -1.0,
    0.0625,
    0.0626,
    0.06,
];

pub const RATES: &[f64] = &[
    1.0,
    0.999_999_999_999_999_9,
    1e6,
    1_000_000.000_000_000_1,
    0.0,
    -0.0,
    -8.0,
    5e-324,
    f64::INFINITY,
    f64::NEG_INFINITY,
    f64::NAN,
    44_100.0,
    44_100.000_000_000_01,
];

pub const GAINS: &[f32] = &[f32::NAN, -f32::NAN, f32::INFINITY, f32::NEG_INFINITY];

pub const SAMPLES: &[f32] = &[
    f32::MAX,
    f32::MIN,
    f32::MIN_POSITIVE,
    1e-45,
    -1e-45,
    -0.0,
    0.0,
    1e38,
    -1e38,
    f32::INFINITY,
    f32::NEG_INFINITY,
    f32::NAN,
];

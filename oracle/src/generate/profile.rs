//! The kinds of random tapes, by name.

use crate::tape::Format;

/// How often each kind of call comes, in proportion.
#[derive(Clone, Copy)]
pub struct Weights {
    pub push: u32,
    pub edit: u32,
    pub tick: u32,
    pub block: u32,
    pub reset: u32,
    pub rate: u32,
    pub front_reset: u32,
    pub lent: u32,
}

/// Calls that stand between the creation and the random part.
#[derive(Clone, Copy, PartialEq, Eq)]
pub enum Opening {
    None,
    /// Some pushes that sound at once.
    Chord,
    /// Pushes up to about 256 held.
    Crowd,
    /// Edits of unknown numbers up to about 256 stored, in some tapes.
    Edits,
    /// The clock is brought near its limit.
    Late,
}

/// The gains of pushes.
#[derive(Clone, Copy, PartialEq, Eq)]
pub enum Gains {
    /// Kinds 01 to 03 only.
    None,
    /// Kinds 01 to 03 and 0A to 0C, every gain 1.0.
    One,
    /// Other finite gains too.
    Finite,
    /// NaN and infinities too.
    Any,
}

#[derive(Clone, Copy)]
pub struct Profile {
    pub name: &'static str,
    /// What the profile is for.
    pub about: &'static str,
    pub format: Format,
    /// Fewest and most random calls.
    pub calls: (i64, i64),
    pub opening: Opening,
    pub weights: Weights,
    /// Percent of tapes in mode None.
    pub mode_none: u64,
    pub rates: &'static [f64],
    pub gains: Gains,
    /// Percent of ticks and blocks that are marked (document 02, Paper 9).
    pub marks: u64,
    /// Whether every source gives multiples of 1/32768 within -1 and 1, and no fade acts.
    pub multiples: bool,
    /// Percent of numbers taken from the limits and beyond.
    pub wild: u64,
    /// Greatest block size; percent of larger ones.
    pub blocks: (i64, u64),
    /// Longest event in half samples.
    pub longest: i64,
    /// Whether the first number is near 2^64 - 1.
    pub last_numbers: bool,
    /// Whether bytes are damaged at the end.
    pub damaged: bool,
}

const EVEN: Weights = Weights {
    push: 30,
    edit: 12,
    tick: 22,
    block: 28,
    reset: 3,
    rate: 3,
    front_reset: 0,
    lent: 0,
};

const RATES: &[f64] = &[
    8.0,
    8.0,
    8.0,
    1.0,
    3.0,
    7.0,
    100.0,
    44_100.0,
    48_000.0,
    22_050.0,
    96_000.0,
    1_000_000.0,
    44_100.5,
    999.999,
];

/// Rates whose sample duration is not exact, so that × rate and / duration part.
const UNEVEN_RATES: &[f64] = &[3.0, 7.0, 10.0, 44_100.0, 48_000.0, 49.0, 1000.0, 999.999];

const SMALL: Profile = Profile {
    name: "small",
    about: "short valid tapes",
    format: Format::Tape,
    calls: (2, 24),
    opening: Opening::None,
    weights: EVEN,
    mode_none: 50,
    rates: RATES,
    gains: Gains::None,
    marks: 0,
    multiples: false,
    wild: 0,
    blocks: (64, 0),
    longest: 100,
    last_numbers: false,
    damaged: false,
};

pub const PROFILES: &[Profile] = &[
    SMALL,
    Profile {
        name: "long",
        about: "thousands of records",
        calls: (2000, 4000),
        weights: Weights {
            reset: 1,
            rate: 1,
            ..EVEN
        },
        mode_none: 85,
        longest: 400,
        wild: 1,
        ..SMALL
    },
    Profile {
        name: "dense",
        about: "near 256 held events",
        calls: (40, 120),
        opening: Opening::Crowd,
        longest: 1000,
        ..SMALL
    },
    Profile {
        name: "numbers",
        about: "limits, -0.0, subnormals, infinities, NaN",
        calls: (10, 60),
        wild: 35,
        blocks: (64, 5),
        ..SMALL
    },
    Profile {
        name: "blocks",
        about: "all block sizes, 0 to 64 and above",
        calls: (40, 160),
        weights: Weights {
            push: 25,
            edit: 8,
            tick: 8,
            block: 60,
            ..EVEN
        },
        mode_none: 70,
        blocks: (64, 4),
        longest: 300,
        ..SMALL
    },
    Profile {
        name: "modes",
        about: "resets and rate changes in both modes",
        calls: (20, 120),
        weights: Weights {
            reset: 14,
            rate: 14,
            ..EVEN
        },
        ..SMALL
    },
    Profile {
        name: "swaps",
        about: "many sounding events with early finishes",
        calls: (20, 80),
        opening: Opening::Chord,
        weights: Weights {
            push: 25,
            edit: 25,
            tick: 40,
            block: 14,
            reset: 1,
            rate: 1,
            ..EVEN
        },
        blocks: (6, 0),
        longest: 24,
        ..SMALL
    },
    Profile {
        name: "fades",
        about: "half samples, short fades, fades equal to the duration, vanishing fades",
        calls: (10, 60),
        rates: UNEVEN_RATES,
        wild: 3,
        longest: 40,
        ..SMALL
    },
    Profile {
        name: "edits",
        about: "edits of unknown, waiting, sounding and finished numbers, a full edit map",
        calls: (20, 120),
        opening: Opening::Edits,
        weights: Weights {
            edit: 50,
            reset: 5,
            ..EVEN
        },
        longest: 60,
        ..SMALL
    },
    Profile {
        name: "last-numbers",
        about: "event numbers near 2^64 - 1",
        calls: (10, 40),
        last_numbers: true,
        ..SMALL
    },
    Profile {
        name: "damaged",
        about: "damaged tapes",
        calls: (2, 16),
        wild: 5,
        damaged: true,
        ..SMALL
    },
    Profile {
        name: "gains-one",
        about: "kinds 01 to 03 and 0A to 0C, every gain 1.0",
        calls: (10, 60),
        gains: Gains::One,
        longest: 60,
        ..SMALL
    },
    Profile {
        name: "gains",
        about: "gains of 0, -0.0, below 0, subnormal, huge, with products that overflow",
        calls: (10, 60),
        rates: UNEVEN_RATES,
        gains: Gains::Finite,
        longest: 40,
        ..SMALL
    },
    Profile {
        name: "gains-wild",
        about: "NaN and infinite gains, among other limits",
        calls: (10, 60),
        gains: Gains::Any,
        wild: 25,
        blocks: (64, 3),
        ..SMALL
    },
    Profile {
        name: "gains-dense",
        about: "any gain, near 256 held events",
        calls: (80, 240),
        opening: Opening::Crowd,
        gains: Gains::Any,
        longest: 1000,
        ..SMALL
    },
    Profile {
        name: "gains-damaged",
        about: "damaged tapes with gains",
        calls: (2, 16),
        weights: Weights { push: 60, ..EVEN },
        gains: Gains::Any,
        wild: 5,
        damaged: true,
        ..SMALL
    },
    Profile {
        name: "lent",
        about: "script: lengths of lent output, scratch and pool",
        format: Format::Script,
        calls: (10, 60),
        weights: Weights { lent: 40, ..EVEN },
        ..SMALL
    },
    Profile {
        name: "late",
        about: "script: a clock near its limit",
        format: Format::Script,
        calls: (15_000, 20_000),
        opening: Opening::Late,
        weights: Weights { reset: 0, ..EVEN },
        mode_none: 90,
        rates: &[1e6, 1e6, 999_999.0, 44_100.0, 48_000.0, 3.0, 1.0],
        longest: 400,
        ..SMALL
    },
    Profile {
        name: "desk-small",
        about: "desk script: a bit of everything",
        format: Format::Desk,
        calls: (5, 60),
        weights: Weights {
            front_reset: 6,
            ..EVEN
        },
        ..SMALL
    },
    Profile {
        name: "desk-resets",
        about: "desk script: resets from both sides with messages behind them",
        format: Format::Desk,
        calls: (20, 120),
        weights: Weights {
            front_reset: 25,
            reset: 8,
            tick: 12,
            block: 10,
            ..EVEN
        },
        mode_none: 70,
        ..SMALL
    },
    Profile {
        name: "desk-full",
        about: "desk script: full queues, in both directions",
        format: Format::Desk,
        calls: (200, 600),
        weights: Weights {
            push: 100,
            edit: 25,
            tick: 1,
            block: 1,
            reset: 1,
            rate: 1,
            front_reset: 2,
            lent: 0,
        },
        mode_none: 70,
        longest: 4,
        ..SMALL
    },
    Profile {
        name: "desk-edits",
        about: "desk script: a full edit map",
        format: Format::Desk,
        calls: (60, 200),
        opening: Opening::Edits,
        weights: Weights {
            edit: 60,
            tick: 6,
            block: 4,
            reset: 1,
            front_reset: 1,
            ..EVEN
        },
        ..SMALL
    },
    Profile {
        name: "desk-lent",
        about: "desk script: lengths of lent output, scratch and pool, limits",
        format: Format::Desk,
        calls: (10, 60),
        weights: Weights {
            lent: 25,
            front_reset: 4,
            ..EVEN
        },
        wild: 5,
        blocks: (64, 5),
        ..SMALL
    },
    Profile {
        name: "desk-gains-one",
        about: "desk script: kinds 01 to 03 and 0A to 0C, every gain 1.0",
        format: Format::Desk,
        calls: (10, 60),
        weights: Weights {
            front_reset: 4,
            ..EVEN
        },
        gains: Gains::One,
        ..SMALL
    },
    Profile {
        name: "desk-gains",
        about: "desk script: any gain, also with full queues",
        format: Format::Desk,
        calls: (60, 300),
        weights: Weights {
            push: 100,
            edit: 12,
            tick: 1,
            block: 2,
            reset: 1,
            rate: 1,
            front_reset: 1,
            lent: 0,
        },
        gains: Gains::Any,
        ..SMALL
    },
    Profile {
        name: "desk-marks",
        about: "desk script: ticks and blocks with the mark, many sounding events with early finishes",
        format: Format::Desk,
        calls: (20, 120),
        opening: Opening::Chord,
        weights: Weights {
            push: 45,
            tick: 35,
            block: 15,
            reset: 1,
            rate: 1,
            front_reset: 1,
            ..EVEN
        },
        rates: UNEVEN_RATES,
        gains: Gains::One,
        marks: 60,
        blocks: (8, 0),
        longest: 60,
        ..SMALL
    },
    Profile {
        name: "desk-marks-alike",
        about: "desk script: marked calls without consequence, on multiples of 1/32768",
        format: Format::Desk,
        calls: (40, 160),
        opening: Opening::Chord,
        weights: Weights {
            push: 45,
            reset: 1,
            rate: 1,
            front_reset: 1,
            ..EVEN
        },
        gains: Gains::One,
        marks: 60,
        multiples: true,
        ..SMALL
    },
    Profile {
        name: "desk-damaged",
        about: "desk script: damaged",
        format: Format::Desk,
        calls: (2, 16),
        weights: Weights {
            lent: 10,
            front_reset: 4,
            ..EVEN
        },
        damaged: true,
        ..SMALL
    },
];

pub fn named(name: &str) -> Option<&'static Profile> {
    PROFILES.iter().find(|profile| profile.name == name)
}

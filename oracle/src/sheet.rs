//! Document 01's example tape and proof sheet, case 6 as document 02's Paper 3 has it, held against the original and the ledger.

use crate::desk::Desk;
use crate::engine::Engine;
use crate::ledger::{DeskLedger, Ledger, numbers};
use crate::listing::{Detail, play};
use crate::original::math::{round, smooth5};
use crate::player::Player;
use crate::session::{TRAIL_POOL, pool};
use crate::tape::Format;
use crate::text::from_text;

struct Case {
    name: &'static str,
    format: Format,
    /// The calls after a creation of one channel; document 01 sets the rate to 8.
    tape: &'static str,
    /// The listing's last lines, samples as numbers.
    ends: &'static [Line],
}

enum Line {
    Counts(&'static str),
    Samples(&'static [f32]),
}

use Line::{Counts, Samples};

const CASES: &[Case] = &[
    Case {
        name: "example",
        format: Format::Tape,
        tape: "create 1 all 1\nrate 8\npush 0 0.125 0 0 smooth held 1\nblock 2\ntick\n",
        ends: &[
            Counts("00 0 0 0 0 0"),
            Counts("09 0 0 0 0 0"),
            Counts("01 0 1 0 0 0"),
            Counts("07 0 0 1 0 0"),
            Samples(&[1.0, 0.0]),
            Counts("06 0 0 0 1 0"),
            Samples(&[0.0]),
        ],
    },
    Case {
        name: "3, start 0.0625 waits",
        format: Format::Tape,
        tape: "create 1 all 1\nrate 8\npush 0.0625 1 0 0 smooth held 1\ntick\n",
        ends: &[Counts("06 0 1 0 0 0"), Samples(&[0.0])],
    },
    Case {
        name: "3, start 0.06 sounds",
        format: Format::Tape,
        tape: "create 1 all 1\nrate 8\npush 0.06 1 0 0 smooth held 1\ntick\n",
        ends: &[Counts("06 0 0 1 0 0"), Samples(&[1.0])],
    },
    Case {
        name: "4, end 0.0625 finishes unheard",
        format: Format::Tape,
        tape: "create 1 all 1\nrate 8\npush 0 0.0625 0 0 smooth held 1\ntick\n",
        ends: &[Counts("06 0 0 0 1 0"), Samples(&[0.0])],
    },
    Case {
        name: "4, end 0.0626 sounds",
        format: Format::Tape,
        tape: "create 1 all 1\nrate 8\npush 0 0.0626 0 0 smooth held 1\ntick\n",
        ends: &[Counts("06 0 0 1 0 0"), Samples(&[1.0])],
    },
    Case {
        name: "5, fade-out",
        format: Format::Tape,
        tape: "create 1 all 1\nrate 8\npush 0 1 0 0.5 smooth held 1\nblock 16\n",
        ends: &[Samples(&[
            1.0,
            1.0,
            1.0,
            1.0,
            1.0,
            0.896484375,
            0.5,
            0.103515625,
            0.0,
            0.0,
            0.0,
            0.0,
            0.0,
            0.0,
            0.0,
            0.0,
        ])],
    },
    Case {
        name: "6, fade-in of a late start",
        format: Format::Tape,
        tape: "create 1 all 1\nrate 8\npush 1 inf 0.5 0 smooth held 1\nblock 16\n",
        ends: &[Samples(&[
            0.0,
            0.0,
            0.0,
            0.0,
            0.0,
            0.0,
            0.0,
            0.0,
            0.0,
            0.103515625,
            0.5,
            0.896484375,
            1.0,
            1.0,
            1.0,
            1.0,
        ])],
    },
    Case {
        name: "7, fade equal to the duration",
        format: Format::Tape,
        tape: "create 1 all 1\nrate 8\npush 0 1 1 1 smooth held 1\n",
        ends: &[Counts("01 0 1 0 0 0")],
    },
    Case {
        name: "7, fade above the duration",
        format: Format::Tape,
        tape: "create 1 all 1\nrate 8\npush 0 1 1.01 0 smooth held 1\n",
        ends: &[Counts("01 4 0 0 0 0")],
    },
    Case {
        name: "8, messages behind a reset",
        format: Format::Desk,
        tape: "create 1 none 1\nrate 8\nfront-reset\npush 0 1 0 0 smooth held 1\ntick\n",
        ends: &[Counts("06 0 0 0 0 1"), Samples(&[0.0])],
    },
    Case {
        name: "clock limit",
        format: Format::Script,
        tape: CLOCK_LIMIT,
        ends: CLOCK_LIMIT_ENDS,
    },
];

/// Refusal 12, which no short tape reaches, behind 10 and 11.
const CLOCK_LIMIT: &str = "create 1 all 1\nrate 1\nspin 15625000\n\
    tick\nblock 1\nblock 65\ntick-lent 2\nblock 0\n\
    push-relative 1000000000 inf 0 0 smooth held 1\nrate 1000000\ntick\nreset\ntick\n";

const CLOCK_LIMIT_ENDS: &[Line] = &[
    Counts("14 0 0 0 0 0"),
    Counts("06 12 0 0 0 0"),
    Counts("07 12 0 0 0 0"),
    Counts("07 11 0 0 0 0"),
    Counts("11 10 0 0 0 0"),
    Counts("07 0 0 0 0 0"),
    Samples(&[]),
    Counts("02 0 1 0 0 0"),
    Counts("09 0 1 0 0 0"),
    Counts("06 12 1 0 0 0"),
    Counts("08 0 1 0 0 0"),
    Counts("06 0 1 0 0 0"),
    Samples(&[0.0]),
];

/// Hold every case against both sides; how many cases, or what is wrong.
pub fn check() -> Result<usize, String> {
    curve_points()?;
    indexes()?;
    for case in CASES {
        match case.format {
            Format::Desk => {
                play_case::<Desk>(case, ())?;
                play_case::<DeskLedger>(case, None)?;
            }
            _ => {
                play_case::<Engine>(case, ())?;
                play_case::<Ledger>(case, None)?;
            }
        }
    }
    Ok(CASES.len() + 2)
}

/// Case 1.
fn curve_points() -> Result<(), String> {
    let points = [
        (0.0, 0.0),
        (0.25, 0.103515625),
        (0.5, 0.5),
        (0.75, 0.896484375),
        (1.0, 1.0),
    ];
    for (x, y) in points {
        if smooth5(x) != y || numbers::curve(crate::call::Curve::Smooth, x) != y {
            return Err(format!("case 1: smooth5 at {x}"));
        }
    }
    Ok(())
}

/// Case 2.
fn indexes() -> Result<(), String> {
    use numbers::Word::{Free, Raised};
    for (x, index, word) in [(0.5, 1, Free), (2.5, 3, Free), (-0.5, 0, Raised)] {
        if round(x) as usize != index || numbers::index(x) != (index as u64, word) {
            return Err(format!("case 2: index of {x}"));
        }
    }
    Ok(())
}

fn play_case<P: Player>(case: &Case, variant: P::Variant) -> Result<(), String> {
    let tape = from_text(case.tape)?;
    let mut text = Vec::new();
    play::<P>(
        case.format,
        Detail::Listing,
        variant,
        &tape,
        &pool(TRAIL_POOL),
        &mut text,
    )
    .expect("memory takes all");
    let text = String::from_utf8(text).expect("a listing is text");
    let ends: String = case.ends.iter().map(expected).collect();
    if text.ends_with(&ends) {
        Ok(())
    } else {
        Err(format!("case {}: {text}", case.name))
    }
}

fn expected(line: &Line) -> String {
    match line {
        Counts(counts) => format!("{counts}\n"),
        Samples(samples) => {
            let words: Vec<String> = samples
                .iter()
                .map(|sample| format!("{:08X}", sample.to_bits()))
                .collect();
            words.join(" ") + "\n"
        }
    }
}

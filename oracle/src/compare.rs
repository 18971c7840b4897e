//! Comparing something with the oracle on random tapes.

use crate::digest;
use crate::generate::{PROFILES, Profile, generate, named};
use crate::judge::{Judge, judge};
use crate::shrink::shrink;
use crate::tape;
use crate::text::to_text;
use std::process::ExitCode;

/// Which tapes are tried.
pub struct Options {
    pub profiles: Vec<&'static Profile>,
    /// Tapes of each profile.
    pub tapes: u64,
    /// The first seed.
    pub seed: u64,
}

impl Options {
    /// Read `--tapes N`, `--seed S` and any number of `--profile P`; the arguments that follow.
    /// Without a profile all those that `usable` takes are tried.
    pub fn read(
        arguments: &[String],
        usable: impl Fn(&Profile) -> bool,
    ) -> Result<(Self, &[String]), String> {
        let mut options = Options {
            profiles: Vec::new(),
            tapes: 20,
            seed: 0,
        };
        let mut rest = arguments;
        while let [option, value, more @ ..] = rest {
            let number = || value.parse().map_err(|_| format!("bad number {value}"));
            match option.as_str() {
                "--tapes" => options.tapes = number()?,
                "--seed" => options.seed = number()?,
                "--profile" => {
                    let profile = named(value).filter(|profile| usable(profile));
                    options
                        .profiles
                        .push(profile.ok_or(format!("no such profile: {value}"))?);
                }
                _ => break,
            }
            rest = more;
        }
        if options.profiles.is_empty() {
            options.profiles = PROFILES.iter().filter(|profile| usable(profile)).collect();
        }
        Ok((options, rest))
    }
}

/// Tapes and records that were compared, and how many tapes differ.
#[derive(Clone, Copy, Debug, Default, PartialEq, Eq)]
pub struct Count {
    pub tapes: u64,
    pub records: u64,
    pub differences: u64,
}

impl Count {
    fn print(self, name: &str) {
        let (tapes, records, differences) = (self.tapes, self.records, self.differences);
        println!("{name}: {tapes} tapes, {records} records, {differences} differences");
    }
}

#[derive(Clone, Debug, Default, PartialEq, Eq)]
pub struct Compared {
    /// The tapes that the original measures, and those that the second ledger does.
    pub original: Count,
    pub ledger: Count,
    /// The first difference with its smallest tape as text.
    pub report: Option<String>,
}

impl Compared {
    /// Print the report and the counts, apart and as a sum; whether nothing differs.
    pub fn conclude(self, name: &str) -> ExitCode {
        if let Some(report) = self.report {
            eprintln!("{report}");
        }
        let (original, ledger) = (self.original, self.ledger);
        let all = Count {
            tapes: original.tapes + ledger.tapes,
            records: original.records + ledger.records,
            differences: original.differences + ledger.differences,
        };
        original.print(&format!("{name}: by the original"));
        ledger.print(&format!(
            "{name}: other gains or marks, by the second ledger"
        ));
        all.print(name);
        if all.differences == 0 && all.tapes > 0 {
            ExitCode::SUCCESS
        } else {
            ExitCode::FAILURE
        }
    }
}

/// Compare on every tape. `differs` says in what a tape shows a difference; the seed is that of the tape which was generated.
pub fn compare(
    options: &Options,
    mut differs: impl FnMut(&[u8], u64) -> Option<String>,
) -> Compared {
    let mut compared = Compared::default();
    for profile in &options.profiles {
        for seed in options.seed..options.seed + options.tapes {
            let tape = generate(profile, seed);
            let count = match judge(profile.format, &tape) {
                Judge::Original => &mut compared.original,
                Judge::Ledger => &mut compared.ledger,
            };
            count.tapes += 1;
            count.records += records(profile, &tape);
            let mut differs = |tape: &[u8]| differs(tape, seed);
            if let Some(what) = differs(&tape) {
                count.differences += 1;
                if compared.report.is_none() {
                    compared.report = Some(report(profile, seed, &tape, &what, &mut differs));
                }
            }
        }
    }
    compared
}

/// The records of a tape, the one that stops it included.
fn records(profile: &Profile, tape: &[u8]) -> u64 {
    let (calls, stop) = tape::records(profile.format, tape);
    calls.len() as u64 + u64::from(stop.is_some())
}

fn report(
    profile: &Profile,
    seed: u64,
    tape: &[u8],
    what: &str,
    differs: &mut impl FnMut(&[u8]) -> Option<String>,
) -> String {
    let smallest = shrink(profile.format, tape, |tape| differs(tape).is_some());
    let smallest_what = differs(&smallest).unwrap_or_else(|| "it differs no more".into());
    format!(
        "first difference: profile {}, seed {seed}\n{what}\nsmallest tape:\n{}{smallest_what}\n",
        profile.name,
        to_text(profile.format, &smallest),
    )
}

/// Where two texts part, or none.
pub fn first_line(expected: &[u8], got: &[u8]) -> Option<String> {
    if expected == got {
        return None;
    }
    let mut expected = expected.split(|byte| *byte == b'\n');
    let mut got = got.split(|byte| *byte == b'\n');
    let mut number = 1;
    loop {
        let (line, other) = (expected.next(), got.next());
        if line != other {
            let show = |line: Option<&[u8]>| match line {
                Some(line) => String::from_utf8_lossy(line).into_owned(),
                None => "(no line)".into(),
            };
            let (line, other) = (show(line), show(other));
            let parts = match digest::parts(&line, &other) {
                Some(names) => format!(", in {names}"),
                None => String::new(),
            };
            return Some(format!(
                "line {number}{parts}\n  expected: {line}\n  got:      {other}"
            ));
        }
        number += 1;
    }
}

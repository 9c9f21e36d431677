//! What `regrow` must print for an archive: its form by `form`, its answers by the same driver of the
//! Rust that answers the byte runs.
use crate::archive::Row;
use crate::form;
use crate::form::Read;
use runs::{Answer, Call, Driver, Making, Sums, ROW_NUMBERS};
use std::fmt::Write;
use texts::{refused, OUT_OF_FORM};

/// What an archive comes to.
#[derive(Clone, Debug, PartialEq)]
pub enum Outcome {
    /// One of the first three lines is out of form or missing.
    NoMaking,
    /// The making is refused with this number.
    Unmade {
        making: Making,
        refusal: u32,
    },
    Grown(Grown),
}

/// Rows carried out.
#[derive(Clone, Debug, PartialEq)]
pub struct Grown {
    pub making: Making,
    /// The calls of the rows before a bad one, and the answer to each. A row that is refused before any call has none,
    /// and its refusal alone for an answer.
    pub calls: Vec<Option<Call>>,
    pub answers: Vec<Answer>,
    /// How many of these rows have their words by a key.
    pub keyed: usize,
    /// What its reports show of sums.
    pub sums: Sums,
    pub end: End,
}

/// How an archive with rows ends.
#[derive(Clone, Debug, PartialEq)]
pub enum End {
    /// With this row, which is out of form.
    Bad(usize),
    /// With bits of the weight and index of each kept arrival in the heap's order, and the printed tree.
    Kept {
        sample: Vec<(u32, usize)>,
        list: String,
    },
}

pub fn outcome(bytes: &[u8]) -> Outcome {
    match form::read(bytes) {
        None => Outcome::NoMaking,
        Some(read) => carried_out(&read),
    }
}

/// The bytes that `regrow` must print.
pub fn printed(bytes: &[u8]) -> Vec<u8> {
    outcome(bytes).bytes()
}

fn carried_out(read: &Read) -> Outcome {
    let making = read.archive.making.of_tree();
    let mut driver = match Driver::make(&making) {
        Err(refusal) => return Outcome::Unmade { making, refusal },
        Ok(driver) => driver,
    };
    let (mut calls, mut answers) = (Vec::new(), Vec::new());
    for row in &read.archive.rows {
        let call = row.call(|query| driver.report_rows(query));
        answers.push(match &call {
            Ok(call) => driver.call(call),
            Err(refusal) => vec![*refusal],
        });
        calls.push(call.ok());
    }
    let keyed = |row: &&Row| matches!(row, Row::Keyed { .. });
    let end = match read.bad {
        Some(row) => End::Bad(row),
        None => {
            let heap = driver.sampled().heap().into_iter();
            End::Kept {
                sample: heap.map(|(weight, i)| (weight.to_bits(), i)).collect(),
                list: oracle::printed(driver.tree()),
            }
        }
    };
    Outcome::Grown(Grown {
        making,
        calls,
        answers,
        keyed: read.archive.rows.iter().filter(keyed).count(),
        sums: driver.sums(),
        end,
    })
}

impl Outcome {
    /// The bytes that are printed.
    pub fn bytes(&self) -> Vec<u8> {
        let text = match self {
            Outcome::NoMaking => refused(OUT_OF_FORM, 0),
            Outcome::Unmade { refusal, .. } => refused(*refusal, 0),
            Outcome::Grown(grown) => {
                let calls = grown.calls.iter().map(Option::as_ref);
                let rows = answered(calls.zip(&grown.answers));
                rows + &match &grown.end {
                    End::Bad(row) => refused(OUT_OF_FORM, *row),
                    End::Kept { sample, list } => kept(sample) + list,
                }
            }
        };
        text.into_bytes()
    }

    pub fn in_form(&self) -> bool {
        match self {
            Outcome::NoMaking => false,
            Outcome::Unmade { .. } => true,
            Outcome::Grown(grown) => !matches!(grown.end, End::Bad(_)),
        }
    }

    /// Every refusal that is printed.
    pub fn refusals(&self) -> Vec<u32> {
        match self {
            Outcome::NoMaking => vec![OUT_OF_FORM],
            Outcome::Unmade { refusal, .. } => vec![*refusal],
            Outcome::Grown(grown) => {
                let of_rows = grown.answers.iter().map(|answer| answer[0]);
                let of_form = matches!(grown.end, End::Bad(_)).then_some(OUT_OF_FORM);
                let all = of_rows.filter(|refusal| *refusal > 0).chain(of_form);
                all.collect()
            }
        }
    }
}

/// The lines of the rows, by their calls and the numbers of their answers. What is no answer, be it only by a number that
/// should be 0, is told as such.
pub(crate) fn answered<'a>(rows: impl Iterator<Item = (Option<&'a Call>, &'a Answer)>) -> String {
    let mut text = String::new();
    for ((call, answer), row) in rows.zip(1..) {
        match (call, &answer[..]) {
            (Some(Call::Put { .. }), [0]) => {}
            (Some(Call::Arrival { .. }), [0, 0, 0, 0]) => {
                line(&mut text, format_args!("passed {row}"));
            }
            (Some(Call::Arrival { .. }), [0, 1, leaf, 0]) => {
                line(&mut text, format_args!("leaf {leaf} {row}"));
            }
            (Some(Call::Arrival { .. }), [0, 2, leaf, evicted]) => {
                let what = format_args!("leaf {leaf} evicted {evicted} {row}");
                line(&mut text, what);
            }
            (Some(Call::Report { .. }), [0, count, rows @ ..])
                if rows.len() == ROW_NUMBERS * *count as usize =>
            {
                report(&mut text, rows);
            }
            (_, [refusal, rest @ ..]) if *refusal > 0 && rest.iter().all(|n| *n == 0) => {
                text += &refused(*refusal, row);
            }
            _ => line(&mut text, format_args!("no answer to row {row}")),
        }
    }
    text
}

fn report(text: &mut String, rows: &[u32]) {
    for row in rows.chunks(ROW_NUMBERS) {
        let [id, depth, mass, low, high] = row else {
            panic!("a row has five numbers");
        };
        line(
            text,
            format_args!("row {id} {depth} {mass} {high:08X}{low:08X}"),
        );
    }
}

/// The sample, names line first.
pub(crate) fn kept(sample: &[(u32, usize)]) -> String {
    let mut text = String::from("weight index\n");
    for (weight, index) in sample {
        line(&mut text, format_args!("{weight:08X} {index}"));
    }
    text
}

fn line(text: &mut String, arguments: std::fmt::Arguments) {
    writeln!(text, "{arguments}").expect("a string takes every text");
}

//! Archives in form, from the byte runs' generator: the puts, arrivals and reports of a sampled run as
//! rows. Its shares are sixteenths. What an archive can't hold becomes something near it that it can, and is
//! refused with the same number. In some archives arrivals have their words by a key, all or some.
use super::keyed::Keying;
use super::odd;
use crate::archive::{Archive, Making, Row};
use oracle::Words;
use runs::generate::{sampled_by, sampled_capacity, Room, Widths};
use runs::{Call, Run};
use texts::generate::{too_large_share, whole_coordinate, MOST};

/// No row of an archive in form has more words than this, whatever its index.
const MOST_WORDS: usize = 479;

/// An archive of any length.
pub fn archive(words: &mut Words) -> Archive {
    let room = words.one_of(&[
        400, 1_500, 6_000, 6_000, 6_000, 12_000, 12_000, 20_000, 60_000,
    ]);
    within(words, room)
}

/// One of a few rows.
pub fn short(words: &mut Words) -> Archive {
    let room = words.one_of(&[400, 700, 1_500, 3_000]);
    within(words, room)
}

/// One of a run of so many bytes.
pub fn within(words: &mut Words, room: usize) -> Archive {
    let room = Room {
        run: room,
        answers: 3 * room,
    };
    let capacity = sampled_capacity(words, room);
    let sixteenths = |words: &mut Words| {
        let any = words.below(17) as u32;
        words.one_of(&[0, 2, 8, 16, any, any])
    };
    let making = Making {
        dimensions: Widths::All.channels(words),
        capacity,
        cache16: sixteenths(words),
        initial16: sixteenths(words),
    };
    let run = sampled_by(making.of_tree(), words, room).run;
    let mut archive = of_run(&run, words);
    if words.once_in(3) {
        Keying::drawn(words).put_in(&mut archive, words);
    }
    if words.once_in(3) {
        odd::put_in(&mut archive, words);
    }
    if words.once_in(4) {
        archive.rows.truncate(words.below(archive.rows.len() + 1));
    }
    archive
}

fn of_run(run: &Run, words: &mut Words) -> Archive {
    let initial = run.making.initial.expect("a sampled run");
    let making = Making {
        dimensions: run.making.channels.min(MOST),
        capacity: run.making.capacity.min(MOST),
        cache16: sixteenths(run.making.share, words),
        initial16: sixteenths(initial, words),
    };
    let rows = run.calls.iter().filter_map(|call| row(call, words));
    Archive {
        making,
        rows: rows.collect(),
    }
}

/// The share in sixteenths; one above its range where the run's is out of it.
fn sixteenths(share: u64, words: &mut Words) -> u32 {
    let share = f64::from_bits(share);
    match (0.0..=1.0).contains(&share) {
        true => (16.0 * share) as u32,
        false => too_large_share(words),
    }
}

/// The row of a call; a query has none.
fn row(call: &Call, words: &mut Words) -> Option<Row> {
    let mut whole = |coordinates: &[u32]| {
        let whole = |x: &u32| whole_coordinate(*x, words);
        coordinates.iter().map(whole).collect()
    };
    Some(match call {
        Call::Put { index, coordinates } => Row::Put {
            index: (*index).min(MOST),
            coordinates: whole(coordinates),
        },
        Call::Arrival {
            index,
            weight,
            start,
            words,
        } => Row::Arrival {
            index: (*index).min(MOST),
            weight: *weight,
            start: *start,
            words: words.iter().copied().take(MOST_WORDS).collect(),
        },
        Call::Report { coordinates, .. } => Row::Report {
            coordinates: whole(coordinates),
        },
        _ => return None,
    })
}

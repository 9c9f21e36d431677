//! Recorded cut choices of `Cut::random_cut_and_separation`.
use crate::record::Record;
use oracle::{cut_choice, feed, Choice, Words};
use runs::aimed::{self, Aim};

pub const KIND: u32 = 0;
const RECORDS: usize = 6000;
const SEED: u64 = 0x0123_4567_89AB_CDEF;
/// A record has room for this many channels.
const WIDTH: usize = 32;
/// Those drawn first have no more.
const FEW: usize = 8;
/// The largest coordinate; the least is minus this.
const EDGE: i32 = 1 << 20;

/// A cut choice to record: box, point and word. Coordinates are whole.
struct Case {
    low: Vec<i32>,
    high: Vec<i32>,
    point: Vec<i32>,
    word: u64,
}

/// Where coordinates are drawn from.
#[derive(Clone, Copy)]
enum Span {
    Full,
    Edges,
    ZeroOne,
    Small,
}

/// How the box is made.
#[derive(Clone, Copy)]
enum Around {
    OnePoint,
    FewPoints,
    ManyPoints,
    /// A box of some points with some sides zero.
    SomeSidesZero,
}

/// Where the point lies.
#[derive(Clone, Copy)]
enum Place {
    Anywhere,
    Inside,
    OnFaces,
    OutsideOnce,
    OutsideOften,
    OutsideAll,
}

/// How the word is made.
#[derive(Clone, Copy)]
enum Kind {
    Zeros,
    Ones,
    OneBit,
    Any,
    TopBits,
    /// Bits that the shift by 11 drops.
    LowBits,
    Aimed(Aim),
}

pub fn records() -> Vec<Record> {
    let mut words = Words::new(SEED);
    let mut cases = examples();
    for n in cases.len()..RECORDS {
        cases.push(random_case(1 + n % FEW, n / FEW, &mut words));
    }
    let records = cases.iter().map(record).collect();
    assert!(
        feed::seed17_draws() == 0,
        "the branch seeded with 17 was reached"
    );
    records
}

/// The cut choices that document 01 names, boxes that hold their point, and words at which a
/// rounding shows.
fn examples() -> Vec<Case> {
    let leaf = |a: &[i32], p: &[i32], word| Case {
        low: a.to_vec(),
        high: a.to_vec(),
        point: p.to_vec(),
        word,
    };
    vec![
        leaf(&[0], &[8], 0),
        leaf(&[0], &[8], 1 << 63),
        leaf(&[0], &[8], u64::MAX),
        leaf(&[0, 0], &[2, 6], 1 << 62),
        leaf(&[0, 0], &[2, 6], 1 << 63),
        leaf(&[3], &[3], 1 << 63),
        Case {
            low: vec![0],
            high: vec![8],
            point: vec![4],
            word: 1 << 63,
        },
        leaf(&[0], &[3], 0xAAAA_AB55_5555_5800),
        leaf(&[0], &[5], 0x6666_6799_9999_9800),
        leaf(&[-EDGE], &[EDGE], 0x8000_0080_0000_0000),
        leaf(&[-EDGE], &[EDGE], 0x8000_0180_0000_0000),
    ]
}

/// So many records with more than 8 channels, each number of them in turn.
pub fn of_many_channels(records: usize, words: &mut Words) -> Vec<Record> {
    let many = WIDTH - FEW;
    let case = |n: usize| random_case(FEW + 1 + n % many, n / many, words);
    (0..records).map(case).map(|case| record(&case)).collect()
}

/// A case of so many channels: its span goes round with n, the rest is drawn.
fn random_case(channels: usize, n: usize, words: &mut Words) -> Case {
    let span = [Span::Full, Span::Edges, Span::ZeroOne, Span::Small][n % 4];
    let (low, high) = random_box(channels, span, words);
    let point = random_point(&low, &high, span, words);
    let mut case = Case {
        low,
        high,
        point,
        word: 0,
    };
    case.word = random_word(&case, words);
    case
}

fn coordinate(span: Span, words: &mut Words) -> i32 {
    match span {
        Span::Full => words.between(-EDGE, EDGE),
        Span::Edges => words.one_of(&[-EDGE, 1 - EDGE, -1, 0, 1, EDGE - 1, EDGE]),
        Span::ZeroOne => words.between(0, 1),
        Span::Small => words.between(-4, 4),
    }
}

fn random_box(channels: usize, span: Span, words: &mut Words) -> (Vec<i32>, Vec<i32>) {
    use Around::*;
    let around = words.one_of(&[OnePoint, FewPoints, FewPoints, ManyPoints, SomeSidesZero]);
    let points = match around {
        OnePoint => 1,
        FewPoints | SomeSidesZero => words.between(2, 3),
        ManyPoints => words.between(4, 12),
    };
    let mut low: Vec<i32> = (0..channels).map(|_| coordinate(span, words)).collect();
    let mut high = low.clone();
    for i in 0..channels {
        let flat = matches!(around, SomeSidesZero) && words.once_in(2);
        for _ in 1..points {
            let x = coordinate(span, words);
            if !flat {
                low[i] = low[i].min(x);
                high[i] = high[i].max(x);
            }
        }
    }
    (low, high)
}

fn random_point(low: &[i32], high: &[i32], span: Span, words: &mut Words) -> Vec<i32> {
    use Place::*;
    let place = words.one_of(&[
        Anywhere,
        Anywhere,
        Anywhere,
        Inside,
        OnFaces,
        OutsideOnce,
        OutsideOnce,
        OutsideOnce,
        OutsideOften,
        OutsideOften,
        OutsideAll,
    ]);
    let chosen = words.below(low.len());
    (0..low.len())
        .map(|i| match place {
            Anywhere => coordinate(span, words),
            Inside => words.between(low[i], high[i]),
            OnFaces => words.one_of(&[low[i], high[i]]),
            OutsideOnce if i != chosen => words.one_of(&[low[i], high[i]]),
            OutsideOften if words.once_in(2) => words.between(low[i], high[i]),
            OutsideOnce | OutsideOften | OutsideAll => outside(low[i], high[i], words),
        })
        .collect()
}

/// A coordinate below or above the side, or its end where there is no room.
fn outside(low: i32, high: i32, words: &mut Words) -> i32 {
    let above = high < EDGE && (low == -EDGE || words.once_in(2));
    let room = if above { EDGE - high } else { low + EDGE };
    if room == 0 {
        return low;
    }
    let far = words.between(1, room);
    let away = words.one_of(&[1, 2, 3, room, far, far]).min(room);
    if above {
        high + away
    } else {
        low - away
    }
}

fn random_word(case: &Case, words: &mut Words) -> u64 {
    use Kind::*;
    let kind = words.one_of(&[
        Zeros,
        Ones,
        OneBit,
        Any,
        Any,
        Any,
        TopBits,
        LowBits,
        Aimed(Aim::NarrowingTie),
        Aimed(Aim::NarrowingTie),
        Aimed(Aim::AddingTie),
        Aimed(Aim::AddingTie),
        Aimed(Aim::SideEnd),
        Aimed(Aim::UpperEnd),
    ]);
    let any = words.word();
    match kind {
        Zeros => 0,
        Ones => u64::MAX,
        OneBit => 1 << words.below(64),
        Any => any,
        TopBits => aimed::top_bits(words),
        LowBits => any % 0x1800,
        Aimed(aim) => {
            let place = aimed::Place {
                low: &case.low,
                high: &case.high,
                point: &case.point,
            };
            aimed::word(&place, aim, words).unwrap_or(any)
        }
    }
}

fn as_f32(whole: &[i32]) -> Vec<f32> {
    whole.iter().map(|&x| x as f32).collect()
}

/// Lower ends, upper ends, point and word are given; the cut is written once for each of the port's
/// two ways to draw it.
fn record(case: &Case) -> Record {
    let (low, high, point) = (as_f32(&case.low), as_f32(&case.high), as_f32(&case.point));
    let numbers = match cut_choice(&low, &high, &point, case.word) {
        Choice::NoCut => [0, 0, 0],
        Choice::Cut {
            dimension,
            value,
            parts,
        } => [1 + u32::from(parts), dimension as u32, value.to_bits()],
    };
    let mut given = Vec::new();
    for values in [low, high, point] {
        for i in 0..WIDTH {
            let x = values.get(i).copied().unwrap_or(0.0);
            given.extend_from_slice(&x.to_le_bytes());
        }
    }
    given.extend_from_slice(&case.word.to_le_bytes());
    let cut = numbers.map(u32::to_le_bytes).concat();
    Record::new(KIND, given, cut.repeat(2))
}

/// How many records have no cut, a cut that does not part, and one that parts.
pub fn counted(records: &[Record]) -> [usize; 3] {
    [0, 1, 2].map(|n| records.iter().filter(|r| r.written[0] == n).count())
}

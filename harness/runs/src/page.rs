//! The worked runs of docs/LAYOUT.md, read out of the page itself: their bytes and answers, row by row,
//! and what the page says is returned.
use crate::digits;
use crate::expected::Outcome;

const PAGE: &str = concat!(env!("CARGO_MANIFEST_DIR"), "/../../docs/LAYOUT.md");
/// The heading of a section with a worked run ends so.
const HEADING: &str = "byte by byte";

/// A call of `sicklephlox_run`, and what the page says comes of it.
pub struct Shown {
    pub run: Vec<u8>,
    pub lent: usize,
    pub outcome: Outcome,
}

/// The calls that the page shows; an error if it has no worked run.
pub fn shown() -> Result<Vec<Shown>, String> {
    let page = std::fs::read_to_string(PAGE).map_err(|e| format!("{PAGE}: {e}"))?;
    read(&page).map_err(|why| format!("docs/LAYOUT.md: {why}"))
}

/// The same of a page at hand. At least one section must have a worked run, and at least one of these must
/// tell how it is refused.
pub fn read(page: &str) -> Result<Vec<Shown>, String> {
    let mut all = Vec::new();
    let mut refusals = 0;
    for section in page.split("\n## ").skip(1) {
        let heading = section.lines().next().unwrap_or_default();
        if heading.ends_with(HEADING) {
            let read = worked_run(section).map_err(|why| format!("'{heading}': {why}"))?;
            let refused = |shown: &&Shown| matches!(shown.outcome, Outcome::Refused(_));
            refusals += read.iter().filter(refused).count();
            all.extend(read);
        }
    }
    match (all.is_empty(), refusals) {
        (true, _) => Err("no worked run".into()),
        (_, 0) => Err(format!("no worked run says: {TOO_FEW_OR_CUT}")),
        _ => Ok(all),
    }
}

/// The calls that a section shows. Each row of the run is a call and each row of the answers its answer,
/// so the rows up to each one are a run too.
fn worked_run(section: &str) -> Result<Vec<Shown>, String> {
    let tables = tables(section);
    let [run, answers] = &tables[..] else {
        return Err(format!("{} tables, not 2", tables.len()));
    };
    let (run, answers) = (rows(run)?, rows(answers)?);
    if run.is_empty() || run.len() != answers.len() {
        return Err(format!("{} calls, {} answers", run.len(), answers.len()));
    }
    let answered = |rows: usize| Shown {
        run: run[..rows].concat(),
        lent: answers[..rows].concat().len(),
        outcome: Outcome::Answered(answers[..rows].concat()),
    };
    let words: Vec<&str> = section.split_whitespace().collect();
    let prose = words.join(" ");
    let (bytes, answer_bytes) = (run.concat(), answers.concat().len());
    check_lengths(&prose, bytes.len(), answer_bytes)?;
    let refused = refused(&prose, &bytes, answer_bytes)?;
    Ok((1..=run.len()).map(answered).chain(refused).collect())
}

/// The lengths that the section names must be those of its tables.
fn check_lengths(prose: &str, run_bytes: usize, answer_bytes: usize) -> Result<(), String> {
    let (before, _) = prose
        .split_once(" bytes: |")
        .ok_or("no number of bytes before the run")?;
    let named = before.rsplit(' ').next().and_then(|n| n.parse().ok());
    let [returned] = numbers(prose, "It returns #, and writes:")?;
    match (named, returned) == (Some(run_bytes), answer_bytes) {
        true => Ok(()),
        false => Err(format!(
            "{named:?} bytes and {returned} returned are named, the tables have {run_bytes} and \
             {answer_bytes}"
        )),
    }
}

const TOO_FEW_OR_CUT: &str =
    "With # answer bytes lent it returns #; with the last number of the run left out, #.";

/// The whole run lent too little, and cut short, if the section tells of it.
fn refused(prose: &str, run: &[u8], answer_bytes: usize) -> Result<Vec<Shown>, String> {
    if !prose.contains("answer bytes lent it returns") {
        return Ok(vec![]);
    }
    let [lent, too_few, cut_short] = numbers(prose, TOO_FEW_OR_CUT)?;
    Ok(vec![
        Shown {
            run: run.to_vec(),
            lent,
            outcome: Outcome::Refused(too_few as u32),
        },
        Shown {
            run: run[..run.len() - 4].to_vec(),
            lent: answer_bytes,
            outcome: Outcome::Refused(cut_short as u32),
        },
    ])
}

/// The numbers that the prose has where the sentence has `#`.
fn numbers<const N: usize>(prose: &str, sentence: &str) -> Result<[usize; N], String> {
    let missing = || format!("it does not say: {sentence}");
    let (before, parts) = sentence.split_once('#').ok_or_else(missing)?;
    let (_, mut rest) = prose.split_once(before).ok_or_else(missing)?;
    let mut found = Vec::new();
    for part in parts.split('#') {
        let (number, after) = rest.split_once(part).ok_or_else(missing)?;
        found.push(number.parse().map_err(|_| missing())?);
        rest = after;
    }
    found.try_into().map_err(|_| missing())
}

/// The lines of each table below its heading.
fn tables(section: &str) -> Vec<Vec<&str>> {
    let lines: Vec<&str> = section.lines().collect();
    let tables = lines.split(|line| !line.starts_with('|'));
    let tables = tables.filter(|table| !table.is_empty());
    tables
        .map(|table| table.iter().skip(2).copied().collect())
        .collect()
}

/// The bytes of each row. Its first column must say at which byte it begins. The numbers may stand in
/// several pieces with `<br>` between them.
fn rows(table: &[&str]) -> Result<Vec<Vec<u8>>, String> {
    let mut place = 0;
    let mut rows = Vec::new();
    for line in table {
        let cells: Vec<&str> = line.split('|').map(str::trim).collect();
        let ["", byte, numbers, _, ""] = cells[..] else {
            return Err(format!("not a row of three columns: {line}"));
        };
        if byte.parse() != Ok(place) {
            return Err(format!("byte {place} is to come: {line}"));
        }
        let row = digits::bytes(&numbers.replace("<br>", "").replace('`', ""))?;
        place += row.len();
        rows.push(row);
    }
    Ok(rows)
}

//! `lukaripe share`: how much of the sizes at some counts is padding, as a table and bars.

use super::library::{PaddingShare, Refusal, Refused, Trailing};
use super::member::refused;
use super::types::run_of;
use super::Word;
use crate::bar::{share_bar, SHARE_LEGEND};
use crate::columns::Columns;
use crate::table::Table;
use crate::words::{above, number, quoted, unknown, Given, NoNumber, Words};
use crate::{files, print, End, Result};

/// As many counts are listed.
const LISTED: usize = 20;

pub fn run(mut words: Words) -> Result<()> {
    let (mut others, mut file, mut columns) = (Vec::new(), None, Columns::default());
    while let Some(word) = words.next()? {
        match word {
            Given::Other(word) => others.push(word),
            Given::Option(option) => match option.as_str() {
                "--counts" => file = Some(words.file(&option)?),
                "--columns" => columns = Columns::read(&mut words, &option)?,
                _ => return Err(unknown(&option)),
            },
        }
    }
    let Some((word, counts)) = others.split_first() else {
        return Err(End::Wrong("a TYPE is missing; see --help".into()));
    };
    if file.is_some() != counts.is_empty() {
        let why = if counts.is_empty() { "a COUNT is missing" } else { "counts are words or --counts FILE, not both" };
        return Err(End::Wrong(format!("{why}; see --help")));
    }
    let run = run_of(word, "share")?;
    let counts: Vec<Word> = match file {
        Some(file) => of_file(&file)?,
        None => counts.iter().map(|word| of_word(word)).collect::<Result<_>>()?,
    };
    let whole = run.padding_of_counts(&counts).map_err(|why| no(run, &counts, why))?;
    print(&text(run, &counts, whole, columns))
}

fn of_word(word: &str) -> Result<Word> {
    number(word).map_err(|why| match why {
        NoNumber::Digits => End::Wrong(no_count(word, why) + "; see --help"),
        NoNumber::Range => End::Wrong(no_count(word, why)),
    })
}

/// The counts of a file, one on a line; a line may be empty.
fn of_file(file: &str) -> Result<Vec<Word>> {
    let bytes = files::read(file)?;
    let text = String::from_utf8_lossy(&bytes);
    let lines = text.lines().map(str::trim).enumerate().filter(|(_, line)| !line.is_empty());
    let place = |at: usize| format!("line {} of {}", at + 1, files::called(file));
    let counts = lines
        .map(|(at, line)| number(line).map_err(|why| End::Fail(format!("{}: {}", place(at), no_count(line, why)))));
    counts.collect()
}

fn no_count(word: &str, why: NoNumber) -> String {
    match why {
        NoNumber::Digits => format!("{} is no count: a number is decimal digits alone", quoted(word)),
        NoNumber::Range => format!("a count is out of range: {}", above::<Word>(word)),
    }
}

/// The line of a refusal, with the index and the count at fault.
fn no(run: Trailing, counts: &[Word], why: Refused) -> End {
    let count = usize::try_from(why.place).ok().and_then(|place| counts.get(place).copied());
    let what = match count {
        Some(count) => format!("count {count} at index {}", why.place),
        None => "the list of counts".to_string(),
    };
    let most = count.filter(|_| why.refusal == Refusal::NoSize).and_then(|count| run.size_for_elems(count).err());
    let most = most.and_then(|none| none.greatest).map(|most| format!(": the greatest that has one is {most}"));
    End::Fail(refused(&what, why.refusal) + &most.unwrap_or_default())
}

fn text(run: Trailing, counts: &[Word], whole: PaddingShare, columns: Columns) -> String {
    let listed = &counts[..counts.len().min(LISTED)];
    let mut rows: Vec<Vec<String>> = listed.iter().enumerate().map(|(index, count)| row(run, index, *count)).collect();
    rows.push(["all", "", "", ""].map(str::to_string).to_vec());
    let shares = listed.iter().map(|count| run.padding_of_counts(&[*count]).ok()).chain([Some(whole)]);
    // The bars have what the numbers leave of the line.
    let bare = Table { heads: NUMBERS, rows };
    let used: usize = bare.widths().iter().map(|width| width + 2).sum();
    let cells = columns.0.saturating_sub(used).max(LEAST_CELLS);
    let rows = bare.rows.into_iter().zip(shares).map(|(mut row, share)| {
        row.push(share.map_or_else(String::new, |share| bar(share, cells)));
        row
    });
    let table = Table { heads: WITH_BAR, rows: rows.collect() }.text();
    let more = match counts.len() - listed.len() {
        0 => String::new(),
        more => format!("{more} more counts are not listed\n"),
    };
    format!("{table}{more}{SHARE_LEGEND}\n\n{}", summary(counts, whole))
}

const NUMBERS: &[(&str, bool)] = &[("index", false), ("count", false), ("size", false), ("padding", false)];
const WITH_BAR: &[(&str, bool)] =
    &[("index", false), ("count", false), ("size", false), ("padding", false), ("of the size", true)];

/// The fewest letters of a bar, where the numbers leave less.
const LEAST_CELLS: usize = 10;

fn row(run: Trailing, index: usize, count: Word) -> Vec<String> {
    let share = run.padding_of_counts(&[count]);
    let padding = share.map_or_else(|_| "-".to_string(), |share| share.greatest.to_string());
    let size = run.size_for_elems(count).map_or_else(|_| "-".to_string(), |size| size.to_string());
    vec![index.to_string(), count.to_string(), size, padding]
}

/// The bar of a share. Of no bytes there is none.
fn bar(share: PaddingShare, cells: usize) -> String {
    match share.mean.numerator {
        0 => String::new(),
        _ => share_bar(share.padding, cells),
    }
}

fn summary(counts: &[Word], whole: PaddingShare) -> String {
    let PaddingShare { padding, mean, greatest, index } = whole;
    let mean = match mean.denominator {
        1 => mean.numerator.to_string(),
        _ => format!("{mean}, about {:.2}", mean.as_f64()),
    };
    let percent = 100.0 * padding.as_f64();
    let at = counts.get(index).map(|count| format!(", first at index {index}, count {count}")).unwrap_or_default();
    format!(
        "padding: {padding} of the total size, {percent:.2} %\nmean size: {mean}\ngreatest padding: {greatest}{at}\n"
    )
}

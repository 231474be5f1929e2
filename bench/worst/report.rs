//! The table, and what must hold of it.
use super::clock::{Clock, Row, Size};

const HEADER: &str = include_str!("../../bindings/c/basinpantry.h");

/// Entries by the start of their names, a part of an input's name, and a sentence of the header: as long as it stands there, what it bounds may grow with the
/// count.
const EXCEPTIONS: &[(&[&str], &str, Growth, &str)] = &[
    (
        &["hold_for_watchtower", "release_for_watchtower"],
        "all held, in the reverse order, made to share a slot",
        Growth::Any,
        "This call and the next look at up to 256 records for each cell whose out point was made to share a slot with theirs.",
    ),
    (
        &["unavailable", "take"],
        "64 free picks, many spent",
        Growth::Any,
        "Up to 64 picks, and here those beyond the first 7,394, are looked up one by one in the records, in `spent` and among the picks before them.",
    ),
    (&["update_for_peer"], MET, Growth::ToOriginal, "Cell deps in another order that were made to meet in the library's digest are sorted: n log n comparisons."),
    (&["exclusions_"], "", Growth::ToOriginal, "Excluded cells (LiveCellsExclusionMap): at most 64 entries with at most 512 out points in all."),
];

/// A part of the names of the inputs whose cell deps meet, and how many times the original's time and that of deps which do not meet these take, at most and at
/// least: where they no longer take longer, they no longer meet.
const MET: &str = "made to meet";
const MET_MOST: f64 = 6.0;
const MET_LEAST: f64 = 1.5;

/// How many times an honest input's a call of the watchtower's takes at most, whatever cells it is lent.
const TOWER_MOST: f64 = 4.0;

/// What may grow: the factor to the original's time, or that and all else.
#[derive(PartialEq)]
enum Growth {
    ToOriginal,
    Any,
}

/// What a clock may be off by, where factors are compared.
const NOISE: f64 = 1.25;

fn microseconds(clock: &Clock) -> String {
    format!("{:.3}", clock.best * 1e6)
}
fn shown(figure: Option<f64>) -> String {
    figure.map_or("-".into(), |figure| format!("{figure:.2}"))
}

// ---- tables

fn print_line(name: &str, columns: [&str; 9]) {
    let [bytes, honest, worst, original, to_honest, to_original, from, to, honest_to] = columns;
    println!("  {name:<64}{bytes:>8}{honest:>10}{worst:>12}{original:>10}{to_honest:>9}{to_original:>8}{from:>7}{to:>6}{honest_to:>7}");
}

fn print_row(row: &Row) {
    let size = row.largest();
    let (worst, honest) = (row.growth(|size| size.worst.best), row.growth(|size| size.honest.best));
    let figures = [
        size.bytes.to_string(),
        microseconds(&size.honest),
        microseconds(&size.worst),
        size.original.as_ref().map_or("-".into(), microseconds),
        shown(Some(size.to_honest())),
        shown(size.to_original()),
        shown(worst.first().copied()),
        shown(worst.get(1).copied()),
        shown(honest.last().copied()),
    ];
    print_line(&row.input, figures.each_ref().map(String::as_str));
}

/// A line for each input, under its entry.
pub fn print(rows: &[Row]) {
    print_line("microseconds at the largest size", ["bytes", "honest", "worst", "original", "w/honest", "w/orig.", "grows", "", "honest"]);
    for (i, row) in rows.iter().enumerate() {
        if i == 0 || rows[i - 1].entry != row.entry {
            println!("{}", row.entry);
        }
        print_row(row);
    }
    print_deps(rows);
}

/// Updates with as many cell deps as fit, beside C's own way and beside the original without its reading.
fn print_deps(rows: &[Row]) {
    println!("update_for_peer, {:<49}{:>10}{:>10}{:>10}{:>9}{:>9}", "microseconds at the largest size", "worst", "C", "parsed", "w/C", "w/parsed");
    for row in rows {
        let size = row.largest();
        if let Some(deps) = &size.deps {
            let [worst, c, parsed] = [&size.worst, &deps.sorted, &deps.parsed].map(microseconds);
            println!("  {:<64}{worst:>10}{c:>10}{parsed:>10}{:>9.2}{:>9.2}", row.input, size.to(&deps.sorted), size.to(&deps.parsed));
        }
    }
}

// ---- assertions

/// What a factor of n log n over n grows by from a size on, for a doubling, with some noise.
fn logarithm(from: &Size) -> f64 {
    let bits = (from.bytes.max(1_024) as f64).log2();
    NOISE * (bits + 1.0) / bits
}

/// Whether the header still says what an exception rests on.
fn stands(sentence: &str) -> bool {
    let words = |text: &str| text.split_whitespace().collect::<Vec<_>>().join(" ");
    words(HEADER).contains(sentence)
}
fn may_grow(row: &Row, what: Growth) -> bool {
    let of = |entries: &[&str]| entries.iter().any(|entry| row.entry.starts_with(entry));
    let of = |entries: &[&str], part: &str| of(entries) && row.input.contains(part);
    EXCEPTIONS.iter().any(|(entries, part, growth, sentence)| of(entries, part) && (*growth == Growth::Any || *growth == what) && stands(sentence))
}

/// In words, a figure, and the most that it may be.
type Assertion = (String, f64, f64);

/// From the last but one size to the last: the time by n log n, and no factor faster than a logarithm.
fn growth(row: &Row) -> Vec<Assertion> {
    let [.., before, _] = &row.sizes[..] else { return vec![] };
    let grows = |what: &str, most: f64, figure: &dyn Fn(&Size) -> f64| {
        let last = *row.growth(figure).last().expect("two sizes");
        (format!("for a doubling {what} grows by"), last, most * logarithm(before))
    };
    let mut all = vec![];
    if !may_grow(row, Growth::Any) {
        all.push(grows("the time", 2.0, &|size| size.worst.best));
        all.push(grows("worst/honest", 1.0, &Size::to_honest));
    }
    if before.original.is_some() && !may_grow(row, Growth::ToOriginal) {
        all.push(grows("worst/original", 1.0, &|size| size.to_original().expect("the original at every size")));
    }
    all
}

fn assertions(row: &Row) -> Vec<Assertion> {
    let (size, mut all) = (row.largest(), growth(row));
    if row.sizes.len() == 1 {
        all.push(("worst/honest is".into(), size.to_honest(), 2.0));
    }
    if row.entry.ends_with("watchtower") && row.sizes.len() > 1 && !row.input.contains("made to share a slot") {
        all.push(("worst/honest is".into(), size.to_honest(), TOWER_MOST));
    }
    if let Some(deps) = &size.deps {
        all.push(("by C's qsort and bsearch over the same deps it is".into(), size.to(&deps.sorted), 2.0));
        let most = if row.input.contains(MET) { MET_MOST } else { 1.0 };
        all.push(("by the original from parsed transactions it is".into(), size.to(&deps.parsed), most));
    }
    all
}

/// Whether an assertion fails, and so little that it may be the clocks that are wrong.
pub fn fails_closely(row: &Row) -> bool {
    let all = assertions(row);
    all.iter().any(|(_, figure, most)| figure > most) && all.iter().all(|(_, figure, most)| *figure < 1.5 * most)
}

/// That deps which were made to meet still do: beside the same order of others they take longer.
fn still_meet(rows: &[Row], row: &Row) -> Option<Assertion> {
    let plain = rows.iter().find(|plain| plain.input == row.input.replace("made to meet, ", ""))?;
    let times = row.largest().worst.best / plain.largest().worst.best;
    row.input.contains(MET).then(|| ("deps that do not meet, in their time, are".into(), 1.0 / times, 1.0 / MET_LEAST))
}

/// Prints the assertions that fail, and tells whether none does.
pub fn judge(rows: &[Row]) -> bool {
    let (mut all, mut failed) = (0, 0);
    for row in rows {
        for (what, figure, most) in assertions(row).into_iter().chain(still_meet(rows, row)) {
            all += 1;
            if figure > most {
                failed += 1;
                println!("FAILS: {}: {}: {what} {figure:.2}, more than {most:.2}", row.entry, row.input);
            }
        }
    }
    for (entries, part, _, sentence) in EXCEPTIONS.iter().filter(|(.., sentence)| stands(sentence)) {
        println!("excepted: {} {part}, since the header says: {sentence}", entries.join(", "));
    }
    println!("{all} assertions, {failed} failed");
    failed == 0
}

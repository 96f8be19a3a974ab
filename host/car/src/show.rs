//! Books and their parts in words and tables.

use consent::numbers::STAMP_PARTS;
use consent::{Answer, Book, Contents, Record, Stamp, Verdict};

/// The first parts of a stamp, as many as there are screens.
pub fn stamp(stamp: &Stamp, screens: usize) -> String {
    let parts: Vec<String> = stamp.0.iter().take(screens).map(u32::to_string).collect();
    format!("({})", parts.join(","))
}

/// The screens whose bits are set.
pub fn screens(bits: u8) -> String {
    let names: Vec<String> =
        (0..STAMP_PARTS).filter(|k| bits >> k & 1 == 1).map(|k| format!("screen {k}")).collect();
    names.join(" and ")
}

pub fn new_taps(count: u16) -> String {
    match count {
        1 => "1 new tap".to_string(),
        _ => format!("{count} new taps"),
    }
}

pub fn verdict(verdict: Verdict) -> &'static str {
    match verdict {
        Verdict::Unasked => "unasked",
        Verdict::Accepted => "accepted",
        Verdict::Declined => "declined",
        Verdict::Contested => "contested",
    }
}

/// A book: what it knows of each screen, its log, and the prompts that were answered.
pub fn book(book: &Book) -> String {
    let Some(contents) = book.contents() else {
        return "The book is damaged.\n".to_string();
    };
    let screens = usize::from(contents.screens);
    let mut text = format!(
        "Screen {} of {screens} knows {}, value stamp {}, counted taps {}\n",
        contents.screen,
        stamp(&contents.known(), screens),
        stamp(&contents.value, screens),
        contents.counted.len()
    );
    text += &table(&rows_table(&contents, screens));
    if !contents.log.is_empty() {
        text += &table(&log_table(&contents, screens));
    }
    if !contents.counted.is_empty() {
        text += &table(&prompts_table(&contents));
    }
    text
}

type Row = Vec<String>;

fn header(names: &[&str]) -> Row {
    names.iter().map(|name| name.to_string()).collect()
}

fn rows_table(contents: &Contents, screens: usize) -> Vec<Row> {
    let mut rows = vec![header(&["screen", "knows at least"])];
    let told = contents.table.iter().enumerate();
    rows.extend(told.map(|(screen, row)| vec![screen.to_string(), stamp(row, screens)]));
    rows
}

fn log_table(contents: &Contents, screens: usize) -> Vec<Row> {
    let names =
        ["log: from", "number", "label", "front end", "serial", "prompt", "showing", "answer", "state"];
    let mut rows = vec![header(&names)];
    rows.extend(contents.log.iter().map(|record| log_row(contents, record, screens)));
    rows
}

fn log_row(contents: &Contents, record: &Record, screens: usize) -> Row {
    let tap = &record.tap;
    vec![
        format!("screen {}", record.origin),
        record.number.to_string(),
        stamp(&record.label, screens),
        tap.front_end.to_string(),
        tap.serial.to_string(),
        tap.prompt.to_string(),
        tap.showing.to_string(),
        answer(tap.answer).to_string(),
        if contents.is_applied(record) { "applied" } else { "waits" }.to_string(),
    ]
}

fn prompts_table(contents: &Contents) -> Vec<Row> {
    let mut rows = vec![header(&["prompt", "showing", "accepts", "declines", "verdict"])];
    for (prompt, standing) in contents.prompts.iter().enumerate() {
        if standing.verdict != Verdict::Unasked {
            rows.push(vec![
                prompt.to_string(),
                standing.showing.to_string(),
                standing.accepts.to_string(),
                standing.declines.to_string(),
                verdict(standing.verdict).to_string(),
            ]);
        }
    }
    rows
}

fn answer(answer: Answer) -> &'static str {
    match answer {
        Answer::Accept => "accept",
        Answer::Decline => "decline",
    }
}

/// Rows of equal length with their columns under each other, moved in a little.
fn table(rows: &[Row]) -> String {
    let columns = rows[0].len();
    let width = |column: usize| rows.iter().map(|row| row[column].len()).max().unwrap_or(0);
    let widths: Vec<usize> = (0..columns).map(width).collect();
    let mut text = String::new();
    for row in rows {
        let cells: Vec<String> =
            row.iter().zip(&widths).map(|(cell, &width)| format!("{cell:width$}")).collect();
        text += &format!("  {}\n", cells.join("  ").trim_end());
    }
    text
}

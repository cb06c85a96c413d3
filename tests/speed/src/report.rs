//! The table as Markdown, and its place in a page.
use crate::measure::Row;
use std::process::Command;

const ARCHIVES: &str = "the archives as `rt lib` makes them";
const MARKS: [&str; 2] = ["<!-- measured -->\n", "<!-- end -->\n"];

pub fn table(date: &str, rows: &[Row]) -> String {
    let mut text = format!("{date}, {}, {ARCHIVES}.\n\n", processor());
    text += "| call or step | n | proved, µs | ordinary Rust, µs | ratio |\n|---|---|---|---|---|\n";
    for row in rows {
        let (proved, ordinary) = (row.proved, row.ordinary);
        text += &format!(
            "| {} | {} | {proved:.3} | {ordinary:.3} | {:.2} |\n",
            row.name,
            row.n,
            row.ratio()
        );
    }
    text
}

/// The page with the text between its two marks replaced.
pub fn put_between_marks(page: &str, text: &str) -> String {
    let start = page.find(MARKS[0]).expect("the first mark") + MARKS[0].len();
    let end = page.find(MARKS[1]).expect("the second mark");
    format!("{}{text}{}", &page[..start], &page[end..])
}

/// As the machine names it.
fn processor() -> String {
    let named = || {
        let listed = String::from_utf8(Command::new("lscpu").output().ok()?.stdout).ok()?;
        let line = listed.lines().find(|line| line.starts_with("Model name"))?;
        Some(line.split_once(':')?.1.trim().to_string())
    };
    named().unwrap_or_else(|| "a processor without a name".into())
}

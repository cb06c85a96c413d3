//! Times the proved calls and steps beside ordinary Rust, and writes the table into docs/BENCHMARKS.md and two plots into docs/pictures.
mod calls;
mod desk;
mod inner;
mod measure;
mod plots;
mod report;
mod steps;

use desk::Desk;
use std::fs;

const PAGE: &str = "docs/BENCHMARKS.md";

fn main() -> std::io::Result<()> {
    let date = std::env::args().nth(1).expect("the date of the run");
    let desks = [576, 1152].map(Desk::new);
    let rows: Vec<_> = desks
        .iter()
        .flat_map(|desk| calls::rows(desk).into_iter().chain(inner::rows(desk)))
        .collect();
    let table = report::table(&date, &rows);
    print!("{table}");
    let page = report::put_between_marks(&fs::read_to_string(PAGE)?, &table);
    fs::write(PAGE, page)?;
    fs::write("docs/pictures/time_by_n.svg", plots::time_by_n(&rows))?;
    fs::write("docs/pictures/sealing.svg", plots::sealing(&rows))
}

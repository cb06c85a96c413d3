//! Writes the handbook's pictures into the folder that is named.

mod fold;
mod lamp;
mod listing;
mod stages;

use std::path::Path;

fn main() -> std::io::Result<()> {
    let folder = std::env::args().nth(1).unwrap_or_else(|| String::from("docs/pictures"));
    let pictures = [
        ("fold.svg", fold::picture()),
        ("lamp.svg", lamp::picture()),
        ("listing.svg", listing::picture()),
        ("stages.svg", stages::picture()),
    ];
    std::fs::create_dir_all(&folder)?;
    for (name, picture) in pictures {
        std::fs::write(Path::new(&folder).join(name), picture)?;
    }
    Ok(())
}

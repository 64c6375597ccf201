//! Writes the stored tables and their listings into a folder: `cargo run --example listings -- FOLDER`.

use reference::listing::listing;
use reference::listings::tables;
use std::path::PathBuf;

fn main() -> std::io::Result<()> {
    let folder = PathBuf::from(std::env::args().nth(1).expect("a folder"));
    for (name, table) in tables() {
        std::fs::write(folder.join(name).with_extension("table"), &table)?;
        std::fs::write(folder.join(name).with_extension("text"), listing(&table))?;
    }
    Ok(())
}

//! Prints what the examples of the bindings must print: `example_text FOLDER`,
//! the folder of the example images.

use harness::example::line::parse_files;
use harness::example::{text, Images};
use std::fs;
use std::path::PathBuf;

fn main() -> std::io::Result<()> {
    let folder = PathBuf::from(std::env::args().nth(1).unwrap_or("examples".into()));
    let waits: Vec<u16> = fs::read_to_string(folder.join("stacking.waits"))?
        .split_whitespace()
        .map(|entry| entry.parse().expect("a number of 16 bits"))
        .collect();
    let files = parse_files(&fs::read_to_string(folder.join("line.files"))?);
    let image = |name| fs::read(folder.join(name));
    let images = Images {
        stacking: image("stacking.image")?,
        outside: image("outside.image")?,
        halted: image("halted.image")?,
        loader: image("loader.image")?,
        restart: image("restart.image")?,
        line: image("line.image")?,
    };
    print!("{}", text(&images, &waits, &files));
    Ok(())
}

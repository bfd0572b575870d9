//! Lists an image, or writes one of its files: `cargo run --example list games.adf [PATH]`. Paths are in the escape form: a name may have
//! bytes that a terminal would obey.

use std::error::Error;
use std::io::Write;

fn main() -> Result<(), Box<dyn Error>> {
    let words: Vec<String> = std::env::args().skip(1).collect();
    let image = std::fs::read(words.first().ok_or("use: list IMAGE [PATH]")?)?;
    let volume = adf::Volume::check(&image)?; // or an error: block 880: bad sum
    if let Some(path) = words.get(1) {
        let path = adf::unescape(path).ok_or("a path is written as it is listed")?;
        std::io::stdout().write_all(&volume.find_bytes(&path)?.read())?;
    } else {
        for entry in volume.entries() {
            println!("{:10} {}", entry.size(), adf::escape(&entry.path_bytes()));
        }
    }
    Ok(())
}

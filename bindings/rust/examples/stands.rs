//! Writes the files of what stands of an image: of each `PATH SIZE` in a line, with the path in the escape form, and its bytes.
//! Standard error gets a line for all that is left out or in doubt, and the status is then 1; it is 2 if nothing stands.

use std::io::Write;
use std::process::ExitCode;

fn main() -> Result<ExitCode, Box<dyn std::error::Error>> {
    let name = std::env::args_os().nth(1).ok_or("usage: stands IMAGE")?;
    let image = std::fs::read(name)?;
    let opened = match adf::open(&image) {
        Ok(opened) => opened,
        Err(refused) => {
            eprintln!("{refused}");
            return Ok(ExitCode::from(2));
        }
    };
    let mut output = std::io::stdout().lock();
    for entry in opened.volume.entries().filter(|entry| entry.is_file()) {
        let bytes = entry.read();
        writeln!(output, "{} {}", adf::escape(&entry.path_bytes()), bytes.len())?;
        output.write_all(&bytes)?;
    }
    for each in &opened.left_out {
        eprintln!("{each}");
    }
    Ok(ExitCode::from(u8::from(!opened.left_out.is_empty())))
}

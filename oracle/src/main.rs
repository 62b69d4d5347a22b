//! Reads a yard file on standard input and prints the verdict's line.
use std::io::Read;

fn main() -> std::io::Result<()> {
    let mut file = Vec::new();
    std::io::stdin().lock().read_to_end(&mut file)?;
    println!("{}", oracle::plain::check(&file));
    Ok(())
}

//! A moment by the pattern in the syntax of `strftime` that a file has, whose path is the argument.
use movaliren::{Description, Format, UtcMoment};
use std::error::Error;
use std::{env, fs};

fn main() -> Result<(), Box<dyn Error>> {
    let path = env::args().nth(1).ok_or("no path")?;
    let pattern = Description::parse_strftime(fs::read_to_string(path)?.trim_end())?;
    println!("{}", pattern.format(&UtcMoment::new(1_795_362_906, 0))?);
    Ok(())
}

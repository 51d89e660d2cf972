//! A value that a format refuses, and a text that is no description, are told.
use movaliren::{Description, Format, Moment, Rfc3339};

fn main() {
    if let Err(error) = Rfc3339.format(&Moment::new(10_000, 1, 1)) {
        println!("no text: {error}");
    }
    if let Err(error) = Description::parse_strftime("at %Q") {
        println!("no description: {error}");
    }
}

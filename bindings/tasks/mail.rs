//! The dates of mail on the standard input, as RFC 3339, or why they are none.
use movaliren::{Moment, Rfc2822, Rfc3339};
use std::io;

fn main() -> io::Result<()> {
    for date in io::stdin().lines() {
        match Rfc2822.read_lenient::<Moment>(date?) {
            Ok(moment) => println!("{}", moment.display(Rfc3339)),
            Err(error) => println!("no date: {error}"),
        }
    }
    Ok(())
}

//! A line of RFC 3339 for each number of a column of milliseconds since 1970.
use movaliren::{Error, Format, Rfc3339, UtcMoment};

const COLUMN: [i64; 4] = [0, 1_795_362_906_120, -1, 253_402_300_799_999];

fn main() -> Result<(), Error> {
    let mut buffer = [0; 35];
    for millisecond in COLUMN {
        let rest = millisecond.rem_euclid(1_000) as u32;
        let moment = UtcMoment::new(millisecond.div_euclid(1_000), rest * 1_000_000);
        println!("{}", Rfc3339.format_into(&mut buffer, &moment)?);
    }
    Ok(())
}

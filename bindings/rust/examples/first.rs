use movaliren::{Format, Moment, Rfc3339, UtcMoment};

fn main() {
    println!("{} started", UtcMoment::now().display(Rfc3339));
    match Rfc3339.format(&Moment::new(10_000, 1, 1)) {
        Ok(text) => println!("{text}"),
        Err(reason) => println!("no text: {reason}"),
    }
}

//! Adds a surge's envelope to a tide's, and reads off the strongest set of both together: what `examples/sum.c` does, with the same lines printed.

use nuoskelma::{Envelope, Refusal};

fn print(name: &str, envelope: &Envelope) {
    println!("{name} {}", envelope.len());
    envelope.corners().for_each(|(east, north)| println!("{east} {north}"));
}

/// The strongest set on the course four east to three north.
fn strongest(envelope: &Envelope) -> Result<i64, Refusal> {
    Ok(envelope.strongest(4, 3)?.set)
}

fn main() -> Result<(), Refusal> {
    let tide = Envelope::of(&[-42_000, -15_000, 3_000, 12_000, 38_000, 30_000], &[-30_000, -26_000, -1_000, 21_000, 27_000, 11_000])?;
    let surge = Envelope::of(&[2_000, 9_000, 7_000], &[0, -4_000, 6_000])?;
    let sum = tide.plus(&surge)?;
    print("tide", &tide);
    print("surge", &surge);
    print("sum", &sum);
    println!("strongest sets: tide {}, surge {}, sum {}", strongest(&tide)?, strongest(&surge)?, strongest(&sum)?);
    assert_eq!(strongest(&sum)?, strongest(&tide)? + strongest(&surge)?);

    // a corner of this sum is beyond the limit: there is none, and the two strongest sets can still be added
    let storm = Envelope::of(&[970_000], &[0])?;
    match tide.plus(&storm) {
        Err(Refusal { number: 19, place }) => println!("sum refused 19 {place}"),
        other => print("sum", &other?),
    }
    println!("strongest sets added: {}", strongest(&tide)? + strongest(&storm)?);
    Ok(())
}

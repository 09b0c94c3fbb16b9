use seambeacon::{place, Characteristic::Value, Placing::Placed, Record, Rules};
use std::io::Read;

fn main() -> std::io::Result<()> {
    let (rules, mut text, mut at) = (Rules::default(), Vec::new(), 0);
    std::io::stdin().read_to_end(&mut text)?;
    while let Ok(record @ Record { placing: Placed { next }, .. }) = place(rules, &text, at) {
        if let Ok(Value(fof2)) = record.characteristic(rules, &text, 1) {
            println!("{:.3}", fof2 as f64 / 1000.0);
        }
        at = next;
    }
    Ok(())
}

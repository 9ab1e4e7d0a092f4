//! Prints each record's concentration, or why it has none.
//!
//!     cargo run --release --example read_table [TABLE [FIELD]]
use gatherloom::Table;
use std::{env, error::Error, fs};

/// The incident's file: its numbers have commas.
const INCIDENT: &str = concat!(
    env!("CARGO_MANIFEST_DIR"),
    "/../crates/test_samples/data/shp_comma.dbf"
);

fn main() -> Result<(), Box<dyn Error>> {
    let mut words = env::args().skip(1);
    let path = words.next().unwrap_or(INCIDENT.to_string());
    let name = words.next().unwrap_or("CONC".to_string());
    let bytes = fs::read(path)?;
    let table = Table::new(&bytes)?;
    let field = table.field(&name).ok_or("no field has that name")?;
    for record in table.records() {
        print!("record {}", record.number());
        if record.deleted() == Ok(true) {
            print!(", deleted");
        }
        match record.decimal(field.number) {
            Ok(Some(value)) => println!(": {value}"),
            Ok(None) => println!(": empty"),
            Err(refusal) => println!(": refused, {refusal}"),
        }
    }
    Ok(())
}

//! Time per call of the proved library and of the plain implementation, on the same inputs, in one process; then on hostile inputs, against one pass
//! over what a call was lent.
//!
//!     cargo run --release --bin bench -- [WORDS]      only the cases whose call and input have the words in them
mod cases;
mod hostile;
mod inputs;
mod measure;

fn main() {
    let word = std::env::args().nth(1).unwrap_or_default();
    println!("| Call | Input | Library, ns | Plain Rust, ns | Ratio | Limit | |");
    println!("|---|---|---:|---:|---:|---:|---|");
    let over = cases::run(&word);
    println!();
    println!("| Call | Hostile input | Bytes lent | Library, ns | Plain Rust, ns | One pass, ns | Passes |");
    println!("|---|---|---:|---:|---:|---:|---:|");
    hostile::run(&word);
    if over > 0 {
        println!("\n{over} over the limit");
    }
}

//! Prints the model's drill sheet, from which crates/drill/stdout comes.

use bench::model::drill::sheet;

fn main() {
    print!("{}", sheet());
}

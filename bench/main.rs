//! Compares the library with a plain Rust implementation of the same calls, and measures both.
mod compare;
mod figures;
mod library;
mod measure;
mod plain;
mod random;

fn main() {
    let turns = std::env::args().nth(1).map_or(3000, |turns| turns.parse().expect("a number of turns"));
    let inlined = if cfg!(inlined) { "with" } else { "without" };
    println!("The plain side {inlined} forced inlining of its inner function.\n");
    compare::compare_all(5000);
    println!("\nBest of {turns} single calls each, the two sides in turn (report: a tenth of that).\n");
    measure::print_ratios(turns);
    if !cfg!(inlined) {
        println!("\nGrowth\n");
        measure::print_growth(turns);
    }
}

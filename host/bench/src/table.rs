//! The table that is printed.

use crate::ratio::{Ratios, REPEATS};

pub fn print_heading(with_instructions: bool) {
    let repeats = format!("ratio of {REPEATS} repeats");
    let (above, below) = match with_instructions {
        true => (
            "   instructions a telegram".to_string(),
            format!("   {:>8} {:>7} {:>6}", "proved", "indep.", "ratio"),
        ),
        false => Default::default(),
    };
    let above = format!("{:48} {:^25}  {repeats:^36}{above}", "", "median time");
    println!("{}", above.trim_end());
    println!(
        "{:48} {:>12} {:>12}  {:>6} {:>6} {:>6} {:>6} {:>8}{below}",
        "", "proved", "independent", "median", "least", "1/4", "3/4", "greatest"
    );
}

/// The instructions are the proved function's and the independent one's.
pub fn print_row(
    name: &str,
    what: &str,
    unit: &str,
    times: &Ratios,
    instructions: Option<[f64; 2]>,
) {
    let spread = times.spread();
    let counted = instructions.map_or_else(String::new, |[proved, independent]| {
        let ratio = proved / independent;
        format!("   {proved:>8.0} {independent:>7.0} {ratio:>6.2}")
    });
    println!(
        "{name:37} {what:>10} {:>9.1} {unit} {:>9.1} {unit}  {:>6.2} {:>6.2} {:>6.2} {:>6.2} {:>8.2}{counted}",
        times.proved(),
        times.independent(),
        spread.median,
        spread.least,
        spread.lower_quartile,
        spread.upper_quartile,
        spread.greatest
    );
}

//! Two times measured by turns, and how they compare.

/// One more than a multiple of four, so that the median and the quartiles are ratios that were measured.
pub const REPEATS: usize = 21;

#[derive(Default)]
pub struct Ratios {
    proved: Vec<f64>,
    independent: Vec<f64>,
}

impl Ratios {
    pub fn add(&mut self, proved: f64, independent: f64) {
        self.proved.push(proved);
        self.independent.push(independent);
    }

    pub fn proved(&self) -> f64 {
        Spread::of(self.proved.iter().copied()).median
    }

    pub fn independent(&self) -> f64 {
        Spread::of(self.independent.iter().copied()).median
    }

    /// How the ratios of single repeats are spread: what slows the machine down for a while slows both times of a repeat.
    pub fn spread(&self) -> Spread {
        let both = self.proved.iter().zip(&self.independent);
        Spread::of(both.map(|(proved, independent)| proved / independent))
    }
}

pub struct Spread {
    pub least: f64,
    pub lower_quartile: f64,
    pub median: f64,
    pub upper_quartile: f64,
    pub greatest: f64,
}

impl Spread {
    fn of(values: impl Iterator<Item = f64>) -> Self {
        let mut sorted: Vec<f64> = values.collect();
        sorted.sort_by(f64::total_cmp);
        let after_quarters = |quarters| sorted[(sorted.len() - 1) * quarters / 4];
        Spread {
            least: after_quarters(0),
            lower_quartile: after_quarters(1),
            median: after_quarters(2),
            upper_quartile: after_quarters(3),
            greatest: after_quarters(4),
        }
    }
}

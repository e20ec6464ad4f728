//! What the benchmark leaves: its rows as CSV, a table with a line for each call, a chart, and their places in
//! docs/BENCHMARK.md. The table and the chart are made of the CSV alone, so that they can be made anew without
//! measuring.

pub mod chart;
pub mod csv;
pub mod files;
pub mod machine;
pub mod page;
pub mod rows;
pub mod table;

/// The value that so many hundredths of these are below, between two of them where it falls there; 0 of none.
fn quantile(values: &[f64], hundredths: usize) -> f64 {
    let mut sorted = values.to_vec();
    sorted.sort_by(f64::total_cmp);
    let Some(last) = sorted.len().checked_sub(1) else {
        return 0.0;
    };
    let place = last as f64 * hundredths as f64 / 100.0;
    let (below, above) = (sorted[place as usize], sorted[place.ceil() as usize]);
    below + (above - below) * place.fract()
}

/// How wide the middle half of these is, as a share of their median; of a single value nothing can be said.
pub fn spread(ratios: &[f64]) -> Option<f64> {
    let wide = quantile(ratios, 75) - quantile(ratios, 25);
    (ratios.len() > 1).then(|| wide / quantile(ratios, 50))
}

#[cfg(test)]
mod tests {
    use super::{quantile, spread};

    #[test]
    fn quantiles_lie_between() {
        let values = [4.0, 1.0, 3.0, 2.0];
        let at = |hundredths| quantile(&values, hundredths);
        assert_eq!([at(0), at(25), at(50), at(100)], [1.0, 1.75, 2.5, 4.0]);
        assert_eq!(quantile(&[7.0], 75), 7.0);
        assert_eq!(quantile(&[], 50), 0.0);
    }

    #[test]
    fn the_middle_half_as_a_share_of_the_median() {
        assert_eq!(spread(&[1.0, 2.0, 3.0, 2.0, 2.0]), Some(0.0));
        assert_eq!(spread(&[1.0, 2.0, 3.0]), Some(0.5));
        assert_eq!(spread(&[1.0]), None);
    }
}

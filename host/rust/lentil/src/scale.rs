//! The offsets that a picture of files shows, and where they fall.

use lentilraft::Stretch;

/// A file in a picture.
pub struct Row {
    /// Its name, safe to look at.
    pub name: String,
    pub size: u64,
    pub limit: Option<u64>,
    /// The stretches that have chunks, in order.
    pub written: Vec<Stretch>,
}

impl Row {
    pub fn written_bytes(&self) -> u64 {
        self.written
            .iter()
            .map(|stretch| stretch.end - stretch.start)
            .sum()
    }
}

/// Where the axis ends: at the greatest size, or at the greatest limit that is not far above it.
/// Limits far above would leave no room to see the files.
pub fn axis_end(rows: &[Row]) -> u64 {
    let size = rows.iter().map(|row| row.size).max().unwrap_or(0);
    let near = size.saturating_mul(2);
    let limits = rows.iter().filter_map(|row| row.limit);
    let limit = limits.filter(|limit| *limit <= near).max().unwrap_or(0);
    size.max(limit).max(1)
}

/// Round offsets along the axis, 0 among them, and no more than so many steps.
pub fn ticks(end: u64, most: u64) -> Vec<u64> {
    let step = (end / most.max(1)).max(1).next_power_of_two();
    let step = if end / step > most.max(1) {
        step * 2
    } else {
        step
    };
    (0..=end / step).map(|count| count * step).collect()
}

#[cfg(test)]
mod tests {
    use super::*;

    fn row(size: u64, limit: Option<u64>, written: &[(u64, u64)]) -> Row {
        let written = written
            .iter()
            .map(|&(start, end)| Stretch { start, end })
            .collect();
        Row {
            name: String::new(),
            size,
            limit,
            written,
        }
    }

    #[test]
    fn ticks_are_multiples_of_powers_of_two() {
        assert_eq!(ticks(40000, 8), [0, 8192, 16384, 24576, 32768]);
        assert_eq!(ticks(8, 8), [0, 1, 2, 3, 4, 5, 6, 7, 8]);
        assert_eq!(ticks(9, 8), [0, 2, 4, 6, 8]);
        assert_eq!(ticks(1, 8), [0, 1]);
        assert_eq!(ticks(1 << 40, 4), [0, 1 << 38, 2 << 38, 3 << 38, 4 << 38]);
        for end in 1..2000 {
            assert!((2..=9).contains(&ticks(end, 8).len()), "{}", end);
        }
    }

    #[test]
    fn limits_far_above_are_left_out_of_the_axis() {
        assert_eq!(axis_end(&[row(100, Some(200), &[])]), 200);
        assert_eq!(axis_end(&[row(100, Some(201), &[])]), 100);
        assert_eq!(
            axis_end(&[row(100, Some(201), &[]), row(150, None, &[])]),
            201
        );
        assert_eq!(axis_end(&[row(0, Some(5), &[])]), 1);
        assert_eq!(axis_end(&[]), 1);
    }
}

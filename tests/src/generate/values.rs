//! Values of variables, which fit their widths or do not.

use crate::program::MOST_WIDTH;
use crate::random::Random;

/// A value for each width, small ones more often, since conditions ask for zero.
pub fn values(random: &mut Random, widths: &[u16]) -> Vec<u16> {
    widths.iter().map(|&width| value(random, width)).collect()
}

/// A value that fits. A width above the greatest is taken for the greatest.
pub fn value(random: &mut Random, width: u16) -> u16 {
    let most = ((1_u32 << width.min(MOST_WIDTH)) - 1) as u16;
    let any = match random.below(10) {
        0 | 1 => 0,
        2..=4 => 1,
        5 | 6 => random.between(2, 5) as u16,
        7 => most,
        _ => random.word(),
    };
    any & most
}

/// Makes one value too large for its width, if there is a width that some value is too large for.
pub fn widen(random: &mut Random, widths: &[u16], values: &mut [u16]) {
    let both = widths.len().min(values.len());
    let narrow: Vec<usize> = (0..both).filter(|&v| widths[v] < MOST_WIDTH).collect();
    if narrow.is_empty() {
        return;
    }
    let v = random.pick(&narrow);
    let least = 1 << widths[v];
    values[v] = match random.below(3) {
        0 => least,
        1 => 65535,
        _ => least | random.word(),
    };
}

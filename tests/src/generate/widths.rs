//! Widths of variables, right and wrong ones.

use crate::program::MOST_WIDTH;
use crate::random::Random;

/// Of some programs all variables have the greatest width, of the others each has its own.
pub fn widths(random: &mut Random, count: usize) -> Vec<u16> {
    if random.percent(30) {
        return vec![MOST_WIDTH; count];
    }
    (0..count).map(|_| width_from(random, 1)).collect()
}

/// At least so many bits. Few are drawn more often than many, since narrow variables lose more.
pub fn width_from(random: &mut Random, least: u16) -> u16 {
    let most = match random.below(3) {
        0 => least,
        1 => MOST_WIDTH.min(least + 4),
        _ => MOST_WIDTH,
    };
    random.between(least as usize, most as usize) as u16
}

/// Words to put in the place of a width: both sides of the bounds, and a random one.
pub fn other_widths(random: &mut Random, width: u16) -> Vec<u16> {
    let mut list = vec![
        0,
        1,
        MOST_WIDTH,
        MOST_WIDTH + 1,
        65535,
        width.wrapping_add(1),
        width.wrapping_sub(1),
        random.word(),
    ];
    list.retain(|&other| other != width);
    list
}

/// One change, which may leave the widths right.
pub fn damage_widths(random: &mut Random, widths: &mut Vec<u16>) {
    if widths.is_empty() || random.percent(50) {
        change_length(random, widths);
        return;
    }
    let at = random.below(widths.len());
    let others = other_widths(random, widths[at]);
    widths[at] = random.pick(&others);
}

/// Some widths more or, if there are any, fewer.
pub fn change_length(random: &mut Random, widths: &mut Vec<u16>) {
    let by = random.between(1, 3);
    if random.percent(50) {
        widths.truncate(widths.len().saturating_sub(by));
    } else {
        widths.extend((0..by).map(|_| random.between(0, 17) as u16));
    }
}

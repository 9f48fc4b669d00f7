//! Sheets and traces with something wrong.

use crate::draft::{Row, Sheet, Step};
use crate::random::Random;

/// Changes, cuts or extends the words of a sheet or trace.
pub fn words(random: &mut Random, words: &mut Vec<u16>) {
    match random.below(40) {
        // A length that is right only if it is counted in 16 bits.
        0 => words.resize(words.len() + (1 << 16), 0),
        1..5 => {
            let left = random.below(words.len() + 1);
            words.truncate(left);
        }
        5..10 => {
            // Too short for its sizes.
            let left = random.below(5);
            words.truncate(left);
        }
        10..15 => words.push(random.word()),
        15..20 => {
            words.pop();
        }
        20..25 => change_word(random, words, 4),
        _ => change_word(random, words, usize::MAX),
    }
}

/// Changes one of the first `among` words.
fn change_word(random: &mut Random, words: &mut [u16], among: usize) {
    if words.is_empty() {
        return;
    }
    let word = &mut words[random.below(words.len().min(among))];
    *word = match random.below(5) {
        0 => word.wrapping_add(1),
        1 => word.wrapping_sub(1),
        2 => random.word(),
        3 => random.pick(&[0, 255, 256, 257, 4000, 4001, 4096, 4097, u16::MAX]),
        _ => random.below(14) as u16,
    };
}

/// Damages rows or sizes; the length stays right, so that the questions behind
/// it are reached.
pub fn rows(random: &mut Random, sheet: &mut Sheet) {
    if random.chance(15) {
        change_word(random, &mut sheet.sizes, usize::MAX);
        return;
    }
    if sheet.rows.is_empty() {
        sheet.rows.push(random_row(random));
        return;
    }
    let row = random.below(sheet.rows.len());
    match random.below(8) {
        0 => sheet.rows.truncate(row),
        1 => {
            sheet.rows.remove(row);
        }
        2 => {
            let copy = sheet.rows[row];
            sheet.rows.insert(row, copy);
        }
        3 => {
            let new = random_row(random);
            sheet.rows.insert(row, new);
        }
        4 => {
            let new = random_row(random);
            sheet.rows.push(new);
        }
        5 => {
            let other = random.below(sheet.rows.len());
            sheet.rows.swap(row, other);
        }
        6 => {
            let mut value = [sheet.rows[row].1];
            change_word(random, &mut value, 1);
            sheet.rows[row].1 = value[0];
        }
        _ => {
            let mut tag = [sheet.rows[row].0];
            change_word(random, &mut tag, 1);
            sheet.rows[row].0 = tag[0];
        }
    }
}

fn random_row(random: &mut Random) -> Row {
    let tag = random.between(1, 12) as u16;
    let value = match tag {
        2 | 7 | 8 => 0,
        _ => random.below(6) as u16,
    };
    (tag, value)
}

/// Changes, removes, repeats or swaps steps.
pub fn steps(random: &mut Random, steps: &mut Vec<Step>) {
    if steps.is_empty() {
        steps.push((0, 0));
        return;
    }
    let step = random.below(steps.len());
    match random.below(6) {
        0 => {
            steps.remove(step);
        }
        1 => steps.insert(step, steps[step]),
        2 => {
            let other = random.below(steps.len());
            steps.swap(step, other);
        }
        3 => steps.truncate(step),
        4 => steps[step].0 = random.below(4) as u16,
        _ => steps[step].1 = random.pick(&[0, 1, 2, 3, 256, 257, 258]),
    }
}

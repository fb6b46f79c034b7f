// Practices by chance: questions on boards of which many have a hint, reports at its cell and elsewhere, and damage; the same seed and number give the
// same bytes.

use crate::board::numbered;
use crate::layout::Layout;
use crate::random::Random;
use crate::trainer::hint;

pub fn practice(seed: u64, number: u64) -> Vec<u8> {
    let random = &mut Random::new(seed, number);
    let mut bytes = Vec::new();
    for _ in 0..2 {
        bytes.extend(random.pick(&[0u16, 0, 1, 255, 65_533, 65_534, 65_535]).to_le_bytes());
    }
    let mut latest = [0, 0];
    for _ in 0..random.below(25) {
        if random.chance(45) {
            latest = question(random, &mut bytes).unwrap_or(latest);
        } else {
            report(random, &mut bytes, latest);
        }
    }
    if random.chance(20) {
        damage(random, &mut bytes);
    }
    bytes
}

/// The hint's cell, if there is one.
fn question(random: &mut Random, bytes: &mut Vec<u8>) -> Option<[u8; 2]> {
    let layout = if random.chance(92) { Layout::small(random) } else { Layout::large(random) };
    let (mut rows, mut columns) = (layout.settings.rows, layout.settings.columns);
    let mut shown = Vec::new();
    for &value in numbered(rows, columns, &layout.mines).iter().flatten() {
        shown.push(match random.below(20) {
            0 => random.pick(&[11, 14, 15, 17]),
            1..=6 => 10,
            _ if value < 0 => 11,
            _ => value as u8,
        });
    }
    if random.chance(8) {
        let cell = random.below(shown.len());
        shown[cell] = random.pick(&[9, 12, 13, 16, 18, 255]);
    }
    if random.chance(5) {
        shown.truncate(shown.len() - 1);
    }
    if random.chance(5) {
        shown.push(10);
    }
    if random.chance(5) {
        rows = random.pick(&[0, 64, 65, 255]);
    }
    if random.chance(5) {
        columns = random.pick(&[0, 64, 65, 255]);
    }
    bytes.extend([0, rows as u8, columns as u8]);
    bytes.extend((shown.len() as u16).to_le_bytes());
    bytes.extend(&shown);
    let (cell, _) = hint(rows, columns, &shown).ok()??;
    Some([cell.0 as u8, cell.1 as u8])
}

fn report(random: &mut Random, bytes: &mut Vec<u8>, latest: [u8; 2]) {
    let pointer = match random.below(10) {
        0..=5 => latest,
        6 => [latest[1], latest[0]],
        7 => [latest[0], random.byte()],
        _ => [random.byte() % 5, random.byte() % 5],
    };
    bytes.push(1);
    bytes.extend(pointer);
    bytes.extend(random.pick(&[0u16, 0, 1, 1, 1, 2, 9, 255, 256, 2_048, 65_535]).to_le_bytes());
}

/// The rest cut off, or a byte changed.
fn damage(random: &mut Random, bytes: &mut Vec<u8>) {
    let at = random.below(bytes.len());
    if random.chance(60) {
        bytes.truncate(at);
    } else {
        bytes[at] = random.byte();
    }
}

// Pictures by chance, many of them damaged; the same seed and number give the same bytes.

use crate::picture::SHOWN;
use crate::random::Random;

pub fn picture(seed: u64, number: u64) -> Vec<u8> {
    let random = &mut Random::new(seed, number);
    let mut bytes = written(random);
    if random.chance(35) {
        for _ in 0..random.between(1, 2) {
            damage(random, &mut bytes);
        }
    }
    bytes
}

fn written(random: &mut Random) -> Vec<u8> {
    let (width, height) = size(random);
    let maximum = if random.chance(93) { 17 } else { random.pick(&[0, 16, 18, 255, 273, 4_294_967_313]) };
    let mut bytes = b"P2".to_vec();
    for number in [width, height, maximum] {
        gap(random, &mut bytes, true);
        digits(random, &mut bytes, number);
    }
    let mut cells = (width.min(65) * height.min(65)).min(2_100);
    if random.chance(10) {
        cells = (cells + random.pick(&[0, 2])).saturating_sub(1);
    }
    for _ in 0..cells {
        let commented = random.below(400) == 0;
        gap(random, &mut bytes, commented);
        let value =
            if random.below(300) == 0 { random.pick(&[9, 12, 13, 16, 18, 100, 261]) } else { random.pick(&SHOWN) };
        digits(random, &mut bytes, value);
    }
    let end: &[u8] =
        if random.chance(70) { b"\n" } else { random.pick(&[&b""[..], b" \t\r\n", b" 5", b"#", b"\n#c", b"x"]) };
    bytes.extend(end);
    bytes
}

fn size(random: &mut Random) -> (u64, u64) {
    if random.chance(5) {
        return (random.pick(&[18_446_744_073_709_551_615, 4_294_967_299, 999]), 1);
    }
    let width = random.pick(&[0, 1, 1, 2, 3, 5, 9, 17, 64, 65]);
    (width, if width < 60 { random.pick(&[0, 1, 1, 2, 3, 4, 32, 33]) } else { random.pick(&[1, 2, 32, 33]) })
}

/// White space and, where it may stand, a comment.
fn gap(random: &mut Random, bytes: &mut Vec<u8>, commented: bool) {
    let spaces: [&[u8]; 7] = [b" ", b"\n", b"\t", b"\r\n", b"  ", b"\r", b" \n "];
    if !commented || random.chance(60) {
        bytes.extend(random.pick(&spaces));
        return;
    }
    if random.chance(50) {
        bytes.extend(random.pick(&spaces));
    }
    bytes.push(b'#');
    for _ in 0..random.below(4) {
        bytes.push(random.pick(b"abc#12 \t"));
    }
    bytes.push(random.pick(b"\n\r"));
    if random.chance(50) {
        bytes.extend(random.pick(&spaces));
    }
}

fn digits(random: &mut Random, bytes: &mut Vec<u8>, number: u64) {
    let zeros = random.pick(&["", "", "", "0", "000"]);
    bytes.extend(format!("{zeros}{number}").bytes());
}

/// A byte taken out, put in or changed, mostly near the front; or the rest cut off.
fn damage(random: &mut Random, bytes: &mut Vec<u8>) {
    let near = random.pick(&[6, 20, usize::MAX]).min(bytes.len());
    if near == 0 {
        return;
    }
    let at = random.below(near);
    match random.below(10) {
        0..=2 => {
            bytes.remove(at);
        }
        3..=5 => bytes.insert(at, random.pick(b"P2# \n\r\tx-+.0179\x0b\x0c")),
        6..=7 => bytes[at] = random.byte(),
        _ => bytes.truncate(at),
    }
}

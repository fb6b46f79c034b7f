// Many steps in one stream, packed as the head of `steps.rs` says.

use crate::position::{Lent, Position};
use crate::steps::{Call, Step};

/// A position's first numbers have one byte each, the others four; behind the event stand its last two, the rules in one byte and, after the call, the
/// safe cells not open in four.
const SHORT_NUMBERS: usize = 7;

/// Before the lengths, for numbers to come: written 0 and not read.
const RESERVED: usize = 12;

pub fn pack(out: &mut Vec<u8>, step: &Step) {
    let Lent { mines, shown, bits } = &step.lent;
    let [before @ .., rules, unopened] = step.position.numbers();
    for (place, number) in before.into_iter().enumerate() {
        put(out, number, if place < SHORT_NUMBERS { 1 } else { 4 });
    }
    out.extend(step.event);
    put(out, rules, 1);
    put(out, step.call.number(), 1);
    put(out, unopened, 4);
    out.extend([0; RESERVED]);
    for length in [mines.len(), shown.len(), bits.len(), step.work] {
        put(out, length, 2);
    }
    out.extend(mines.iter().map(|&cell| cell as u8));
    out.extend(shown);
    out.extend(bits);
}

fn put(out: &mut Vec<u8>, number: usize, bytes: usize) {
    let all = number.to_le_bytes();
    assert!(all[bytes..].iter().all(|&byte| byte == 0), "a drawn number fits its bytes");
    out.extend(&all[..bytes]);
}

/// The steps of a stream; Err if it breaks off within one, or if a state, a yes or a no of one is none.
pub fn unpack(stream: &[u8]) -> Result<Vec<Step>, String> {
    let mut rest = stream;
    let mut steps = Vec::new();
    while !rest.is_empty() {
        let step = first(&mut rest)
            .ok_or(format!("the packed steps break off in step {}, or it has a state that is none", steps.len() + 1))?;
        steps.push(step);
    }
    Ok(steps)
}

fn first(rest: &mut &[u8]) -> Option<Step> {
    let mut numbers = [0; 20];
    let [before @ .., rules, unopened] = &mut numbers;
    for (place, number) in before.iter_mut().enumerate() {
        *number = take(rest, if place < SHORT_NUMBERS { 1 } else { 4 })?;
    }
    let event = bytes(rest, 3)?.try_into().ok()?;
    *rules = take(rest, 1)?;
    let call = Call::of_number(take(rest, 1)?);
    *unopened = take(rest, 4)?;
    let position = Position::from_numbers(numbers)?;
    bytes(rest, RESERVED)?;
    let [mines, shown, bits, work] = [take(rest, 2)?, take(rest, 2)?, take(rest, 2)?, take(rest, 2)?];
    let mines = bytes(rest, mines)?.iter().map(|&byte| byte as i8).collect();
    let lent = Lent { mines, shown: bytes(rest, shown)?.to_vec(), bits: bytes(rest, bits)?.to_vec() };
    Some(Step { position, event, call, lent, work })
}

/// The next number, of so many bytes.
fn take(rest: &mut &[u8], count: usize) -> Option<usize> {
    Some(bytes(rest, count)?.iter().rev().fold(0, |number, &byte| 256 * number + usize::from(byte)))
}

fn bytes<'a>(rest: &mut &'a [u8], count: usize) -> Option<&'a [u8]> {
    let (part, after) = rest.split_at_checked(count)?;
    *rest = after;
    Some(part)
}

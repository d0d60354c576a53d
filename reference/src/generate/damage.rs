//! Damage to input bytes, as a bad line or a bad disk would do it.

use super::rng::Rng;

/// Damages `input` in one to four places.
pub fn damage(rng: &mut Rng, input: &mut Vec<u8>) {
    for _ in 0..rng.between(1, 4) {
        damage_once(rng, input);
    }
}

fn damage_once(rng: &mut Rng, input: &mut Vec<u8>) {
    if input.is_empty() {
        input.push(rng.byte());
        return;
    }
    let place = rng.below(input.len());
    match rng.below(12) {
        0 | 1 => input[place] ^= 1 << rng.below(8),
        2 => input[place] = rng.byte(),
        3 => input.truncate(place),
        4 => drop(input.remove(place)),
        5 => input.insert(place, *rng.pick(b"\n\r\0 =,\"+-")),
        6 => drop_line_end(rng, input),
        7 => carriage_returns(rng, input),
        8 => lengthen_line(rng, input),
        9 => copy_part(rng, input),
        10 => swap_lines(rng, input),
        _ => input[place] = *rng.pick(b"\n\r\0\x7f\xff\x1f\"={}()"),
    }
}

/// The place after some byte 10, or the end.
fn after_line_end(rng: &mut Rng, input: &[u8]) -> usize {
    let from = rng.below(input.len());
    let found = input[from..].iter().position(|&byte| byte == b'\n');
    found.map_or(input.len(), |place| from + place + 1)
}

fn drop_line_end(rng: &mut Rng, input: &mut Vec<u8>) {
    let after = after_line_end(rng, input);
    input.remove(after - 1);
}

/// One line end, or all of them, become CR LF.
fn carriage_returns(rng: &mut Rng, input: &mut Vec<u8>) {
    if rng.chance(50) {
        let after = after_line_end(rng, input);
        input.insert(after - 1, b'\r');
        return;
    }
    let lines = input.split(|&byte| byte == b'\n');
    *input = lines.collect::<Vec<_>>().join(&b"\r\n"[..]);
}

/// Brings some line to about 255 bytes.
fn lengthen_line(rng: &mut Rng, input: &mut Vec<u8>) {
    let end = after_line_end(rng, input) - 1;
    let before = input[..end].iter().rev();
    let length = before.take_while(|&&byte| byte != b'\n').count();
    let wanted = rng.between(253, 258);
    if length < wanted {
        let filler = vec![*rng.pick(b" a0\0"); wanted - length];
        input.splice(end..end, filler);
    }
}

fn copy_part(rng: &mut Rng, input: &mut Vec<u8>) {
    let from = rng.below(input.len());
    let to = (from + rng.between(1, 300)).min(input.len());
    let part = input[from..to].to_vec();
    let place = rng.below(input.len());
    input.splice(place..place, part);
}

fn swap_lines(rng: &mut Rng, input: &mut Vec<u8>) {
    let mut lines: Vec<&[u8]> = input.split_inclusive(|&byte| byte == b'\n').collect();
    let (one, other) = (rng.below(lines.len()), rng.below(lines.len()));
    lines.swap(one, other);
    *input = lines.concat();
}

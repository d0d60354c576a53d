//! Edit lines: sequences that add and take ties, and lines with flaws.

use super::lines::{spoil_frame, Writer};
use super::plan::Plan;
use super::rng::Rng;
use crate::line::Key;

/// Remembers which tie lines probably stand, so that taking one mostly works.
pub struct Editor<'w> {
    plan: &'w Plan,
    standing: Vec<Vec<u8>>,
    /// A line to add next: a parent tie that was taken, turned round.
    turned: Option<Vec<u8>>,
}

impl<'w> Editor<'w> {
    pub fn new(plan: &'w Plan) -> Editor<'w> {
        let standing = plan.tie_lines();
        Editor { plan, standing, turned: None }
    }

    /// An edit that an office would make: mostly accepted.
    pub fn plain(&mut self, rng: &mut Rng) -> Vec<u8> {
        if let Some(line) = self.turned.take() {
            self.standing.push(line.clone());
            return whole(b'+', &line);
        }
        let taking = !self.standing.is_empty() && rng.chance(45);
        if taking {
            let place = rng.below(self.standing.len());
            let line = self.standing.swap_remove(place);
            self.turned = turned_round(&line).filter(|_| rng.chance(60));
            return whole(b'-', &line);
        }
        let key = *rng.pick(&[Key::Parent, Key::Member, Key::Value, Key::Value]);
        let writer = Writer { plan: self.plan, flaws: 0 };
        let line = writer.line(rng, key);
        self.standing.push(line.clone());
        whole(b'+', &line)
    }

    /// Takes this line if it probably stands, and adds it if not.
    pub fn turn(&mut self, line: Vec<u8>) -> Vec<u8> {
        match self.standing.iter().position(|one| *one == line) {
            Some(place) => whole(b'-', &self.standing.swap_remove(place)),
            None => {
                let edit = whole(b'+', &line);
                self.standing.push(line);
                edit
            }
        }
    }

    /// An edit with something wrong, or again what stands or does not stand.
    pub fn flawed(&mut self, rng: &mut Rng) -> Vec<u8> {
        let sign = *rng.pick(b"+-");
        let writer = Writer { plan: self.plan, flaws: rng.between(5, 60) };
        match rng.weighted(&[45, 12, 6, 10, 10, 17]) {
            0 => {
                let key = *rng.pick(&[Key::Parent, Key::Member, Key::Value]);
                whole(sign, &writer.line(rng, key))
            }
            1 => {
                let key = *rng.pick(&Key::ALL);
                whole(sign, &writer.line(rng, key))
            }
            2 => whole(sign, b"parent=admin,admin"),
            3 => self.repeated(rng),
            4 => self.turned(rng),
            _ => {
                let key = *rng.pick(&Key::ALL);
                let mut line = writer.line(rng, key);
                spoil_frame(rng, &mut line);
                whole(sign, &line)
            }
        }
    }

    /// Adds what stands, or takes what does not.
    fn repeated(&mut self, rng: &mut Rng) -> Vec<u8> {
        if self.standing.is_empty() {
            return whole(b'-', b"member=admin,admin");
        }
        let line = rng.pick(&self.standing).clone();
        whole(b'+', &line)
    }

    /// A standing parent tie the other way round: a circle.
    fn turned(&mut self, rng: &mut Rng) -> Vec<u8> {
        if self.plan.parents.is_empty() {
            return whole(b'+', b"member=admin,admin");
        }
        let (child, parent) = *rng.pick(&self.plan.parents);
        whole(*rng.pick(b"+++-"), &self.plan.parent_line((parent, child)))
    }
}

/// Flaws that only a caller of the library can make: no sign, no byte 10,
/// bytes after it.
pub fn spoil_call(rng: &mut Rng, line: &mut Vec<u8>) {
    match rng.below(5) {
        0 => drop(line.remove(0)),
        1 => drop(line.pop()),
        2 => line.push(*rng.pick(b"\n\0a+")),
        3 => line.insert(0, *rng.pick(b"+- \n")),
        _ => line.clear(),
    }
}

/// The parent line with its two groups in the other order.
fn turned_round(line: &[u8]) -> Option<Vec<u8>> {
    let rest = line.strip_prefix(b"parent=")?;
    let comma = rest.iter().position(|&byte| byte == b',')?;
    Some([b"parent=", &rest[comma + 1..], b",", &rest[..comma]].concat())
}

fn whole(sign: u8, line: &[u8]) -> Vec<u8> {
    [&[sign], line, b"\n"].concat()
}

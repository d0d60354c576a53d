//! Call lists for document 02, E14, about texts of 32,768 bytes and longer ones.

use super::told::{bytes, file, lines, Counted, Told};
use super::Kit;

pub fn add(kit: &mut Kit) {
    fitting_text(kit);
    longer_texts(kit);
    every_key(kit);
}

/// 64 groups with names of 12 bytes and an operation with such a name, another
/// operation whose name fills the text up, and parent ties: 9 bytes for the first
/// line, 16 and 4 for the operations, 64 lines of 20 bytes for the groups, the
/// filler, and 33 bytes for each tie. No set has anything in it.
struct Groups {
    filler: usize,
    ties: usize,
}

impl Groups {
    fn length(&self) -> usize {
        9 + 16 + 4 + 64 * 20 + self.filler + 33 * self.ties
    }

    /// Child and parent as the ties are written: 0 of group 0, 1 of group 1, 2 of group 2.
    fn ties() -> Vec<(usize, usize)> {
        let of_child = |child: usize| (0..child).map(move |parent| (child, parent));
        (0..64).flat_map(of_child).collect()
    }

    fn tie_lines() -> Vec<String> {
        Groups::ties().into_iter().map(Groups::tie_line).collect()
    }

    fn tie_line((child, parent): (usize, usize)) -> String {
        format!("parent=lift_group{child:02},lift_group{parent:02}")
    }

    /// The joins of adding a tie when those before it stand and none behind it: one
    /// for the child, which has nobody below, and its parents 0 to this one.
    fn joins_of_adding((_, parent): (usize, usize)) -> usize {
        1 + (parent + 1)
    }

    fn text(&self) -> String {
        let filler = "f".repeat(self.filler);
        let groups: String = (0..64).map(|group| format!("ugroup=lift_group{group:02}\n")).collect();
        let lines = Groups::tie_lines();
        let ties: String = lines[..self.ties].iter().map(|line| format!("{line}\n")).collect();
        format!("rights=1\nop=twelve_bytes\nop={filler}\n{groups}{ties}")
    }

    /// Loads the text and asks for its length.
    fn load(&self, told: &mut Told) {
        told.load(&self.text(), self.length(), "");
    }

    /// Adds the next ties by edits up to this number of them.
    fn add_to(&mut self, told: &mut Told, ties: usize) {
        for tie in &Groups::ties()[self.ties..ties] {
            let line = Groups::tie_line(*tie);
            told.list.edit(&format!("+{line}"), (0, Groups::joins_of_adding(*tie)), "");
        }
        told.length += 33 * (ties - self.ties);
        self.ties = ties;
    }
}

fn fitting_text(kit: &mut Kit) {
    kit.says("Document 02, E14: \"The writer refuses by 18 precisely when this length is over its buffer or over 32,768.\" At 32,768 it is not.");
    let mut told = Told::new();
    let mut groups = Groups { filler: 10, ties: 952 };
    groups.load(&mut told);
    groups.add_to(&mut told, 953);
    told.list.length(32_768);
    told.list.unwritten(32_767, 0x77);
    told.add(("parent=lift_group63,lift_group62", 33), (0, 2), "");
    told.list.length(32_801);
    told.list.unwritten(100, 0x77);
    told.take(("parent=lift_group63,lift_group62", 33), (0, 1), "");
    told.list.write(32_768, 0x77, &groups.text());
    told.ask();
    told.done(kit, "length-32768-bytes");
}

fn longer_texts(kit: &mut Kit) {
    kit.says("Document 02, E14: \"also when it exceeds 32,768\", which edits alone can bring about; the writer then refuses a buffer of any length.");
    let mut told = Told::new();
    let mut groups = Groups { filler: 11, ties: 952 };
    groups.load(&mut told);
    groups.add_to(&mut told, 953);
    told.list.length(32_769);
    told.list.unwritten(32_769, 0x77);
    told.list.unwritten(33_000, 0x77);
    told.ask();
    told.done(kit, "length-32769-bytes");
    let mut told = Told::new();
    let mut groups = Groups { filler: 9, ties: 0 };
    groups.load(&mut told);
    for (ties, length) in [
        (1, 1_351),
        (953, 32_767),
        (954, 32_800),
        (1_945, 65_503),
        (1_946, 65_536),
        (1_947, 65_569),
        (2_016, 67_846),
    ] {
        groups.add_to(&mut told, ties);
        told.list.length(length);
        told.list.unwritten(100, 0x77);
        told.ask();
    }
    // Ties of the groups 63, 57, 49, 40, 29 and 6. With all ties the groups from c on
    // have c + 1 up to 64 joins, which is 2,080 less the sum of 1 to c; each tie
    // taken by then is one less.
    let joins = [64 - 1, 427 - 2, 855 - 3, 1_260 - 4, 1_645 - 5, 2_059 - 6];
    for (line, joins) in Groups::tie_lines().iter().rev().step_by(400).zip(joins) {
        told.take((line, 33), (0, joins), "");
    }
    told.done(kit, "length-over-65536-bytes");
}

/// A text that has every key, in the order of its lines: these, 46 groups as in
/// `Groups` with 20 bytes each, other holders, parent lines of these groups with 33
/// bytes each, other ties, and rules. Few holders have values, so that few words of
/// the table are not 0.
const BEFORE_GROUPS: [Counted; 11] = [
    ("attr=user,zone,int", 19),
    ("attr=object,kind,str", 21),
    ("attr=admin,open,bool", 21),
    ("attr=env,hour,int", 18),
    ("op=pass", 8),
    ("op=ride", 8),
    ("atom=user.zone,10", 18),
    ("atom=user.zone,4294967295", 26),
    ("atom=object.kind,\"chair\"", 25),
    ("atom=admin.open,TRUE", 21),
    ("atom=admin.open,FALSE", 22),
];
/// Holders 47 to 52: their words are from 188 on.
const OTHER_HOLDERS: [Counted; 6] = [
    ("ogroup=upper", 13),
    ("ogroup=lower_slopes", 20),
    ("user=p17", 9),
    ("user=season_guest", 18),
    ("object=g2", 10),
    ("object=turnstile_01", 20),
];
/// Other ties of the file that is loaded, and those that stand after all edits.
const TIES_LOADED: [Counted; 7] = [
    ("parent=lower_slopes,upper", 26),
    ("member=season_guest,lift_group00", 33),
    ("member=g2,upper", 16),
    ("value=admin,open,TRUE", 22),
    ("value=lift_group45,zone,10", 27),
    ("value=p17,zone,4294967295", 26),
    ("value=g2,kind,\"chair\"", 22),
];
const TIES_LEFT: [Counted; 7] = [
    ("member=p17,lift_group45", 24),
    ("member=turnstile_01,lower_slopes", 33),
    ("value=admin,open,FALSE", 23),
    ("value=lower_slopes,kind,\"chair\"", 32),
    ("value=p17,zone,4294967295", 26),
    ("value=season_guest,zone,10", 27),
    ("value=g2,kind,\"chair\"", 22),
];
const RULES: [Counted; 2] = [("rule=pass,user.zone=10 AND env.hour<17", 39), ("rule=ride,admin.open", 21)];

fn every_key_text(parents: &[String], ties: &[Counted]) -> String {
    let groups: String = (0..46).map(|group| format!("ugroup=lift_group{group:02}\n")).collect();
    let parents: String = parents.iter().map(|line| format!("{line}\n")).collect();
    [file(&BEFORE_GROUPS), groups, lines(&OTHER_HOLDERS), parents, lines(ties), lines(&RULES)].concat()
}

fn every_key_bytes(parents: usize, ties: &[Counted]) -> usize {
    bytes(&[&BEFORE_GROUPS[..], &OTHER_HOLDERS, ties, &RULES].concat()) + 46 * 20 + parents * 33
}

/// With all parent lines of the groups up to 43, and two of group 44.
fn load_every_key(told: &mut Told) {
    let text = every_key_text(&Groups::tie_lines()[..948], &TIES_LOADED);
    told.load(&text, every_key_bytes(948, &TIES_LOADED), "0:8,184:1,196:2,204:4");
    told.list.length(32_742);
}

/// Ties of each key one by one, by which the text gets too long. Of these the parent
/// lines push all member, value and rule lines behind the first 32,768 bytes.
fn add_to_every_key(told: &mut Told) {
    told.add(("member=p17,lift_group45", 24), (1, 2), "0:8,184:1,196:3,204:4");
    told.list.length(32_766);
    let words = "0:8,184:1,196:3,200:1,204:4";
    told.add(("value=season_guest,zone,10", 27), (1, 2), words);
    told.list.length(32_793);
    for tie in &Groups::ties()[948..956] {
        told.add((&Groups::tie_line(*tie), 33), (0, Groups::joins_of_adding(*tie)), words);
    }
    told.list.length(33_057);
    told.add(("member=turnstile_01,lower_slopes", 33), (0, 2), words);
    told.add(("value=admin,open,FALSE", 23), (1, 1), "0:18,184:1,196:3,200:1,204:4");
    let words = "0:18,184:1,192:4,196:3,200:1,204:4,208:4";
    told.add(("value=lower_slopes,kind,\"chair\"", 32), (2, 4), words);
    told.list.length(33_145);
}

/// Ties of each key, the text being too long all the while.
fn take_from_every_key(told: &mut Told) {
    let words = told.list.words.clone();
    // One for group 01, 3 to 44 for groups 02 to 43, and 11 for group 44 with ten parents.
    told.take(("parent=lift_group01,lift_group00", 33), (0, 1 + 987 + 11), &words);
    told.take(("parent=lower_slopes,upper", 26), (0, 3), &words);
    told.take(("member=season_guest,lift_group00", 33), (0, 1), &words);
    told.take(("member=g2,upper", 16), (0, 1), &words);
    told.take(("value=admin,open,TRUE", 22), (1, 1), "0:10,184:1,192:4,196:3,200:1,204:4,208:4");
    told.take(("value=lift_group45,zone,10", 27), (2, 3), "0:10,192:4,196:2,200:1,204:4,208:4");
    told.list.length(32_988);
}

fn every_key(kit: &mut Kit) {
    kit.says("Document 02, E14: \"also when it exceeds 32,768\". All lines of every key are counted, those behind the first 32,768 bytes too, and an accepted edit moves the length by just its line.");
    let parents = Groups::tie_lines();
    let mut told = Told::new();
    load_every_key(&mut told);
    told.list.write(told.length, 0x77, &every_key_text(&parents[..948], &TIES_LOADED));
    add_to_every_key(&mut told);
    told.list.unwritten(100, 0x77);
    take_from_every_key(&mut told);
    told.list.unwritten(100, 0x77);
    // Parents 9 down to 3 of group 44, which keeps those before.
    for (line, joins) in parents[949..956].iter().rev().zip([10, 9, 8, 7, 6, 5, 4]) {
        told.take((line, 33), (0, joins), &told.list.words.clone());
    }
    told.list.length(32_757);
    told.list.write(told.length, 0x77, &every_key_text(&parents[1..949], &TIES_LEFT));
    told.list.length(every_key_bytes(948, &TIES_LEFT));
    told.done(kit, "length-of-every-key-over-32768-bytes-and-back");
    let mut told = Told::new();
    load_every_key(&mut told);
    add_to_every_key(&mut told);
    told.list.unwritten(told.length + 1, 0x77);
    told.ask();
    told.done(kit, "length-of-every-key-over-32768-bytes-with-a-longer-buffer");
}

//! The joins of document 02, E3: what it promises, over drawn lists of calls and over
//! books with as many ties as can stand.

mod states;

use reference::generate::{damaged_input, gate_input, session};
use reference::line::pieces;
use reference::session::{Answer, Call, Engine, TableEngine};
use reference::{calls, gate, Book, Edited, Ledger, Refusal, TABLE_WORDS};
use states::{each_state, SESSIONS};
use std::collections::BTreeSet;

/// The parent and member lines of a book's text: who is below, and whom.
fn ties_up(text: &[u8]) -> Vec<(Vec<u8>, Vec<u8>)> {
    let fields = |line: &[u8]| {
        let line = line.strip_suffix(b"\n")?;
        let fields = line.strip_prefix(b"parent=").or(line.strip_prefix(b"member="))?;
        let comma = fields.iter().position(|&byte| byte == b',')?;
        Some((fields[..comma].to_vec(), fields[comma + 1..].to_vec()))
    };
    pieces(text).filter_map(fields).collect()
}

/// The holder and all below it by name: whoever has a tie to one of them is one of them.
fn met(ties: &[(Vec<u8>, Vec<u8>)], edited: &[u8]) -> BTreeSet<Vec<u8>> {
    let mut met = BTreeSet::from([edited.to_vec()]);
    loop {
        let before = met.len();
        for (low, high) in ties {
            if met.contains(high) {
                met.insert(low.clone());
            }
        }
        if met.len() == before {
            return met;
        }
    }
}

/// "one plus the number of its ties up to a parent or group after the edit, summed"
fn sum(text: &[u8], edited: &[u8]) -> usize {
    let ties = ties_up(text);
    let up = |holder: &Vec<u8>| ties.iter().filter(|(low, _)| low == holder).count();
    met(&ties, edited).iter().map(|holder| 1 + up(holder)).sum()
}

/// Key and first name of an edit line.
fn key_and_holder(line: &[u8]) -> (&[u8], &[u8]) {
    let equals = line.iter().position(|&byte| byte == b'=').unwrap();
    let comma = line.iter().position(|&byte| byte == b',').unwrap();
    (&line[1..equals], &line[equals + 1..comma])
}

/// Looks at every accepted edit of drawn lists of calls, on the book after it.
fn each_edit(mut look: impl FnMut(u64, &Book, &[u8], Edited)) {
    for seed in 1..=SESSIONS {
        let drawn = session(seed);
        let mut engine = TableEngine::new(drawn.table.clone());
        for call in &drawn.calls {
            if let (Call::Edit(line), Answer::Edit(Ok(edited))) = (call, engine.call(call)) {
                look(seed, &engine.book, line, edited);
            }
        }
    }
}

#[test]
fn the_number_is_the_sum_that_the_sentence_gives() {
    let (mut edits, mut without_change) = (0, 0);
    each_edit(|seed, book, line, edited| {
        let (_, holder) = key_and_holder(line);
        let wanted = sum(&book.text(), holder);
        assert_eq!(edited.joins, wanted, "seed {seed}, {}", String::from_utf8_lossy(line));
        edits += 1;
        without_change += usize::from(edited.count == 0 && edited.joins > 1);
    });
    assert!(edits > 8_000 && without_change > 2_000, "{edits} edits, {without_change} without a change");
}

#[test]
fn it_is_at_least_the_count_and_at_most_65_for_each_holder() {
    let mut most = 0;
    each_edit(|seed, book, line, edited| {
        let holders = met(&ties_up(&book.text()), key_and_holder(line).1).len();
        assert!(edited.count <= holders && holders <= edited.joins, "seed {seed}");
        assert!(edited.joins <= 65 * holders && edited.joins <= 65 * book.declared().holders.len());
        assert!(edited.joins <= 16_640, "seed {seed}");
        most = most.max(edited.joins);
    });
    assert!(most > 1_000, "none above {most}");
}

#[test]
fn a_member_edit_costs_one_and_the_groups_after_it() {
    let mut edits = 0;
    each_edit(|seed, book, line, edited| {
        let (key, party) = key_and_holder(line);
        if key == b"member" {
            let start = [b"member=", party, b","].concat();
            let groups = pieces(&book.text()).filter(|one| one.starts_with(&start)).count();
            assert_eq!(edited.joins, 1 + groups, "seed {seed}");
            edits += 1;
        }
    });
    assert!(edits > 1_000, "only {edits} member edits");
}

/// A file without its value lines, so that no set has anything in it.
fn without_values(file: &[u8]) -> Vec<u8> {
    pieces(file).filter(|line| !line.starts_with(b"value=")).collect::<Vec<&[u8]>>().concat()
}

#[test]
fn values_change_nothing_about_it() {
    let (mut edits, mut changing) = (0, 0);
    for seed in 1..=SESSIONS {
        let drawn = session(seed);
        let mut engine = TableEngine::new(drawn.table.clone());
        let mut bare = TableEngine::new(drawn.table.clone());
        let mut loaded = false;
        for call in &drawn.calls {
            match (call, engine.call(call)) {
                (Call::Load(file), answer) => {
                    let both = [answer, Answer::Load(bare.load(&without_values(file)))];
                    loaded = both.iter().all(|one| matches!(one, Answer::Load(Ok(_))));
                }
                (Call::Edit(line), Answer::Edit(Ok(edited)))
                    if loaded && key_and_holder(line).0 != b"value" =>
                {
                    let other = bare.edit(line).unwrap();
                    assert_eq!((other.count, other.joins), (0, edited.joins), "seed {seed}");
                    edits += 1;
                    changing += usize::from(edited.count > 0);
                }
                _ => {}
            }
        }
    }
    assert!(edits > 2_000 && changing > 800, "{edits} edits, {changing} with a change");
}

/// An accepted edit on a copy of the state, by both engines.
fn tried(engine: &mut TableEngine, ledger: &mut Ledger, sign: &str, line: &str) -> Edited {
    let line = format!("{sign}{line}\n");
    let edited = engine.edit(line.as_bytes());
    assert_eq!(ledger.edit(line.as_bytes(), TABLE_WORDS), edited, "{line}");
    edited.unwrap_or_else(|refusal| panic!("{line}: {refusal:?}"))
}

#[test]
fn a_value_tie_costs_the_same_put_or_taken_and_another_tie_one_less_when_it_is_taken() {
    let (mut values, mut others) = (0, 0);
    each_state(|seed, by_table, ledger| {
        if by_table.table.len() != TABLE_WORDS || seed % 3 != 0 {
            return;
        }
        let text = String::from_utf8(by_table.book.text()).unwrap();
        let mut engine = TableEngine::new(by_table.table.clone());
        engine.book = by_table.book.clone();
        let mut ledger = ledger.clone();
        let ties = text
            .lines()
            .filter(|line| ["parent=", "member=", "value="].iter().any(|key| line.starts_with(key)));
        for line in ties.step_by(1 + text.len() / 500) {
            let taken = tried(&mut engine, &mut ledger, "-", line);
            let put = tried(&mut engine, &mut ledger, "+", line);
            assert_eq!(put.count, taken.count, "seed {seed}, {line}");
            if line.starts_with("value=") {
                assert_eq!(put.joins, taken.joins, "seed {seed}, {line}");
                values += 1;
            } else {
                assert_eq!(put.joins, taken.joins + 1, "seed {seed}, {line}");
                others += 1;
            }
        }
    });
    assert!(values > 1_000 && others > 1_000, "{values} value ties, {others} others");
}

/// The numbers of an `edit=` line, or none if it is another.
fn printed(line: &[u8]) -> Option<Vec<usize>> {
    let line = std::str::from_utf8(line).unwrap().trim_end();
    Some(line.strip_prefix("edit=")?.split(',').map(|number| number.parse().unwrap()).collect())
}

#[test]
fn a_refused_edit_reports_0_and_three_numbers_are_printed() {
    let (mut refused, mut accepted) = (0, 0);
    for seed in 1..=SESSIONS {
        let list = calls::write(&session(seed));
        let outputs = [
            gate(&gate_input(seed)),
            gate(&damaged_input(seed)),
            calls::run(&list).expect("what is written is a call list"),
        ];
        for numbers in outputs.iter().flat_map(|output| pieces(output)).filter_map(printed) {
            match numbers[..] {
                [0, count, joins] => {
                    assert!(count <= joins && joins > 0, "seed {seed}");
                    accepted += 1;
                }
                [_, 0, 0] => refused += 1,
                _ => panic!("seed {seed}: {numbers:?}"),
            }
        }
    }
    assert!(refused > 10_000 && accepted > 10_000, "{refused} refused, {accepted} accepted");
}

#[test]
fn a_table_of_another_length_is_a_refusal_too() {
    let list = b"table=1023\nload=\nedit=2b\n";
    let told = b"load=1,0\nwords=\nedit=1,0,0\nwords=\n".to_vec();
    assert_eq!(calls::run(list), Ok(told.clone()));
    assert_eq!(calls::run_by_ledger(list), Ok(told));
    assert_eq!(Book::default().edit(b"+", &mut [0; 1_023]), Err(Refusal::TableLength));
}

/// Groups g0, g1 and so on, parties p0, p1 and so on, and a value for group and party.
fn declared(groups: usize, parties: usize) -> String {
    let groups: String = (0..groups).map(|number| format!("ugroup=g{number}\n")).collect();
    let parties: String = (0..parties).map(|number| format!("user=p{number}\n")).collect();
    format!("rights=1\nattr=user,n,int\natom=user.n,1\n{groups}{parties}")
}

/// All ties that can stand, in an order in which each child has nobody below it yet:
/// a group gets those before it as parents, then a party gets all groups. Each with
/// the joins of putting it: one, the ties that its holder has, and this one.
fn all_ties(groups: usize, parties: usize) -> Vec<(String, usize)> {
    let parents = (0..groups)
        .flat_map(|child| (0..child).map(move |parent| (format!("parent=g{child},g{parent}"), parent + 2)));
    let members = (0..parties)
        .flat_map(|party| (0..groups).map(move |group| (format!("member=p{party},g{group}"), group + 2)));
    parents.chain(members).collect()
}

/// The sum at the highest group when all ties stand.
fn largest(groups: usize, parties: usize) -> usize {
    groups * (groups + 1) / 2 + parties * (groups + 1)
}

#[test]
fn each_edit_up_to_all_ties_that_can_stand_and_back() {
    let (groups, parties) = (64, 191);
    assert_eq!(largest(groups, parties), 14_495);
    let mut table = vec![0; TABLE_WORDS];
    let (mut book, loaded) = Book::load(declared(groups, parties).as_bytes(), &mut table);
    assert!(loaded.is_ok(), "{loaded:?}");
    let mut edit = |line: String| book.edit(format!("{line}\n").as_bytes(), &mut table).unwrap();
    let ties = all_ties(groups, parties);
    assert_eq!(ties.len(), 2_016 + 191 * 64);
    for (line, joins) in &ties {
        assert_eq!(edit(format!("+{line}")), Edited { count: 0, joins: *joins }, "{line}");
    }
    for sign in ["+", "-"] {
        let all = Edited { count: 255, joins: 14_495 };
        assert_eq!(edit(format!("{sign}value=g0,n,1")), all);
    }
    for (line, joins) in ties.iter().rev() {
        assert_eq!(edit(format!("-{line}")), Edited { count: 0, joins: joins - 1 }, "{line}");
    }
}

#[test]
fn both_engines_on_all_ties_of_smaller_books() {
    for (groups, parties) in [(1, 1), (2, 5), (9, 7), (12, 0)] {
        let mut engine = TableEngine::new(vec![0; TABLE_WORDS]);
        let mut ledger = Ledger::default();
        let file = declared(groups, parties);
        assert!(engine.load(file.as_bytes()).is_ok());
        assert!(ledger.load(file.as_bytes(), TABLE_WORDS).is_ok());
        let ties = all_ties(groups, parties);
        for (line, joins) in &ties {
            assert_eq!(tried(&mut engine, &mut ledger, "+", line).joins, *joins, "{line}");
        }
        let all = Edited { count: groups + parties, joins: largest(groups, parties) };
        assert_eq!(tried(&mut engine, &mut ledger, "+", "value=g0,n,1"), all);
        // Group 0 loses all below it, tie by tie.
        for (line, _) in ties.iter().filter(|(line, _)| line.ends_with(",g0")) {
            let edited = tried(&mut engine, &mut ledger, "-", line);
            let holder = &line["parent=".len()..line.len() - ",g0".len()];
            assert_eq!(edited.joins, sum(&engine.book.text(), holder.as_bytes()), "{line}");
        }
        let alone = Edited { count: 1, joins: 1 };
        assert_eq!(tried(&mut engine, &mut ledger, "-", "value=g0,n,1"), alone);
    }
}

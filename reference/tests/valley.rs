//! Valley cases A to L of document 01, and the example of its office program.

use reference::{Book, Cause, Decision, Edited, Refusal};

const VALLEY: &str = "rights=1;attr=user,kind,str;attr=user,zone,int;attr=user,staff,bool;\
attr=object,zone,int;attr=env,hour,int;op=pass;atom=user.kind,\"day\";atom=user.kind,\"season\";\
atom=user.zone,1;atom=user.zone,2;atom=object.zone,2;ugroup=day;ugroup=season;ogroup=upper;\
user=p17;object=g2;parent=season,day;member=p17,season;member=g2,upper;value=day,kind,\"day\";\
value=day,zone,1;value=season,kind,\"season\";value=season,zone,2;value=upper,zone,2;\
rule=pass,user.zone = object.zone AND env.hour < 17;rule=pass,user.staff;";

fn valley() -> (Book, Vec<u64>) {
    let mut table = vec![u64::MAX; 1024];
    let (book, loaded) = Book::load(VALLEY.replace(';', "\n").as_bytes(), &mut table);
    assert_eq!(loaded, Ok(27));
    (book, table)
}

fn block(mask: u8, hours: &[u8]) -> Vec<u8> {
    let mut block = vec![1, 4, 5, 0, mask, 0, 0, 0, hours.len() as u8, 0];
    for hour in hours {
        block.extend([4, *hour, 0, 0, 0]);
    }
    block
}

fn decide(mask: u8, hours: &[u8]) -> Decision {
    let (book, table) = valley();
    book.request(&block(mask, hours), &table)
}

/// The decision on a book whose only rule is `policy`.
fn alone(policy: &str) -> Result<Decision, Refusal> {
    let file = VALLEY.replace(';', "\n");
    let declared = file.split("rule=").next().unwrap();
    let file = format!("{declared}rule=pass,{policy}\n");
    let mut table = vec![0; 1024];
    let (book, loaded) = Book::load(file.as_bytes(), &mut table);
    loaded.map_err(|refused| refused.refusal)?;
    Ok(book.request(&block(0, &[]), &table))
}

#[test]
fn a_first_words_and_all_others() {
    let (_, table) = valley();
    let mut expected = vec![0; 1024];
    for (holder, word) in [0, 5, 15, 16, 15, 16].into_iter().enumerate() {
        expected[4 * holder] = word;
    }
    assert_eq!(table, expected);
}

#[test]
fn b_to_e_decisions() {
    assert_eq!(decide(3, &[16]), Decision::Permit(0));
    // At 17 the first rule is FALSE, and no staff value is there for the second.
    assert_eq!(decide(3, &[17]), Decision::Undefined(Cause::Absent));
    assert_eq!(decide(3, &[]), Decision::Undefined(Cause::Absent));
    assert_eq!(decide(4, &[]), Decision::Refused(Refusal::NotHeld));
}

#[test]
fn f_h_i_refused_edits_change_nothing() {
    let (mut book, mut table) = valley();
    let before = (book.clone(), table.clone());
    let cases: [(&[u8], u8); 3] =
        [(b"+parent=day,season\n", 12), (b"+member=p17,upper\n", 9), (b"-member=p17,day\n", 14)];
    for (line, number) in cases {
        let refusal = book.edit(line, &mut table).unwrap_err();
        assert_eq!(refusal.number(), number);
        assert_eq!((&book, &table), (&before.0, &before.1));
    }
}

#[test]
fn g_the_other_path_still_gives_the_pair() {
    let (mut book, mut table) = valley();
    assert_eq!(book.edit(b"+value=day,zone,2\n", &mut table), Ok(Edited { count: 1, joins: 5 }));
    assert_eq!(table[4], 13);
    let before = table.clone();
    assert_eq!(book.edit(b"-value=season,zone,2\n", &mut table), Ok(Edited { count: 0, joins: 4 }));
    assert_eq!(table, before);
}

#[test]
fn j_to_l_policies() {
    assert_eq!(alone("FALSE AND TRUE OR TRUE"), Ok(Decision::Permit(0)));
    assert_eq!(alone("\"b\" < \"c\""), Ok(Decision::Undefined(Cause::Unlike)));
    assert_eq!(alone("NOT user.kind = \"day\""), Err(Refusal::Malformed));
}

#[test]
fn the_example_of_the_office_program() {
    let input = VALLEY.replace(';', "\n") + "end=\ntry=01040500030000000100040a000000\n-parent=season,day\n";
    let expected = b"load=0,27\ntry=permit,0\nedit=0,2,3\n";
    assert_eq!(reference::gate(input.as_bytes()), expected);
    assert_eq!(reference::gate_by_ledger(input.as_bytes()), expected);
}

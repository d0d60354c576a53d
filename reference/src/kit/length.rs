//! Call lists for document 02, E14: "Length told beforehand".

use super::files::{file_of, nine_deep};
use super::length_limit;
use super::length_lines::{self, HOLDERS};
use super::list::List;
use super::told::{file, Counted, Told, FIRST_LINE};
use super::valley::{valley, valley_text, DECLARED, VALLEY_WORDS};
use super::Kit;

pub fn kit() -> Kit {
    let mut kit = Kit::new("library");
    empty(&mut kit);
    refused_loads(&mut kit);
    wrong_tables(&mut kit);
    valley_file(&mut kit);
    other_calls(&mut kit);
    edits(&mut kit);
    refused_edits(&mut kit);
    length_lines::add(&mut kit);
    last_numbers(&mut kit);
    last_groups(&mut kit);
    equal_states(&mut kit);
    length_limit::add(&mut kit);
    kit
}

fn empty(kit: &mut Kit) {
    kit.says("Document 02, E14: \"A call gives the exact byte length that the writer of E1 would put out, for every producible book\". The empty book's text is `rights=1` and byte 10, so its length is 9.");
    let mut told = Told::new();
    told.ask();
    told.written("rights=1\n");
    told.done(kit, "length-before-any-load");
    let mut told = Told::new();
    told.load("rights=1\n", 9, "");
    told.written("rights=1\n");
    told.done(kit, "length-of-the-shortest-file");
}

fn refused_loads(kit: &mut Kit) {
    kit.says("A refused load leaves the empty book, whatever was loaded before: 9.");
    let mut told = Told::new();
    told.load(&valley(), VALLEY_BYTES, VALLEY_WORDS);
    told.refused_load("rights=1\nop=A\n", "load=6,2");
    told.written("rights=1\n");
    told.refused_edit("+parent=season,day", 8);
    told.load(&valley(), VALLEY_BYTES, VALLEY_WORDS);
    told.done(kit, "length-after-a-refused-load");
    let deep = format!("rights=1\nop=o\nrule=o,{}\n", nine_deep());
    let mut told = Told::new();
    for (file, answer) in [
        (file_of(32_769).as_str(), "load=2,0"),
        ("", "load=3,1"),
        ("rights=1", "load=3,1"),
        ("rights=1\n\n", "load=4,2"),
        ("rights=1\nop=o\nuser=u", "load=4,3"),
        ("rights=1\nuser=u\nop=o\n", "load=5,3"),
        ("rights=1\nuser=u\nuser=U\n", "load=6,3"),
        (&deep, "load=7,3"),
        ("rights=1\nugroup=g\nparent=g,h\n", "load=8,3"),
        ("rights=1\nattr=env,e,str\n", "load=9,2"),
        ("rights=1\nuser=u\nuser=u\n", "load=10,3"),
        ("rights=1\nop=1\nop=2\nop=3\nop=4\nop=5\nop=6\nop=7\nop=8\nop=9\n", "load=11,10"),
        ("rights=1\nugroup=g\nparent=g,g\n", "load=12,3"),
    ] {
        told.load("rights=1\nop=o\nuser=u\n", 21, "");
        told.refused_load(file, answer);
    }
    told.written("rights=1\n");
    told.done(kit, "length-after-loads-refused-otherwise");
}

fn wrong_tables(kit: &mut Kit) {
    kit.says("The call has no table, so it never answers 1, and it refuses nothing. On a table of another length a load is 1 and gives the empty book, and all edits are 1: 9.");
    for (name, table, words) in [
        ("length-on-a-table-of-0-words", "0", ""),
        ("length-on-a-table-of-1023-words", "1023,5:5", "5:5"),
        ("length-on-a-table-of-1025-words", "1025,1024:7", "1024:7"),
        ("length-on-a-table-of-4096-words", "4096,4095:1", "4095:1"),
    ] {
        let mut told = Told { list: List::on(table, words), length: FIRST_LINE };
        told.ask();
        told.list.refused_load(&valley(), "load=1,0");
        told.ask();
        told.refused_edit("-parent=season,day", 1);
        told.list.request(PERMITTED, "try=refused,1");
        told.written("rights=1\n");
        told.done(kit, name);
    }
}

/// 9 for the first line, 98 for attr, 8 for op, 98 for atom, 25 for ugroup, 13 for
/// ogroup, 9 for user, 10 for object, 18 for parent, 34 for member, 104 for value
/// and, without the spaces beside `=` and `<`, 69 for rule lines.
const VALLEY_BYTES: usize = 495;

/// A block that the valley file permits.
const PERMITTED: &str = "01040500030000000100040a000000";

fn valley_file(kit: &mut Kit) {
    kit.says("Document 02, E14: \"The writer refuses by 18 precisely when this length is over its buffer or over 32,768.\" The length is that of the text, not of the file that was loaded, whose rules may have more spaces.");
    let mut told = Told::new();
    told.load(&valley(), VALLEY_BYTES, VALLEY_WORDS);
    told.written(&valley_text());
    told.list.unwritten(0, 0);
    told.list.write(VALLEY_BYTES + 1, 0, &valley_text());
    told.ask();
    told.done(kit, "length-of-the-valley-file");
    let mut told = Told::new();
    told.load(&valley(), VALLEY_BYTES, VALLEY_WORDS);
    let words = "4:5,8:a,12:10,16:a,20:10";
    told.take(("parent=season,day", 18), (2, 3), words);
    told.written(&valley_text().replace("parent=season,day\n", ""));
    told.add(("value=g2,zone,2", 16), (0, 2), words);
    told.add(("parent=season,day", 18), (2, 4), VALLEY_WORDS);
    told.take(("value=upper,zone,2", 19), (1, 3), "4:5,8:f,16:f,20:10");
    told.written(&valley_text().replace("value=upper,zone,2", "value=g2,zone,2"));
    told.done(kit, "length-of-the-valley-file-edited");
}

fn other_calls(kit: &mut Kit) {
    kit.says("Document 02, E14: \"writing nothing\". Book and table stay as they are, and neither a request nor a write changes the length.");
    let mut told = Told::new();
    told.load(&valley(), VALLEY_BYTES, VALLEY_WORDS);
    told.list.request(PERMITTED, "try=permit,0");
    told.ask();
    told.ask();
    told.list.request(PERMITTED, "try=permit,0");
    told.list.request("00", "try=refused,15");
    told.written(&valley_text());
    told.take(("value=season,zone,2", 20), (2, 4), "4:5,8:7,12:10,16:7,20:10");
    told.list.request(PERMITTED, "try=undefined,absent");
    told.ask();
    told.list.unwritten(100, 0);
    told.ask();
    told.add(("value=season,zone,2", 20), (2, 4), VALLEY_WORDS);
    told.list.request(PERMITTED, "try=permit,0");
    told.written(&valley_text());
    told.done(kit, "length-between-other-calls");
    let mut told = Told { list: List::on("1024,0:ff,24:7,1023:1", ""), length: FIRST_LINE };
    told.load(&valley(), VALLEY_BYTES, VALLEY_WORDS);
    told.ask();
    told.written(&valley_text());
    told.refused_load("", "load=3,1");
    told.ask();
    told.done(kit, "length-on-a-table-in-use");
}

/// Parent and member lines of `HOLDERS`, in the order in which they are written.
const LINKS: [Counted; 14] = [
    ("parent=a,twelve_bytes", 22),
    ("parent=a,other_groups", 22),
    ("parent=bc,a", 12),
    ("parent=bc,twelve_bytes", 23),
    ("parent=twelve_bytes,other_groups", 33),
    ("parent=lower_slopes,d", 22),
    ("member=u,a", 11),
    ("member=u,bc", 12),
    ("member=u,twelve_bytes", 22),
    ("member=season_guest,a", 22),
    ("member=season_guest,twelve_bytes", 33),
    ("member=t,d", 11),
    ("member=t,lower_slopes", 22),
    ("member=turnstile_01,lower_slopes", 33),
];

/// The joins of each when it is added and those behind it stand, and when it is
/// taken and these are left. Of the last parent line of a, with bc, u and
/// season_guest below it: 3 for a with two parents, 3 for bc, 4 for u, 3 for
/// season_guest; 2 for a when it is taken.
const ADDED: [usize; 14] = [13, 12, 7, 6, 9, 7, 4, 3, 2, 3, 2, 3, 2, 2];
const TAKEN: [usize; 14] = [12, 11, 6, 5, 8, 6, 3, 2, 1, 2, 1, 2, 1, 1];

fn edits(kit: &mut Kit) {
    kit.says("An accepted edit makes the text longer or shorter by just its line, without the sign; whether sets change by it is no matter.");
    let all = [&HOLDERS[..], &LINKS].concat();
    let mut told = Told::new();
    told.load_lines(&HOLDERS);
    for (line, joins) in LINKS.into_iter().zip(ADDED).rev() {
        told.add(line, (0, joins), "");
    }
    told.written(&file(&all));
    for (line, joins) in LINKS.into_iter().zip(TAKEN) {
        told.take(line, (0, joins), "");
    }
    told.written(&file(&HOLDERS));
    told.done(kit, "length-of-parent-and-member-lines-of-edits");
    let mut told = Told::new();
    told.load_lines(&all);
    told.written(&file(&all));
    told.done(kit, "length-of-parent-and-member-lines-of-a-file");
    let mut told = Told::new();
    told.load(&file(&[("ugroup=ab", 10), ("ugroup=twelve_bytes", 20)]), 39, "");
    told.add(("parent=ab,twelve_bytes", 23), (0, 2), "");
    told.take(("parent=ab,twelve_bytes", 23), (0, 1), "");
    told.add(("parent=twelve_bytes,ab", 23), (0, 2), "");
    told.written("rights=1\nugroup=ab\nugroup=twelve_bytes\nparent=twelve_bytes,ab\n");
    told.done(kit, "length-of-a-tie-turned-round");
}

fn refused_edits(kit: &mut Kit) {
    kit.says("A refused edit changes nothing: the length stays.");
    let mut told = Told::new();
    told.load(&valley(), VALLEY_BYTES, VALLEY_WORDS);
    for (line, number) in [
        ("value=day,zone,2", 4),
        ("+value", 4),
        ("+op=x", 13),
        ("-rule=pass,user.staff", 13),
        ("+user=p18", 13),
        ("+value=day,zone,02", 6),
        ("+value=day,zone,3", 8),
        ("+member=p17,upper", 9),
        ("+value=day,zone,1", 10),
        ("+parent=season,day", 10),
        ("+parent=day,season", 12),
        ("-member=p17,day", 14),
        ("-value=g2,zone,2", 14),
    ] {
        told.refused_edit(line, number);
    }
    told.written(&valley_text());
    told.done(kit, "length-after-refused-edits");
}

fn last_numbers(kit: &mut Kit) {
    kit.says("As many attributes, pairs and holders as there can be, and ties of the last ones.");
    let attributes: String = (0..32).map(|number| format!("attr=user,n{number},int\n")).collect();
    let pairs: String = (0..256).map(|value| format!("atom=user.n31,{value}\n")).collect();
    let users: String = (1..256).map(|number| format!("user=p{number}\n")).collect();
    let declared = format!("rights=1\n{attributes}{pairs}{users}");
    // `attr=user,n,int`, `atom=user.n31,` and `user=p` with their bytes 10, and the digits: 10
    // attributes have one and 22 two; 10 pairs have one, 90 two, 156 three; of users 9 have one.
    let length = FIRST_LINE
        + (32 * 16 + 10 + 22 * 2)
        + (256 * 15 + 10 + 90 * 2 + 156 * 3)
        + (255 * 7 + 9 + 90 * 2 + 156 * 3);
    let mut told = Told::new();
    told.load(&declared, length, "");
    told.add(("value=p255,n31,255", 19), (1, 1), "1023:8000000000000000");
    told.add(("value=p1,n31,0", 15), (1, 1), "4:1,1023:8000000000000000");
    told.add(("value=p255,n31,63", 18), (1, 1), "4:1,1020:8000000000000000,1023:8000000000000000");
    told.add(("value=p255,n31,64", 18), (1, 1), "4:1,1020:8000000000000000,1021:1,1023:8000000000000000");
    let words = "4:1,514:8000000000000000,1020:8000000000000000,1021:1,1023:8000000000000000";
    told.add(("value=p128,n31,191", 19), (1, 1), words);
    let values =
        "value=p1,n31,0\nvalue=p128,n31,191\nvalue=p255,n31,63\nvalue=p255,n31,64\nvalue=p255,n31,255\n";
    told.written(&format!("{declared}{values}"));
    told.done(kit, "length-of-last-holders-and-pairs");
}

fn last_groups(kit: &mut Kit) {
    let named = |head: &str, count: usize| -> String {
        (0..count).map(|number| format!("{head}{number}\n")).collect()
    };
    let groups = named("ugroup=g", 32) + &named("ogroup=h", 32);
    let declared = format!("rights=1\n{groups}{}{}", named("user=u", 95), named("object=t", 96));
    // Again with 10 names of one digit for each key, all others of two.
    let length = FIRST_LINE + 2 * (32 * 9 + 10 + 22 * 2) + (95 * 7 + 10 + 85 * 2) + (96 * 9 + 10 + 86 * 2);
    let mut told = Told::new();
    told.load(&declared, length, "");
    told.add(("member=t95,h31", 15), (0, 2), "");
    told.add(("member=u0,g31", 14), (0, 2), "");
    told.add(("parent=h31,h0", 14), (0, 4), "");
    told.add(("parent=g0,g31", 14), (0, 2), "");
    told.add(("member=t0,h0", 13), (0, 2), "");
    told.add(("member=u94,g0", 14), (0, 2), "");
    let parents = "parent=g0,g31\nparent=h31,h0\n";
    let members = "member=u0,g31\nmember=u94,g0\nmember=t0,h0\nmember=t95,h31\n";
    told.written(&format!("{declared}{parents}{members}"));
    told.take(("member=t95,h31", 15), (0, 1), "");
    told.done(kit, "length-of-last-groups-and-parties");
}

fn equal_states(kit: &mut Kit) {
    kit.says("Two books equal in declarations, ties and rule tokens have texts of one length, whatever led to them.");
    let members = ("member=p17,season\nmember=g2,upper\n", "member=g2,upper\nmember=p17,season\n");
    let values = (
        "value=day,zone,1\nvalue=season,kind,\"season\"\n",
        "value=season,kind,\"season\"\nvalue=day,zone,1\n",
    );
    let declared = DECLARED.replace(members.0, members.1).replace(values.0, values.1);
    let rules = "rule=pass,  user.zone  =object.zone   AND   env.hour<  17  \nrule=pass, user.staff \n";
    let mut told = Told::new();
    told.load(&valley(), VALLEY_BYTES, VALLEY_WORDS);
    told.load(&format!("{declared}{rules}"), VALLEY_BYTES, VALLEY_WORDS);
    told.written(&valley_text());
    told.take(("value=day,zone,1", 17), (3, 5), "4:1,8:b,12:10,16:b,20:10");
    told.add(("value=day,zone,1", 17), (3, 5), VALLEY_WORDS);
    told.load(&valley_text(), VALLEY_BYTES, VALLEY_WORDS);
    told.done(kit, "length-of-two-files-of-one-state");
}

//! Call lists for the writer of document 02, E1: "The file as it stands now".
//! The texts are typed, the long ones by a formula.

use super::list::List;
use super::valley::{valley, valley_text, VALLEY_WORDS};
use super::Kit;

pub fn kit() -> Kit {
    let mut kit = Kit::new("library");
    empty(&mut kit);
    buffers(&mut kit);
    order(&mut kit);
    histories(&mut kit);
    declarations(&mut kit);
    rules(&mut kit);
    rule_lengths(&mut kit);
    loaded_again(&mut kit);
    last_numbers(&mut kit);
    many_ties(&mut kit);
    long_texts(&mut kit);
    kit
}

/// The text of the empty book.
const EMPTY: &str = "rights=1\n";

fn empty(kit: &mut Kit) {
    kit.says("Document 02, E1: \"answers 0 and its length (18 and 0 if refused): the first line, declarations\"; the empty book has the first line alone, 9 bytes. The writer has no table, so it never answers 1.");
    let mut list = List::new();
    list.unwritten(0, 0);
    list.unwritten(8, 0xaa);
    list.write(9, 0xaa, EMPTY);
    list.write(10, 0xaa, EMPTY);
    list.write(12, 0x0a, EMPTY);
    list.done(kit, "write-before-any-load");
    let mut list = List::new();
    list.load(&valley(), VALLEY_WORDS);
    list.words.clear();
    list.refused_load("rights=1\nop=A\n", "load=6,2");
    list.unwritten(8, 0);
    list.write(9, 0, EMPTY);
    list.refused_edit("+parent=season,day", 8);
    list.write(11, 0, EMPTY);
    list.done(kit, "write-after-a-refused-load");
    let mut list = List::new();
    list.load(EMPTY, "");
    list.write(20, 0x3d, EMPTY);
    list.done(kit, "write-the-shortest-file");
    for (name, table, words) in [
        ("write-on-a-table-of-0-words", "0", ""),
        ("write-on-a-table-of-1023-words", "1023,5:5", "5:5"),
        ("write-on-a-table-of-4096-words", "4096,4095:1", "4095:1"),
    ] {
        let mut list = List::on(table, words);
        list.refused_load(&valley(), "load=1,0");
        list.unwritten(8, 0xff);
        list.write(9, 0xff, EMPTY);
        list.done(kit, name);
    }
}

fn buffers(kit: &mut Kit) {
    kit.says("Document 02, E1: \"Bytes of the buffer behind the text keep their content. A refusal leaves the buffer untouched: 18, the writer's only one, when the text is longer than the buffer\"");
    let text = valley_text();
    let length = text.len();
    let mut list = List::new();
    list.load(&valley(), VALLEY_WORDS);
    list.write(length, 0, &text);
    list.write(length, 0xff, &text);
    list.done(kit, "write-valley-file-twice");
    let mut list = List::new();
    list.load(&valley(), VALLEY_WORDS);
    for short in [0, 1, 9, length - 10, length - 1] {
        list.unwritten(short, 0x55);
    }
    list.done(kit, "write-into-too-short-buffers");
    let mut list = List::new();
    list.load(&valley(), VALLEY_WORDS);
    for (longer, byte) in [(0, 0x00), (1, 0x0a), (2, 0x20), (8, 0xff), (300, 0x61)] {
        list.write(length + longer, byte, &text);
    }
    list.done(kit, "write-into-longer-buffers");
    let mut list = List::new();
    list.load(&valley(), VALLEY_WORDS);
    list.write(length, 1, &text);
    list.unwritten(length - 1, 2);
    list.write(length + 3, 3, &text);
    list.done(kit, "write-before-and-after-a-refusal");
    kit.says("A write changes neither book nor table: calls answer after it as before.");
    let mut list = List::new();
    let block = "01040500030000000100040a000000";
    list.load(&valley(), VALLEY_WORDS);
    list.request(block, "try=permit,0");
    list.write(length, 0, &text);
    list.request(block, "try=permit,0");
    list.unwritten(3, 0);
    list.edit("-parent=season,day", (2, 3), "4:5,8:a,12:10,16:a,20:10");
    list.write(length, 0, &text.replace("parent=season,day\n", ""));
    list.request(block, "try=permit,0");
    list.edit("+parent=season,day", (2, 4), VALLEY_WORDS);
    list.write(length, 0, &text);
    list.done(kit, "write-between-other-calls");
}

/// Declarations whose numbers are in another order than names, sources and
/// attributes: pair 0 is of attribute 0, pair 1 of attribute 2. Holders are z 1,
/// m 2, a 3, y 4, b 5, u9 6, u1 7, t2 8, t1 9.
const MIXED_UP: &str = "rights=1
attr=user,b,int
attr=object,k,str
attr=user,a,int
attr=admin,open,bool
op=o
atom=user.b,2
atom=user.a,1
atom=object.k,\"z\"
atom=user.b,1
atom=admin.open,TRUE
atom=object.k,\"a\"
atom=user.a,0
atom=admin.open,FALSE
ugroup=z
ugroup=m
ugroup=a
ogroup=y
ogroup=b
user=u9
user=u1
object=t2
object=t1
";

const PARENTS_AND_MEMBERS: &str = "parent=m,z
parent=a,z
parent=a,m
parent=b,y
member=u9,z
member=u9,m
member=u9,a
member=u1,m
member=t2,y
member=t2,b
member=t1,b
";

const VALUES: &str = "value=admin,open,TRUE
value=admin,open,FALSE
value=z,b,2
value=z,a,0
value=y,k,\"z\"
value=b,k,\"z\"
value=b,k,\"a\"
value=u9,a,1
value=u9,b,1
value=t1,k,\"a\"
";

/// The words with all these ties.
const TIED_WORDS: &str = "0:90,4:41,8:41,12:41,16:4,20:24,24:4b,28:41,32:24,36:24";

fn tied() -> String {
    format!("{MIXED_UP}{PARENTS_AND_MEMBERS}{VALUES}")
}

/// The same ties as `tied` has, in a file that has them in another order.
fn tied_in_disorder() -> String {
    let ties = "parent=b,y\nparent=a,m\nparent=m,z\nparent=a,z\nmember=t1,b\nmember=u9,a\nmember=t2,b\n\
                member=u1,m\nmember=u9,z\nmember=t2,y\nmember=u9,m\nvalue=t1,k,\"a\"\nvalue=u9,b,1\n\
                value=b,k,\"a\"\nvalue=z,a,0\nvalue=admin,open,FALSE\nvalue=u9,a,1\nvalue=y,k,\"z\"\n\
                value=z,b,2\nvalue=b,k,\"z\"\nvalue=admin,open,TRUE\n";
    format!("{MIXED_UP}{ties}")
}

fn order(kit: &mut Kit) {
    kit.says("Document 02, E1: \"then parent, member and value lines, each key sorted by holder number and then by the other's (for a value the pair's) number\", in whatever order a file or edits gave them; not by names, nor by an attribute's number. admin is holder 0.");
    let text = tied();
    let mut list = List::new();
    list.load(&tied_in_disorder(), TIED_WORDS);
    list.write(text.len(), 0, &text);
    list.done(kit, "write-ties-of-a-file-in-order");
    let mut list = List::new();
    list.load(MIXED_UP, "");
    list.write(MIXED_UP.len(), 0, MIXED_UP);
    add_ties_in_disorder(&mut list);
    list.write(text.len(), 0, &text);
    list.done(kit, "write-ties-of-edits-in-order");
    let groups: String = (0..64).map(|number| format!("ugroup=g{}\n", 63 - number)).collect();
    let head = format!("rights=1\n{groups}");
    let mut list = List::new();
    list.load(&head, "");
    for number in (0..63).rev() {
        list.edit(&format!("+parent=g{number},g{}", number + 1), (0, 2), "");
    }
    let chain: String = (0..63).rev().map(|number| format!("parent=g{number},g{}\n", number + 1)).collect();
    let text = head + &chain;
    list.write(text.len(), 0, &text);
    list.done(kit, "write-a-chain-of-64-groups");
    let mut list = List::new();
    list.load("rights=1\nugroup=b\nugroup=a\nogroup=d\nogroup=c\n", "");
    list.edits(&[("+parent=c,d", 2), ("+parent=b,a", 2)]);
    let text = "rights=1\nugroup=b\nugroup=a\nogroup=d\nogroup=c\nparent=b,a\nparent=c,d\n";
    list.write(text.len(), 0, text);
    list.edits(&[("-parent=b,a", 1), ("+parent=a,b", 2)]);
    let text = text.replace("parent=b,a", "parent=a,b");
    list.write(text.len(), 0, &text);
    list.done(kit, "write-a-tie-turned-round");
}

/// All ties of `tied`, added in another order, with a write when parents and
/// members stand.
fn add_ties_in_disorder(list: &mut List) {
    list.edits(&[
        ("+member=t1,b", 2),
        ("+parent=b,y", 4),
        ("+member=u9,a", 2),
        ("+member=u9,m", 3),
        ("+parent=a,m", 5),
        ("+member=t2,b", 2),
        ("+parent=a,z", 6),
        ("+member=u1,m", 2),
        ("+member=t2,y", 3),
        ("+parent=m,z", 10),
        ("+member=u9,z", 4),
    ]);
    let text = format!("{MIXED_UP}{PARENTS_AND_MEMBERS}");
    list.write(text.len() + 1, 0, &text);
    list.edit("+value=t1,k,\"a\"", (1, 2), "36:20");
    list.edit("+value=admin,open,FALSE", (1, 1), "0:80,36:20");
    list.edit("+value=b,k,\"a\"", (2, 7), "0:80,20:20,32:20,36:20");
    list.edit("+value=u9,b,1", (1, 4), "0:80,20:20,24:8,32:20,36:20");
    list.edit("+value=z,a,0", (5, 12), "0:80,4:40,8:40,12:40,20:20,24:48,28:40,32:20,36:20");
    list.edit("+value=y,k,\"z\"", (4, 8), "0:80,4:40,8:40,12:40,16:4,20:24,24:48,28:40,32:24,36:24");
    list.edit("+value=z,b,2", (5, 12), "0:80,4:41,8:41,12:41,16:4,20:24,24:49,28:41,32:24,36:24");
    list.edit("+value=u9,a,1", (1, 4), "0:80,4:41,8:41,12:41,16:4,20:24,24:4b,28:41,32:24,36:24");
    list.edits(&[("+value=b,k,\"z\"", 7)]);
    list.edit("+value=admin,open,TRUE", (1, 1), TIED_WORDS);
}

fn histories(kit: &mut Kit) {
    kit.says("Document 02, E1: \"two books equal in this way, neither refused, write equal bytes\", whatever led to them.");
    let text = tied();
    let mut list = List::new();
    list.load(&text, TIED_WORDS);
    list.edits(&[("-parent=a,z", 6), ("-member=u9,m", 3), ("+parent=a,z", 6), ("+member=u9,m", 4)]);
    list.edit("-value=admin,open,TRUE", (1, 1), &TIED_WORDS.replace("0:90,", "0:80,"));
    let without = text.replace("value=admin,open,TRUE\n", "");
    list.write(text.len(), 0x2b, &without);
    list.edit("+value=admin,open,TRUE", (1, 1), TIED_WORDS);
    list.write(text.len(), 0x2d, &text);
    list.done(kit, "write-ties-taken-and-added-again");
    let mut list = List::new();
    list.load(&text, TIED_WORDS);
    let refused = [
        ("+parent=z,a", 12),
        ("-member=u1,z", 14),
        ("+value=z,a,0", 10),
        ("+value=z,k,\"z\"", 8),
        ("+member=u9,y", 9),
        ("+op=x", 13),
        ("value=m,a,0", 4),
        ("+value=m,a,00", 6),
    ];
    for (line, number) in refused {
        list.refused_edit(line, number);
    }
    list.write(text.len(), 0, &text);
    list.done(kit, "write-after-refused-edits");
    let rules = |first: &str, second: &str| format!("rule=o,{first}\nrule=o,{second}\n");
    let written = tied() + &rules("user.a=1 AND NOT user.b", "user.b IN{1,2}");
    let mut list = List::new();
    let spaced = tied() + &rules("  user.a  =  1  AND  NOT  user.b  ", "user.b IN { 1 , 2 }");
    list.load(&spaced, TIED_WORDS);
    list.write(written.len(), 0, &written);
    let tight = tied_in_disorder() + &rules("user.a=1 AND NOT user.b", "user.b IN{1,2}");
    list.load(&tight, TIED_WORDS);
    list.write(written.len(), 0, &written);
    list.done(kit, "write-two-files-of-one-state");
}

fn declarations(kit: &mut Kit) {
    kit.says("Document 02, E1: \"the first line, declarations in their order up to the holders\": key by key as a file has them, within a key by number.");
    let text = "rights=1\nattr=env,e,int\nattr=user,z,str\nattr=connect,c,bool\nattr=admin,a,int\n\
                attr=object,z,bool\nattr=user,a,bool\nattr=env,a,bool\nattr=object,a,str\nattr=connect,e,int\n\
                attr=user,e,int\nop=z\nop=a\nop=m\natom=user.a,FALSE\natom=object.z,TRUE\natom=user.z,\"z\"\n\
                atom=admin.a,9\natom=user.a,TRUE\natom=user.z,\"a\"\natom=object.a,\"\"\natom=admin.a,0\n\
                ugroup=z\nugroup=c\nogroup=y\nogroup=d\nuser=x\nuser=b\nobject=w\nobject=a\n";
    same(kit, "write-declarations-alone", text, "");
    let text = "rights=1\nattr=user,user,int\nattr=user,0,int\nattr=user,_,int\nattr=user,and,int\n\
                attr=object,z23456789012,int\nop=admin\nop=rights\natom=user.0,0\natom=user._,0\n\
                atom=user.and,1\natom=object.z23456789012,4294967295\nugroup=min_group\nugroup=_\nogroup=0\n\
                user=user\nuser=end\nobject=object\nobject=z23456789012\nparent=_,min_group\nmember=end,_\n\
                value=min_group,and,1\nvalue=user,0,0\nvalue=z23456789012,z23456789012,4294967295\n\
                rule=rights,user.and AND user._ OR NOT user.0\n";
    same(kit, "write-odd-names", text, "4:4,8:4,16:1,20:4,28:8");
    kit.says("Atoms of every type, as atom and value lines write them.");
    let head = "rights=1\nattr=user,n,int\nattr=user,s,str\nattr=user,b,bool\nattr=admin,s,str\n\
                atom=user.n,4294967295\natom=user.n,0\natom=user.s,\"\"\natom=user.s,\" \"\natom=user.s,\"a,b\"\n\
                atom=user.s,\"  two  two \"\natom=user.s,\"\\\"\natom=user.s,\"{}=(),!<>~#'\"\natom=user.b,TRUE\n\
                atom=user.s,\"TRUE\"\natom=user.b,FALSE\natom=user.s,\"1\"\natom=user.n,1\natom=admin.s,\",\"\n\
                user=u\n";
    let values = "value=admin,s,\",\"\nvalue=u,n,4294967295\nvalue=u,n,0\nvalue=u,s,\"\"\nvalue=u,s,\" \"\n\
                  value=u,s,\"a,b\"\nvalue=u,s,\"  two  two \"\nvalue=u,s,\"\\\"\nvalue=u,s,\"{}=(),!<>~#'\"\n\
                  value=u,b,TRUE\nvalue=u,s,\"TRUE\"\nvalue=u,b,FALSE\nvalue=u,s,\"1\"\nvalue=u,n,1\n";
    same(kit, "write-atoms", &format!("{head}{values}"), "0:2000,4:1fff");
    let mut list = List::new();
    list.load(head, "");
    let lines: Vec<&str> = values.lines().collect();
    // The last of the lines is pair 12 of u; the first, of admin, comes last.
    for (place, line) in lines[1..].iter().enumerate().rev() {
        let words = format!("4:{:x}", 0x1fff & !((1 << place) - 1));
        list.edit(&format!("+{line}"), (1, 1), &words);
    }
    list.edit(&format!("+{}", lines[0]), (1, 1), "0:2000,4:1fff");
    let text = format!("{head}{values}");
    list.write(text.len(), 0, &text);
    list.done(kit, "write-atoms-added-last-first");
}

/// A file that is written as it is.
fn same(kit: &mut Kit, name: &str, text: &str, words: &str) {
    let mut list = List::new();
    list.load(text, words);
    list.unwritten(text.len() - 1, 0);
    list.write(text.len() + 1, 0, text);
    list.done(kit, name);
}

/// Attributes and operations for rules.
const FOR_RULES: &str = "rights=1
attr=user,a,int
attr=user,b1,bool
attr=user,s,str
attr=user,in,int
attr=user,0,int
attr=object,a,int
attr=env,e,int
attr=connect,c,bool
attr=admin,n_2,int
op=o
op=p
";

/// Rules as a file has them, each with its written form. What is written is
/// loaded and written again.
fn written(kit: &mut Kit, name: &str, policies: &[(&str, &str)]) {
    let mut file = FOR_RULES.to_string();
    let mut text = FOR_RULES.to_string();
    for (source, written) in policies {
        file += &format!("rule=o,{source}\n");
        text += &format!("rule=o,{written}\n");
    }
    let mut list = List::new();
    list.load(&file, "");
    list.write(text.len(), 0, &text);
    list.load(&text, "");
    list.write(text.len() + 1, 0, &text);
    list.done(kit, name);
}

fn rules(kit: &mut Kit) {
    kit.says("Document 02, E1: \"Rules keep their tokens; one space stands only between two neighbouring words\". Words are document 01's runs of letters, digits, `_` and `.`: names, integers and words in capitals.");
    written(
        kit,
        "write-rules-of-words",
        &[
            ("NOT user.b1", "NOT user.b1"),
            ("NOT  UNDEF  OR  FALSE", "NOT UNDEF OR FALSE"),
            ("user.b1 AND TRUE", "user.b1 AND TRUE"),
            ("1 IN 1", "1 IN 1"),
            ("user.a   IN user.a", "user.a IN user.a"),
            ("user.a SUBSET   10 AND connect.c", "user.a SUBSET 10 AND connect.c"),
            ("user.in IN user.0 AND NOT user.0", "user.in IN user.0 AND NOT user.0"),
            ("0 IN env.e OR admin.n_2 SUBSET object.a", "0 IN env.e OR admin.n_2 SUBSET object.a"),
            ("FALSE AND TRUE OR TRUE", "FALSE AND TRUE OR TRUE"),
        ],
    );
    kit.says(
        "No space beside operators of signs, braces, commas and parentheses, nor at a policy's start or end.",
    );
    written(
        kit,
        "write-rules-of-signs",
        &[
            ("user.a = 1", "user.a=1"),
            ("user.a  !=  2", "user.a!=2"),
            ("user.a <3", "user.a<3"),
            ("4 <= user.a", "4<=user.a"),
            ("user.a> 5", "user.a>5"),
            ("user.a >= 4294967295", "user.a>=4294967295"),
            ("1<2 AND 1 <= 2 AND 1 = 2 OR 1 > 2", "1<2 AND 1<=2 AND 1=2 OR 1>2"),
            ("user.a=object.a", "user.a=object.a"),
        ],
    );
    written(
        kit,
        "write-rules-of-sets",
        &[
            ("1 IN {1, 2}", "1 IN{1,2}"),
            ("1 = {1}", "1={1}"),
            ("{1} = 1", "{1}=1"),
            ("{1} = {1}", "{1}={1}"),
            ("1 = 1", "1=1"),
            ("{ 2 , 1 , 2 } SUBSET { 0 , 4294967295 }", "{2,1,2}SUBSET{0,4294967295}"),
            ("{1,2,3,4,5,6,7,8} IN user.a", "{1,2,3,4,5,6,7,8}IN user.a"),
            ("user.a IN {1} AND {1} < user.a OR {1} IN {1}", "user.a IN{1}AND{1}<user.a OR{1}IN{1}"),
        ],
    );
    written(
        kit,
        "write-rules-of-parentheses",
        &[
            ("( TRUE )", "(TRUE)"),
            ("NOT ( user.b1 )", "NOT(user.b1)"),
            ("NOT (NOT TRUE)", "NOT(NOT TRUE)"),
            ("((TRUE) OR FALSE) AND UNDEF", "((TRUE)OR FALSE)AND UNDEF"),
            ("(TRUE)AND(TRUE)", "(TRUE)AND(TRUE)"),
            ("( ( ( ( ( ( ( ( 1 = 1 ) ) ) ) ) ) ) )", "((((((((1=1))))))))"),
            ("TRUE AND (FALSE OR (UNDEF AND NOT (user.b1)))", "TRUE AND(FALSE OR(UNDEF AND NOT(user.b1)))"),
            ("(user.a = 1 OR user.a = 2) AND (user.s = \"a\")", "(user.a=1 OR user.a=2)AND(user.s=\"a\")"),
            ("(1 IN {1})OR NOT(1 IN 1)", "(1 IN{1})OR NOT(1 IN 1)"),
        ],
    );
    written(
        kit,
        "write-rules-with-spaces-around",
        &[
            ("   TRUE", "TRUE"),
            ("user.b1   ", "user.b1"),
            ("  user.a   =   1  ", "user.a=1"),
            (" ( ( NOT   ( connect.c ) ) ) ", "((NOT(connect.c)))"),
            (" \"a\" = \"a\" ", "\"a\"=\"a\""),
            ("  {1}={1}  ", "{1}={1}"),
        ],
    );
    kit.says("A string is no word, so no space stands before or behind it; spaces inside it are its own.");
    written(
        kit,
        "write-rules-of-strings",
        &[
            ("\"a\" IN {\"a\", \"b\"}", "\"a\"IN{\"a\",\"b\"}"),
            ("user.s = \"a\" AND user.s IN \"b\"", "user.s=\"a\"AND user.s IN\"b\""),
            ("1 = 1 OR \"x\" SUBSET { \"x\" } OR TRUE", "1=1 OR\"x\"SUBSET{\"x\"}OR TRUE"),
            ("\"\" != \" \"", "\"\"!=\" \""),
            ("\"a  b\"  =  \" , \"", "\"a  b\"=\" , \""),
            ("\"NOT user.b1\" = \"AND\" AND TRUE", "\"NOT user.b1\"=\"AND\"AND TRUE"),
            ("\"(\" = \"{}\" OR \"\\\" >= \"<=\"", "\"(\"=\"{}\"OR\"\\\">=\"<=\""),
            ("{\"\"} = {\"\", \" \", \"twelve bytes\"}", "{\"\"}={\"\",\" \",\"twelve bytes\"}"),
            ("user.a = \"1\" OR user.s = 1", "user.a=\"1\"OR user.s=1"),
            ("\"a\" IN \"b\" AND \"a\" SUBSET user.s", "\"a\"IN\"b\"AND\"a\"SUBSET user.s"),
            ("NOT (\"a\" IN user.s) AND {\"a\"} IN \"a\"", "NOT(\"a\"IN user.s)AND{\"a\"}IN\"a\""),
        ],
    );
    kit.says("Document 02, E1: \"then the rules in their order\", repeats too.");
    let rules = "rule=p,TRUE\nrule=o,FALSE\nrule=p,TRUE\nrule=p,TRUE\nrule=o,UNDEF\nrule=o,1=1\n";
    same(kit, "write-rules-in-their-order", &format!("{FOR_RULES}{rules}"), "");
    let all: String =
        (0..32).map(|number| format!("rule={},{number}=31\n", ["o", "p"][number % 2])).collect();
    same(kit, "write-32-rules", &format!("{FOR_RULES}{all}"), "");
}

fn rule_lengths(kit: &mut Kit) {
    kit.says(
        "A written line is never longer than the one that was read: \"Lines ... have at most 255 bytes\".",
    );
    // Eight terms of 29 bytes, joined by five OR and two AND: 248 bytes behind `rule=o,`.
    let term = "\"twelve bytes\"=\"twelve bytes\"";
    let tight = [[term; 3].join("OR"), [term; 2].join("OR"), [term; 3].join("OR")].join("AND");
    written(kit, "write-a-rule-of-255-bytes", &[(&tight, &tight)]);
    let spaced = format!("{:248}", "user.b1");
    written(kit, "write-a-rule-of-255-bytes-mostly-spaces", &[(&spaced, "user.b1")]);
    let between = format!("1{}={}1", " ".repeat(122), " ".repeat(123));
    written(kit, "write-a-rule-of-255-bytes-with-spaces-between", &[(&between, "1=1")]);
    // Sixteen terms of one word, joined by words: spaces everywhere.
    let words = ["TRUE"; 16].join(" AND ");
    let loose = ["TRUE"; 16].join("  AND  ");
    written(kit, "write-a-rule-of-16-terms", &[(&words, &words), (&loose, &words)]);
}

fn loaded_again(kit: &mut Kit) {
    kit.says("Document 02, E1: \"loading the result on a table of the right length gives a book equal in declarations, ties and rule tokens, and the table words that belong to these ties\"; written again, it is the same.");
    let mut list = List::new();
    list.load(&valley(), VALLEY_WORDS);
    let words = "4:5,8:a,12:10,16:a,20:10";
    list.edit("-parent=season,day", (2, 3), words);
    list.edit("+value=g2,zone,2", (0, 2), words);
    let text = valley_text()
        .replace("parent=season,day\n", "")
        .replace("value=upper,zone,2\n", "value=upper,zone,2\nvalue=g2,zone,2\n");
    list.write(text.len(), 0, &text);
    list.load(&text, words);
    list.write(text.len(), 0xff, &text);
    list.edit("+parent=season,day", (2, 4), VALLEY_WORDS);
    list.edit("-value=upper,zone,2", (1, 3), "4:5,8:f,16:f,20:10");
    let text =
        text.replace("value=upper,zone,2\n", "").replace("member=p17", "parent=season,day\nmember=p17");
    list.write(text.len(), 0, &text);
    list.load(&text, "4:5,8:f,16:f,20:10");
    list.write(text.len() + 7, 0x0d, &text);
    list.done(kit, "write-load-and-write-again");
    let mut list = List::new();
    let text = tied();
    list.load(&tied_in_disorder(), TIED_WORDS);
    list.write(text.len(), 0, &text);
    list.load(&text, TIED_WORDS);
    list.write(text.len(), 0, &text);
    list.edit("-value=b,k,\"z\"", (0, 7), TIED_WORDS);
    list.edit("-value=y,k,\"z\"", (4, 8), "0:90,4:41,8:41,12:41,20:20,24:4b,28:41,32:20,36:20");
    let text = text.replace("value=y,k,\"z\"\nvalue=b,k,\"z\"\n", "");
    list.write(text.len(), 0, &text);
    list.done(kit, "write-load-edit-and-write-again");
}

fn last_numbers(kit: &mut Kit) {
    kit.says("Holders and pairs to the last number.");
    let pairs: String = (0..256).map(|value| format!("atom=user.n,{}\n", 255 - value)).collect();
    let users: String = (1..255).map(|number| format!("user=p{}\n", 255 - number)).collect();
    let head = format!("rights=1\nattr=user,n,int\n{pairs}ugroup=g\n{users}");
    let mut list = List::new();
    list.load(&head, "");
    // p1 is holder 255, p254 holder 2; the value 0 is pair 255, 255 pair 0.
    list.edit("+value=p1,n,0", (1, 1), "1023:8000000000000000");
    list.edit("+value=p1,n,255", (1, 1), "1020:1,1023:8000000000000000");
    list.edit("+value=p254,n,192", (1, 1), "8:8000000000000000,1020:1,1023:8000000000000000");
    list.edit("+value=p254,n,191", (1, 1), "8:8000000000000000,9:1,1020:1,1023:8000000000000000");
    list.edits(&[("+member=p1,g", 2), ("+member=p254,g", 2)]);
    let ties =
        "member=p254,g\nmember=p1,g\nvalue=p254,n,192\nvalue=p254,n,191\nvalue=p1,n,255\nvalue=p1,n,0\n";
    let text = format!("{head}{ties}");
    list.write(text.len(), 0, &text);
    list.done(kit, "write-last-holders-and-pairs");
}

fn many_ties(kit: &mut Kit) {
    kit.says("As many ties of a key as there can be, or of one holder; the file has them last first.");
    let groups: String = (0..64).map(|number| format!("ugroup=g{number}\n")).collect();
    let below = |child: usize| (0..child).map(move |parent| format!("parent=g{child},g{parent}\n"));
    let parents: Vec<String> = (0..64).flat_map(below).collect();
    last_first(kit, "write-all-parents", &format!("rights=1\n{groups}"), &parents, "");
    let members: Vec<String> = (0..64).map(|number| format!("member=u,g{number}\n")).collect();
    last_first(kit, "write-a-user-of-64-groups", &format!("rights=1\n{groups}user=u\n"), &members, "");
    let users: String = (0..254).map(|number| format!("user=u{}\n", number * 7 % 254)).collect();
    let ties = (0..254).map(|number| format!("member=u{},g\n", number * 7 % 254));
    let head = format!("rights=1\nugroup=g\n{users}");
    last_first(kit, "write-a-group-of-254-users", &head, &ties.collect::<Vec<String>>(), "");
    // 77 has no divisor in common with 256, so each value is met once.
    let values = |number: usize| number * 77 % 256;
    let pairs: String = (0..256).map(|number| format!("atom=object.n,{}\n", values(number))).collect();
    let ties = (0..256).map(|number| format!("value=t,n,{}\n", values(number)));
    let head = format!("rights=1\nattr=object,n,int\n{pairs}object=t\n");
    let all = "ffffffffffffffff";
    let words = format!("4:{all},5:{all},6:{all},7:{all}");
    last_first(kit, "write-an-object-of-256-pairs", &head, &ties.collect::<Vec<String>>(), &words);
}

/// A file with its ties in the other order than they are written in.
fn last_first(kit: &mut Kit, name: &str, head: &str, ties: &[String], words: &str) {
    let turned: String = ties.iter().rev().map(String::as_str).collect();
    let text = head.to_string() + &ties.concat();
    let mut list = List::new();
    list.load(&(head.to_string() + &turned), words);
    list.write(text.len(), 0, &text);
    list.done(kit, name);
}

/// A state whose text has a length that can be told: 40 users, 40 pairs, value
/// ties of 47 bytes each and one rule.
struct LongState {
    /// User and pair, sorted.
    ties: Vec<(usize, usize)>,
    /// Bytes in the strings of the rule.
    filler: usize,
}

/// With that many ties and 18 bytes in the rule the text has 32,768 bytes.
const FITTING_TIES: usize = 648;
const FITTING_FILLER: usize = 18;

impl LongState {
    fn new(ties: usize, filler: usize) -> LongState {
        let ties = (0..ties).map(|place| (place / 20, 2 * (place % 20))).collect();
        LongState { ties, filler }
    }

    fn tie_line((user, pair): (usize, usize)) -> String {
        format!("value=visitor_{user:04},privilege_no,\"value_{pair:06}\"")
    }

    fn text(&self) -> String {
        let pairs = (0..40).map(|pair| format!("atom=user.privilege_no,\"value_{pair:06}\"\n"));
        let users = (0..40).map(|user| format!("user=visitor_{user:04}\n"));
        let ties = self.ties.iter().map(|tie| LongState::tie_line(*tie) + "\n");
        let lines: String = pairs.chain(users).chain(ties).collect();
        let rule = format!("rule=a,\"{}\"=\"{}\"\n", "l".repeat(12), "r".repeat(self.filler - 12));
        format!("rights=1\nattr=user,privilege_no,str\nop=a\n{lines}{rule}")
    }

    /// Users are holders 1 to 40, and nobody inherits anything.
    fn words(&self) -> String {
        let mut words = [0_u64; 40];
        for (user, pair) in &self.ties {
            words[*user] |= 1 << pair;
        }
        let some = words.iter().enumerate().filter(|(_, word)| **word != 0);
        let shown: Vec<String> = some.map(|(user, word)| format!("{}:{word:x}", 4 * (user + 1))).collect();
        shown.join(",")
    }

    fn load(&self, list: &mut List) {
        list.load(&self.text(), &self.words());
    }

    fn add(&mut self, list: &mut List, tie: (usize, usize)) {
        self.ties.push(tie);
        self.ties.sort();
        list.edit(&format!("+{}", LongState::tie_line(tie)), (1, 1), &self.words());
    }

    fn take(&mut self, list: &mut List, tie: (usize, usize)) {
        self.ties.retain(|one| *one != tie);
        list.edit(&format!("-{}", LongState::tie_line(tie)), (1, 1), &self.words());
    }
}

fn long_texts(kit: &mut Kit) {
    kit.says("Document 02, E1: 18 \"when the text is longer than the buffer or than 32,768 bytes\", which edits alone can bring about.");
    let fitting = || {
        let mut list = List::new();
        let mut state = LongState::new(FITTING_TIES - 1, FITTING_FILLER);
        state.load(&mut list);
        state.add(&mut list, (5, 7));
        assert_eq!(state.text().len(), 32_768);
        (list, state)
    };
    let (mut list, state) = fitting();
    list.write(32_768, 0, &state.text());
    list.done(kit, "write-32768-bytes");
    let (mut list, _) = fitting();
    list.unwritten(32_767, 0x77);
    list.done(kit, "write-32768-bytes-into-32767");
    let (mut list, mut state) = fitting();
    state.add(&mut list, (39, 39));
    list.unwritten(100, 0x77);
    state.take(&mut list, (39, 39));
    list.write(32_769, 0x77, &state.text());
    list.done(kit, "write-32768-bytes-after-more-were-too-many");
    let mut list = List::new();
    let state = LongState::new(FITTING_TIES, FITTING_FILLER);
    state.load(&mut list);
    list.write(32_800, 0xfe, &state.text());
    list.done(kit, "write-the-longest-file-again");
    let mut list = List::new();
    let mut state = LongState::new(FITTING_TIES - 1, FITTING_FILLER + 1);
    state.load(&mut list);
    state.add(&mut list, (0, 1));
    assert_eq!(state.text().len(), 32_769);
    list.unwritten(32_769, 0x77);
    list.done(kit, "write-32769-bytes");
    let mut list = List::new();
    let mut state = LongState::new(FITTING_TIES, FITTING_FILLER);
    state.load(&mut list);
    for pair in (0..40).rev() {
        state.add(&mut list, (36, pair));
    }
    list.unwritten(36_000, 0x77);
    list.done(kit, "write-far-more-than-32768-bytes");
}

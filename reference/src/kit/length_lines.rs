//! Call lists for document 02, E14, about the lines of a text one by one.

use super::told::{bytes, file, Counted, Told};
use super::Kit;

pub fn add(kit: &mut Kit) {
    declarations(kit);
    atoms(kit);
    values(kit);
    words_and_signs(kit);
    sets_and_parentheses(kit);
    strings(kit);
    rule_lengths(kit);
}

pub const HOLDERS: [Counted; 10] = [
    ("ugroup=a", 9),
    ("ugroup=bc", 10),
    ("ugroup=twelve_bytes", 20),
    ("ugroup=other_groups", 20),
    ("ogroup=d", 9),
    ("ogroup=lower_slopes", 20),
    ("user=u", 7),
    ("user=season_guest", 18),
    ("object=t", 9),
    ("object=turnstile_01", 20),
];

/// Each of these lines alone behind some others, then all in one file, which is
/// written as it is.
fn each_line(kit: &mut Kit, name: &str, before: &[Counted], lines: &[Counted]) {
    let mut told = Told::new();
    for line in lines {
        told.load_lines(&[before, &[*line]].concat());
    }
    let all = [before, lines].concat();
    told.load_lines(&all);
    told.written(&file(&all));
    told.done(kit, name);
}

const ATTRIBUTES: [Counted; 15] = [
    ("attr=user,i,int", 16),
    ("attr=user,s,str", 16),
    ("attr=user,b,bool", 17),
    ("attr=object,i,int", 18),
    ("attr=object,s,str", 18),
    ("attr=object,b,bool", 19),
    ("attr=admin,i,int", 17),
    ("attr=admin,s,str", 17),
    ("attr=admin,b,bool", 18),
    ("attr=env,i,int", 15),
    ("attr=env,b,bool", 16),
    ("attr=connect,i,int", 19),
    ("attr=connect,b,bool", 20),
    ("attr=user,privilege_no,str", 27),
    ("attr=connect,twelve_bytes,bool", 31),
];

const OPERATIONS: [Counted; 8] = [
    ("op=o", 5),
    ("op=up", 6),
    ("op=twelve_bytes", 16),
    ("op=3", 5),
    ("op=pass", 8),
    ("op=_", 5),
    ("op=chair_lift_8", 16),
    ("op=ride", 8),
];

fn declarations(kit: &mut Kit) {
    kit.says("The lines of each key, with names of 1 to 12 bytes: key, `=`, fields, the commas between them and byte 10. admin has no line.");
    each_line(kit, "length-of-attr-lines", &[], &ATTRIBUTES);
    each_line(kit, "length-of-op-lines", &[], &OPERATIONS);
    each_line(kit, "length-of-holder-lines", &[], &HOLDERS);
}

/// Attributes for the atoms below, and their holders.
const TYPES: [Counted; 5] = [
    ("attr=user,n,int", 16),
    ("attr=user,s,str", 16),
    ("attr=user,b,bool", 17),
    ("attr=object,k,int", 18),
    ("attr=admin,privilege_no,str", 28),
];
const TWO_HOLDERS: [Counted; 2] = [("user=u", 7), ("object=t", 9)];

const ATOMS: [Counted; 29] = [
    ("atom=user.n,0", 14),
    ("atom=user.n,9", 14),
    ("atom=user.n,10", 15),
    ("atom=user.n,99", 15),
    ("atom=user.n,100", 16),
    ("atom=user.n,999", 16),
    ("atom=user.n,1000", 17),
    ("atom=user.n,9999", 17),
    ("atom=user.n,10000", 18),
    ("atom=user.n,99999", 18),
    ("atom=user.n,100000", 19),
    ("atom=user.n,999999", 19),
    ("atom=user.n,1000000", 20),
    ("atom=user.n,9999999", 20),
    ("atom=user.n,10000000", 21),
    ("atom=user.n,99999999", 21),
    ("atom=user.n,100000000", 22),
    ("atom=user.n,999999999", 22),
    ("atom=user.n,1000000000", 23),
    ("atom=user.n,4294967295", 23),
    ("atom=user.s,\"\"", 15),
    ("atom=user.s,\" \"", 16),
    ("atom=user.s,\"a,b\"", 18),
    ("atom=user.s,\"TRUE\"", 19),
    ("atom=user.s,\"twelve bytes\"", 27),
    ("atom=user.b,TRUE", 17),
    ("atom=user.b,FALSE", 18),
    ("atom=object.k,7", 16),
    ("atom=admin.privilege_no,\"twelve bytes\"", 39),
];

fn atoms(kit: &mut Kit) {
    kit.says("Atoms in atom lines: integers of 1 to 10 digits, strings of 0 to 12 bytes and their quotes, TRUE and FALSE.");
    each_line(kit, "length-of-atom-lines", &TYPES, &ATOMS);
}

/// The pairs of these atoms, 0 to 26, given to u.
const VALUES_OF_U: [Counted; 27] = [
    ("value=u,n,0", 12),
    ("value=u,n,9", 12),
    ("value=u,n,10", 13),
    ("value=u,n,99", 13),
    ("value=u,n,100", 14),
    ("value=u,n,999", 14),
    ("value=u,n,1000", 15),
    ("value=u,n,9999", 15),
    ("value=u,n,10000", 16),
    ("value=u,n,99999", 16),
    ("value=u,n,100000", 17),
    ("value=u,n,999999", 17),
    ("value=u,n,1000000", 18),
    ("value=u,n,9999999", 18),
    ("value=u,n,10000000", 19),
    ("value=u,n,99999999", 19),
    ("value=u,n,100000000", 20),
    ("value=u,n,999999999", 20),
    ("value=u,n,1000000000", 21),
    ("value=u,n,4294967295", 21),
    ("value=u,s,\"\"", 13),
    ("value=u,s,\" \"", 14),
    ("value=u,s,\"a,b\"", 16),
    ("value=u,s,\"TRUE\"", 17),
    ("value=u,s,\"twelve bytes\"", 25),
    ("value=u,b,TRUE", 15),
    ("value=u,b,FALSE", 16),
];
const VALUE_OF_T: Counted = ("value=t,k,7", 12);
const VALUE_OF_ADMIN: Counted = ("value=admin,privilege_no,\"twelve bytes\"", 40);

fn values(kit: &mut Kit) {
    kit.says("The same atoms in value lines, of a user, an object and admin; with the longest names and string a line has 47 bytes.");
    let declared = [&TYPES[..], &ATOMS, &TWO_HOLDERS].concat();
    let mut told = Told::new();
    told.load_lines(&declared);
    // u is holder 1: its pairs are the bits of word 4, from the lowest on.
    for (pair, line) in VALUES_OF_U.into_iter().enumerate() {
        told.add(line, (1, 1), &format!("4:{:x}", (2 << pair) - 1));
    }
    told.add(VALUE_OF_T, (1, 1), "4:7ffffff,8:8000000");
    told.add(VALUE_OF_ADMIN, (1, 1), "0:10000000,4:7ffffff,8:8000000");
    told.written(&file(&[&declared[..], &[VALUE_OF_ADMIN], &VALUES_OF_U, &[VALUE_OF_T]].concat()));
    told.take(VALUE_OF_T, (1, 1), "0:10000000,4:7ffffff");
    for (pair, line) in VALUES_OF_U.into_iter().enumerate().rev() {
        let left = format!("0:10000000,4:{:x}", (1 << pair) - 1);
        told.take(line, (1, 1), left.trim_end_matches(",4:0"));
    }
    told.take(VALUE_OF_ADMIN, (1, 1), "");
    told.written(&file(&declared));
    told.done(kit, "length-of-value-lines");
    let long = [
        ("attr=user,privilege_no,str", 27),
        ("atom=user.privilege_no,\"twelve bytes\"", 38),
        ("ugroup=twelve_bytes", 20),
        ("user=season_guest", 18),
    ];
    let given = ("value=season_guest,privilege_no,\"twelve bytes\"", 47);
    let inherited = ("value=twelve_bytes,privilege_no,\"twelve bytes\"", 47);
    let member = ("member=season_guest,twelve_bytes", 33);
    let mut told = Told::new();
    told.load_lines(&long);
    told.add(given, (1, 1), "8:1");
    told.add(member, (0, 2), "8:1");
    told.add(inherited, (1, 3), "4:1,8:1");
    told.written(&file(&[&long[..], &[member, inherited, given]].concat()));
    told.take(given, (0, 2), "4:1,8:1");
    told.done(kit, "length-of-the-longest-tie-lines");
}

const FOR_RULES: [Counted; 6] = [
    ("attr=user,a,int", 16),
    ("attr=user,b,bool", 17),
    ("attr=user,s,str", 16),
    ("attr=env,hour,int", 18),
    ("op=o", 5),
    ("op=twelve_bytes", 16),
];

/// `rule=o,` and the byte 10.
const AROUND_POLICY: usize = 8;

/// Policies as a file has them, as they are written, and the bytes of that: each
/// in a file of its own, then all in one.
fn policies(kit: &mut Kit, name: &str, policies: &[(&str, &str, usize)]) {
    let mut told = Told::new();
    let declared = file(&FOR_RULES);
    let (mut all, mut text) = (declared.clone(), declared.clone());
    let mut length = bytes(&FOR_RULES);
    for (source, written, bytes_of_policy) in policies {
        let line = AROUND_POLICY + bytes_of_policy;
        told.load(&format!("{declared}rule=o,{source}\n"), bytes(&FOR_RULES) + line, "");
        all += &format!("rule=o,{source}\n");
        text += &format!("rule=o,{written}\n");
        length += line;
    }
    told.load(&all, length, "");
    told.written(&text);
    told.load(&text, length, "");
    told.done(kit, name);
}

fn words_and_signs(kit: &mut Kit) {
    kit.says("Document 02, E1: \"one space stands only between two neighbouring words\": such a space is counted, all others that a file has are not.");
    policies(
        kit,
        "length-of-rules-of-words",
        &[
            ("TRUE", "TRUE", 4),
            ("   FALSE   ", "FALSE", 5),
            ("UNDEF", "UNDEF", 5),
            ("NOT user.b", "NOT user.b", 10),
            ("NOT     user.b", "NOT user.b", 10),
            ("user.b  AND  TRUE", "user.b AND TRUE", 15),
            ("NOT UNDEF OR FALSE", "NOT UNDEF OR FALSE", 18),
            ("1 IN 1", "1 IN 1", 6),
            ("user.a   SUBSET   env.hour", "user.a SUBSET env.hour", 22),
        ],
    );
    policies(
        kit,
        "length-of-rules-of-signs",
        &[
            ("user.a=1", "user.a=1", 8),
            ("user.a = 1", "user.a=1", 8),
            ("  user.a   !=   10  ", "user.a!=10", 10),
            ("4294967295 >= user.a", "4294967295>=user.a", 18),
            ("0<user.a", "0<user.a", 8),
            ("1 < 2 AND 2 <= 3 OR 3 > 3", "1<2 AND 2<=3 OR 3>3", 19),
        ],
    );
}

fn sets_and_parentheses(kit: &mut Kit) {
    kit.says("No space stands beside braces, commas and parentheses, so none is counted there.");
    policies(
        kit,
        "length-of-rules-of-sets",
        &[
            ("1 = 1", "1=1", 3),
            ("1 = {1}", "1={1}", 5),
            ("{ 1 , 2 }  SUBSET  { 3 }", "{1,2}SUBSET{3}", 14),
            ("user.a IN {1, 20, 300}", "user.a IN{1,20,300}", 19),
            ("{1} IN user.a AND TRUE", "{1}IN user.a AND TRUE", 21),
            ("{1,1,1,1,1,1,1,1} = 1", "{1,1,1,1,1,1,1,1}=1", 19),
            ("{\"\", \"a\"} = {\"twelve bytes\"}", "{\"\",\"a\"}={\"twelve bytes\"}", 25),
        ],
    );
    policies(
        kit,
        "length-of-rules-of-parentheses",
        &[
            ("( TRUE )", "(TRUE)", 6),
            ("NOT ( user.b )", "NOT(user.b)", 11),
            ("( TRUE ) AND ( FALSE )", "(TRUE)AND(FALSE)", 16),
            ("((((((((user.b))))))))", "((((((((user.b))))))))", 22),
            ("TRUE OR (NOT (UNDEF))", "TRUE OR(NOT(UNDEF))", 19),
            ("(1 IN {1})OR NOT (NOT  TRUE)", "(1 IN{1})OR NOT(NOT TRUE)", 25),
        ],
    );
}

fn strings(kit: &mut Kit) {
    kit.says("A string is no word, so no space beside it is counted; those inside it are.");
    policies(
        kit,
        "length-of-rules-of-strings",
        &[
            ("\"a\" IN \"b\"", "\"a\"IN\"b\"", 8),
            ("\"\" != \" \"", "\"\"!=\" \"", 7),
            ("\"a  b\" = user.s", "\"a  b\"=user.s", 13),
            ("user.s IN \"twelve bytes\" AND TRUE", "user.s IN\"twelve bytes\"AND TRUE", 31),
            ("1 = 1 OR \"x\" SUBSET {\"x\"} OR TRUE", "1=1 OR\"x\"SUBSET{\"x\"}OR TRUE", 27),
            ("\"NOT user.b\"  =  \"AND  OR\"", "\"NOT user.b\"=\"AND  OR\"", 22),
        ],
    );
}

fn rule_lengths(kit: &mut Kit) {
    kit.says("Rule lines of 255 bytes, as long as a line can be, and 32 rules, as many as there can be; a repeat is counted again.");
    // Eight terms of 29 bytes, joined by five OR and two AND: 232, 10 and 6 bytes.
    let term = "\"twelve bytes\"=\"twelve bytes\"";
    let tight = [[term; 3].join("OR"), [term; 2].join("OR"), [term; 3].join("OR")].join("AND");
    let loose = format!("{:248}", "user.b");
    let between = format!("1{}={}1", " ".repeat(122), " ".repeat(123));
    // Sixteen words of 4 bytes, and 15 of 3 with a space on each side.
    let words = ["TRUE"; 16].join(" AND ");
    policies(
        kit,
        "length-of-rules-of-255-bytes",
        &[
            (&tight, &tight, 248),
            (&loose, "user.b", 6),
            (&between, "1=1", 3),
            (&["TRUE"; 16].join("  AND  "), &words, 139),
        ],
    );
    let repeated = [&FOR_RULES[..], &[("rule=o,TRUE", 12); 31], &[("rule=twelve_bytes,TRUE", 23)]].concat();
    let mut told = Told::new();
    told.load_lines(&repeated);
    told.written(&file(&repeated));
    told.done(kit, "length-of-32-rules");
}

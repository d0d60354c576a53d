//! Vectors for document 02, E2: the cause of an UNDEF in one rule. What is typed
//! is the rule's truth: T, F, and for UNDEF its cause, A absent or U unlike.

use super::Kit;

/// Attributes of every source and type, with these values for the block: user.n
/// {1,5}, user.s {"a"}, user.b {TRUE}, object.n {5}, object.s {"a"}, object.b
/// {FALSE}, admin.n {9}, admin.s {"k"}, admin.b {TRUE}, env.n {10}, env.b
/// {FALSE}, connect.n {8}, connect.b {TRUE}. Those that begin with no_ have none:
/// pairs are declared, but others hold them. user.idle has 7 and is not activated.
const BOOK: &str = "rights=1
attr=user,n,int
attr=user,s,str
attr=user,b,bool
attr=user,idle,int
attr=user,no_n,int
attr=user,no_s,str
attr=user,no_b,bool
attr=object,n,int
attr=object,s,str
attr=object,b,bool
attr=object,no_n,int
attr=object,no_s,str
attr=object,no_b,bool
attr=admin,n,int
attr=admin,s,str
attr=admin,b,bool
attr=admin,no_n,int
attr=admin,no_s,str
attr=admin,no_b,bool
attr=env,n,int
attr=env,b,bool
attr=env,no_n,int
attr=env,no_b,bool
attr=connect,n,int
attr=connect,b,bool
attr=connect,no_n,int
attr=connect,no_b,bool
op=o0
op=o1
op=o2
op=o3
op=o4
op=o5
op=o6
op=o7
atom=user.n,1
atom=user.n,5
atom=user.s,\"a\"
atom=user.b,TRUE
atom=user.idle,7
atom=user.no_n,1
atom=user.no_s,\"a\"
atom=user.no_b,TRUE
atom=object.n,5
atom=object.s,\"a\"
atom=object.b,FALSE
atom=object.no_n,5
atom=admin.n,9
atom=admin.s,\"k\"
atom=admin.b,TRUE
atom=admin.no_b,TRUE
user=u
user=v
object=t
object=w
value=u,n,1
value=u,n,5
value=u,s,\"a\"
value=u,b,TRUE
value=u,idle,7
value=v,no_n,1
value=v,no_s,\"a\"
value=v,no_b,TRUE
value=t,n,5
value=t,s,\"a\"
value=t,b,FALSE
value=w,no_n,5
value=admin,n,9
value=admin,s,\"k\"
value=admin,b,TRUE
";

/// Mask 7; entries env.n 10, env.b 0, connect.n 8, connect.b 1.
fn asking(operation: usize) -> String {
    format!("try=010103{operation:02x}070000000400130a000000140000000017080000001801000000\n")
}

pub fn kit() -> Kit {
    let mut kit = Kit::new("policies");
    operands(&mut kit);
    unlike(&mut kit);
    orders(&mut kit);
    lone(&mut kit);
    sources(&mut kit);
    constant(&mut kit);
    tables(&mut kit);
    three(&mut kit);
    nested(&mut kit);
    swallowed(&mut kit);
    limits(&mut kit);
    kit
}

fn answer(outcome: char) -> &'static str {
    match outcome {
        'T' => "permit",
        'F' => "deny",
        'A' => "undefined,absent",
        'U' => "undefined,unlike",
        other => panic!("{other} is no outcome"),
    }
}

/// One rule for each operation, each asked in turn: what rule number k comes to is
/// letter k of `outcomes`.
fn asked(kit: &mut Kit, name: &str, policies: &[String], outcomes: &str) {
    assert_eq!(policies.len(), outcomes.len(), "{name}");
    let mut rules = String::new();
    let mut tries = String::new();
    let mut answers = format!("load=0,{}", BOOK.lines().count() + policies.len());
    for (number, (policy, outcome)) in policies.iter().zip(outcomes.chars()).enumerate() {
        rules += &format!("rule=o{number},{policy}\n");
        tries += &asking(number);
        let rule = if outcome == 'T' { format!(",{number}") } else { String::new() };
        answers += &format!(" try={}{rule}", answer(outcome));
    }
    kit.case(name, format!("{BOOK}{rules}end=\n{tries}"), &answers);
}

/// A rule with parts of which the truth is known: `a` a comparison with a lacking
/// side, `l` a lone attribute that lacks values, `u` a comparison of unlike types,
/// `n` a lone integer, `c` the constant UNDEF, `t` TRUE and `f` FALSE.
pub fn parts(template: &str) -> String {
    let part = |letter: char| match letter {
        'a' => "user.no_n=1".to_string(),
        'l' => "env.no_b".to_string(),
        'u' => "user.s=1".to_string(),
        'n' => "user.n".to_string(),
        'c' => "UNDEF".to_string(),
        't' => "TRUE".to_string(),
        'f' => "FALSE".to_string(),
        other => other.to_string(),
    };
    template.chars().map(part).collect()
}

fn each(kit: &mut Kit, cases: &[(&str, &str, char)]) {
    for (name, template, outcome) in cases {
        asked(kit, name, &[parts(template)], &outcome.to_string());
    }
}

/// Up to eight rules in one session.
fn row(kit: &mut Kit, name: &str, templates: &[&str], outcomes: &str) {
    let policies: Vec<String> = templates.iter().map(|template| parts(template)).collect();
    asked(kit, name, &policies, outcomes);
}

const OPERATORS: [&str; 8] = ["=", "!=", "<", "<=", ">", ">=", "IN", "SUBSET"];

/// One comparison by each operator.
fn compared(kit: &mut Kit, name: &str, left: &str, right: &str, outcomes: &str) {
    let policies = OPERATORS.map(|operator| format!("{left} {operator} {right}"));
    asked(kit, name, &policies, outcomes);
}

fn operands(kit: &mut Kit) {
    kit.says("Document 02, E2: \"A comparison ... now says which: absent (an operand ... lacks values\". Either operand or both; each session asks all eight operators in turn.");
    compared(kit, "causes-absent-left", "user.no_n", "1", "AAAAAAAA");
    compared(kit, "causes-absent-right", "{1,5}", "object.no_n", "AAAAAAAA");
    compared(kit, "causes-absent-both", "user.no_n", "object.no_n", "AAAAAAAA");
    compared(kit, "causes-absent-left-of-a-value", "env.no_n", "user.n", "AAAAAAAA");
    compared(kit, "causes-absent-right-of-a-value", "user.n", "connect.no_n", "AAAAAAAA");
    compared(kit, "causes-absent-strings", "user.no_s", "{\"a\",\"b\"}", "AAAAAAAA");
    compared(kit, "causes-absent-bools", "user.b", "env.no_b", "AAAAAAAA");
    compared(kit, "causes-not-activated", "user.idle", "7", "AAAAAAAA");
    kit.says("Document 02, E2: \"absent (an operand ... lacks values, even if types differ too)\": what is lacking is told first, whichever side has which type.");
    compared(kit, "causes-absent-left-and-types", "user.no_n", "\"a\"", "AAAAAAAA");
    compared(kit, "causes-absent-right-and-types", "user.s", "env.no_n", "AAAAAAAA");
    compared(kit, "causes-absent-both-and-types", "connect.no_b", "admin.no_s", "AAAAAAAA");
    compared(kit, "causes-not-activated-and-types", "user.idle", "{\"7\"}", "AAAAAAAA");
}

fn unlike(kit: &mut Kit) {
    kit.says("Document 02, E2: \"or unlike (all other UNDEF ...)\": both operands have values, and the types differ.");
    compared(kit, "causes-unlike-constants", "1", "\"1\"", "UUUUUUUU");
    compared(kit, "causes-unlike-values", "user.s", "object.n", "UUUUUUUU");
    compared(kit, "causes-unlike-bool-and-int", "user.b", "{0,1}", "UUUUUUUU");
    compared(kit, "causes-unlike-entry", "\"10\"", "env.n", "UUUUUUUU");
}

fn orders(kit: &mut Kit) {
    kit.says("Document 02, E2, and \"an order between non-integers\": it is unlike if both sides have values, also equal ones, and absent if one lacks values. The same values are compared by `=`, `!=`, IN and SUBSET.");
    compared(kit, "causes-order-of-strings", "user.s", "\"a\"", "TFUUUUTT");
    compared(kit, "causes-order-of-bools", "user.b", "object.b", "FTUUUUFF");
    let mut lacking = |name: &str, left: &str, right: &str| {
        let policies = ["<", "<=", ">", ">="].map(|operator| format!("{left} {operator} {right}"));
        asked(kit, name, &policies, "AAAA");
    };
    lacking("causes-order-of-strings-absent-left", "object.no_s", "\"b\"");
    lacking("causes-order-of-strings-absent-right", "\"b\"", "user.no_s");
    lacking("causes-order-of-strings-absent-both", "user.no_s", "object.no_s");
    lacking("causes-order-of-bools-absent-left", "user.no_b", "admin.b");
    lacking("causes-order-of-bools-absent-right", "admin.b", "connect.no_b");
}

const LACKING: [&str; 8] = [
    "user.no_b",
    "user.no_n",
    "user.no_s",
    "user.idle",
    "object.no_s",
    "admin.no_n",
    "env.no_b",
    "connect.no_n",
];

/// Attributes with values that are not bool.
const NO_BOOLS: [&str; 8] =
    ["user.n", "user.s", "object.n", "object.s", "admin.n", "admin.s", "env.n", "connect.n"];

fn lone(kit: &mut Kit) {
    kit.says("Document 02, E2: \"A ... lone attribute now says which: absent (... that attribute lacks values, even if types differ too) or unlike\". One that lacks values is absent also if it is not bool; one that has values and is not bool is unlike. NOT keeps the cause.");
    asked(kit, "causes-lone-absent", &LACKING.map(str::to_string), "AAAAAAAA");
    asked(kit, "causes-lone-unlike", &NO_BOOLS.map(str::to_string), "UUUUUUUU");
    asked(kit, "causes-not-absent", &LACKING.map(|name| format!("NOT {name}")), "AAAAAAAA");
    asked(kit, "causes-not-unlike", &NO_BOOLS.map(|name| format!("NOT {name}")), "UUUUUUUU");
    let bools = ["user.b", "object.b", "admin.b", "env.b", "connect.b", "NOT user.b", "NOT env.b"];
    asked(kit, "causes-lone-bool", &bools.map(str::to_string), "TFTFTFT");
}

fn sources(kit: &mut Kit) {
    kit.says("Document 02, E2, and \"An attribute with no value in the set that is read is absent\": the value of another user or object counts for nothing, nor does a declared pair that nobody holds.");
    let names = ["user.no_n", "user.idle", "object.no_n", "admin.no_n", "env.no_n", "connect.no_n"];
    asked(kit, "causes-by-source", &names.map(|name| format!("{name} < 99")), "AAAAAA");
    asked(kit, "causes-by-source-and-types", &names.map(|name| format!("\"x\" != {name}")), "AAAAAA");
    let names = ["user.n", "object.n", "admin.n", "env.n", "connect.n"];
    asked(kit, "causes-by-source-with-values", &names.map(|name| format!("\"x\" != {name}")), "UUUUU");
}

fn constant(kit: &mut Kit) {
    kit.says("Document 02, E2: \"unlike (all other UNDEF, the constant too)\"");
    each(
        kit,
        &[
            ("cause-constant", "c", 'U'),
            ("cause-constant-not", "NOT c", 'U'),
            ("cause-constant-in-parentheses", "((c))", 'U'),
            ("cause-constant-and-absent", "c AND l", 'A'),
            ("cause-constant-or-absent", "c OR l", 'A'),
        ],
    );
}

fn tables(kit: &mut Kit) {
    kit.says("Document 02, E2: \"An UNDEF built by AND, OR or NOT is absent if one of its UNDEF operands is.\" One is enough, the first or the last. TRUE and FALSE have no cause, and where they decide there is none.");
    let and = ["a AND t", "t AND a", "a AND f", "f AND a", "a AND u", "u AND a", "a AND l"];
    row(kit, "causes-and-absent", &and, "AAFFAAA");
    let and = ["u AND t", "t AND u", "u AND f", "f AND u", "u AND n", "n AND c"];
    row(kit, "causes-and-unlike", &and, "UUFFUU");
    let or = ["a OR t", "t OR a", "a OR f", "f OR a", "a OR u", "u OR a", "a OR l"];
    row(kit, "causes-or-absent", &or, "TTAAAAA");
    let or = ["u OR t", "t OR u", "u OR f", "f OR u", "u OR n", "n OR c"];
    row(kit, "causes-or-unlike", &or, "TTUUUU");
    let not = ["NOT l", "NOT n", "NOT c", "NOT (a)", "NOT (u)", "NOT (a AND u)", "NOT (u OR a)"];
    row(kit, "causes-not", &not, "AUUAUAA");
    let twice = ["NOT (NOT l)", "NOT (NOT n)", "NOT (NOT (a))", "NOT (NOT (u))", "NOT (NOT l AND n)"];
    row(kit, "causes-not-twice", &twice, "AUAUA");
}

fn three(kit: &mut Kit) {
    kit.says("Document 02, E2: \"absent if one of its UNDEF operands is\": three in a row, with absent in each place.");
    let and = [
        "a AND u AND c",
        "u AND a AND c",
        "u AND c AND a",
        "u AND l AND a",
        "l AND u AND a",
        "l AND a AND u",
        "a AND l AND a",
        "u AND c AND n",
    ];
    row(kit, "causes-three-and", &and, "AAAAAAAU");
    let or = and.map(|three| three.replace("AND", "OR"));
    row(kit, "causes-three-or", &or.each_ref().map(String::as_str), "AAAAAAAU");
    let and = ["t AND u AND a", "u AND t AND a", "a AND t AND u", "a AND u AND t", "t AND u AND t"];
    row(kit, "causes-three-and-true", &and, "AAAAU");
    let and = ["f AND u AND a", "u AND f AND a", "a AND u AND f"];
    row(kit, "causes-three-and-false", &and, "FFF");
    let or = ["f OR u OR a", "u OR f OR a", "a OR f OR u", "a OR u OR f", "f OR u OR f"];
    row(kit, "causes-three-or-false", &or, "AAAAU");
    let or = ["t OR u OR a", "u OR t OR a", "a OR u OR t"];
    row(kit, "causes-three-or-true", &or, "TTT");
}

fn nested(kit: &mut Kit) {
    kit.says("Document 02, E2, and \"AND binds tighter\": an UNDEF in parentheses, or built by AND, hands its cause on to what it is an operand of.");
    each(
        kit,
        &[
            ("cause-nested-left", "(a AND u) AND c", 'A'),
            ("cause-nested-left-last", "(u AND a) AND c", 'A'),
            ("cause-nested-right", "c AND (u AND a)", 'A'),
            ("cause-nested-right-first", "c AND (a AND u)", 'A'),
            ("cause-nested-or-in-and-left", "(u OR a) AND c", 'A'),
            ("cause-nested-or-in-and-right", "c AND (u OR a)", 'A'),
            ("cause-nested-and-in-or-left", "(u AND a) OR c", 'A'),
            ("cause-nested-and-in-or-right", "c OR (u AND a)", 'A'),
            ("cause-nested-unlike-left", "(u OR n) AND c", 'U'),
            ("cause-nested-unlike-right", "c AND (n OR u)", 'U'),
            ("cause-nested-both-sides", "(u AND n) OR (c AND a)", 'A'),
            ("cause-nested-both-sides-turned", "(a AND c) OR (u AND n)", 'A'),
            ("cause-nested-deep-left", "(((a OR u) AND c) OR n) AND u", 'A'),
            ("cause-nested-deep-right", "u AND (n OR (c AND (u OR a)))", 'A'),
            ("cause-nested-deep-unlike", "u AND (n OR (c AND (u OR n)))", 'U'),
            ("cause-nested-not-of-and", "NOT (NOT (u AND a) AND c)", 'A'),
            ("cause-nested-not-of-or", "c OR NOT (u OR NOT (a OR n))", 'A'),
            ("cause-nested-not-of-unlike", "NOT (NOT (u AND n) OR c)", 'U'),
            ("cause-binding-and-first", "a AND t OR u", 'A'),
            ("cause-binding-and-last", "u OR t AND a", 'A'),
            ("cause-binding-and-between", "u OR a AND c OR n", 'A'),
            ("cause-binding-two-ands", "u AND c OR n AND a", 'A'),
        ],
    );
}

fn swallowed(kit: &mut Kit) {
    kit.says("Document 02, E2: \"one of its UNDEF operands\": an operand that came to FALSE or TRUE is none of them, whatever is lacking inside it.");
    each(
        kit,
        &[
            ("cause-swallowed-false-and-absent", "f AND a OR u", 'U'),
            ("cause-swallowed-absent-and-false", "a AND f OR u", 'U'),
            ("cause-swallowed-behind-unlike", "u OR a AND f", 'U'),
            ("cause-swallowed-in-parentheses", "(f AND a) OR u", 'U'),
            ("cause-swallowed-in-parentheses-right", "u OR (f AND a)", 'U'),
            ("cause-swallowed-true-or-absent", "(t OR a) AND u", 'U'),
            ("cause-swallowed-absent-or-true", "(a OR t) AND u", 'U'),
            ("cause-swallowed-true-or-absent-right", "c AND (t OR l)", 'U'),
            ("cause-swallowed-under-not", "NOT (f AND a) AND u", 'U'),
            ("cause-swallowed-under-not-in-or", "u OR NOT (t OR a)", 'U'),
            ("cause-swallowed-twice", "(t OR a) AND (u OR f AND a)", 'U'),
            ("cause-swallowed-deep", "((f AND a OR f) AND l OR u) AND t", 'U'),
            ("cause-swallowed-unlike", "(t OR u) AND a", 'A'),
            ("cause-swallowed-unlike-false", "f AND u OR a", 'A'),
            ("cause-swallowed-one-of-two", "f AND a OR a AND u", 'A'),
            ("cause-swallowed-whole-false", "f AND (a OR u)", 'F'),
            ("cause-swallowed-whole-false-right", "(a OR u) AND f", 'F'),
            ("cause-swallowed-whole-true", "a AND u OR t", 'T'),
        ],
    );
}

fn limits(kit: &mut Kit) {
    kit.says("Document 02, E2, at the limits: 16 terms with absent in one of them, and parentheses 8 deep.");
    let mut long = |name: &str, joint: &str, place: usize| {
        let mut terms = ["c"; 16];
        terms[place] = "l";
        asked(kit, name, &[parts(&terms.join(joint))], "A");
    };
    long("cause-first-of-16-and", " AND ", 0);
    long("cause-ninth-of-16-and", " AND ", 8);
    long("cause-last-of-16-and", " AND ", 15);
    long("cause-first-of-16-or", " OR ", 0);
    long("cause-ninth-of-16-or", " OR ", 8);
    long("cause-last-of-16-or", " OR ", 15);
    let deep = |inner: &str| parts(&format!("{}{inner}{}", "NOT (".repeat(8), ")".repeat(8)));
    asked(kit, "cause-16-unlike", &[["UNDEF"; 16].join(" OR ")], "U");
    asked(kit, "cause-8-deep-absent", &[deep("u OR a")], "A");
    asked(kit, "cause-8-deep-unlike", &[deep("u OR c")], "U");
}

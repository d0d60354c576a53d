//! Vectors for "Policies": each is one rule on one book, and one block. What
//! is typed is the rule's truth or its refusal (6, 7, 8): T, F, and for UNDEF
//! its cause, A absent or U unlike.

use super::files::nine_deep;
use super::Kit;

/// Attributes of every source and type, with these values for the block:
/// user.n {1,5}, user.s {"a","b"}, user.b {TRUE}, user.f {FALSE}, object.n
/// {5,9}, object.both {TRUE,FALSE}, object.s {"b"}, admin.open {TRUE}, admin.n
/// {9}, env.hour {10,20}, env.snow {FALSE}, connect.port {4294967295}. user.x
/// and env.wind have none; user.idle has 7 and is not activated.
const BOOK: &str = "rights=1
attr=user,n,int
attr=user,s,str
attr=user,b,bool
attr=user,f,bool
attr=user,x,int
attr=user,idle,int
attr=object,n,int
attr=object,both,bool
attr=object,s,str
attr=admin,open,bool
attr=admin,n,int
attr=env,hour,int
attr=env,snow,bool
attr=env,wind,bool
attr=connect,port,int
op=pass
atom=user.n,1
atom=user.n,5
atom=user.s,\"a\"
atom=user.s,\"b\"
atom=user.b,TRUE
atom=user.f,FALSE
atom=user.idle,7
atom=object.n,5
atom=object.n,9
atom=object.both,TRUE
atom=object.both,FALSE
atom=object.s,\"b\"
atom=admin.open,TRUE
atom=admin.n,9
user=u
object=t
value=u,n,1
value=u,n,5
value=u,s,\"a\"
value=u,s,\"b\"
value=u,b,TRUE
value=u,f,FALSE
value=u,idle,7
value=t,n,5
value=t,n,9
value=t,both,TRUE
value=t,both,FALSE
value=t,s,\"b\"
value=admin,open,TRUE
value=admin,n,9
";

/// Mask 15; entries hour 10, hour 20, snow 0, port 4294967295.
const TRY: &str = "try=010102000f00000004000b0a0000000b140000000c000000000effffffff\n";

pub fn kit() -> Kit {
    let mut kit = Kit::new("policies");
    words(&mut kit);
    between(&mut kit);
    operators(&mut kit);
    constants(&mut kit);
    sets(&mut kit);
    lone(&mut kit);
    sides(&mut kit);
    parentheses(&mut kit);
    shape(&mut kit);
    limits(&mut kit);
    equality(&mut kit);
    absent(&mut kit);
    order(&mut kit);
    subset(&mut kit);
    bools(&mut kit);
    kleene(&mut kit);
    precedence(&mut kit);
    names(&mut kit);
    kit
}

fn policy(kit: &mut Kit, name: &str, policy: &str, outcome: char) {
    let line = BOOK.lines().count() + 1;
    let answers = match outcome {
        'T' => format!("load=0,{line} try=permit,0"),
        'F' => format!("load=0,{line} try=deny"),
        'A' => format!("load=0,{line} try=undefined,absent"),
        'U' => format!("load=0,{line} try=undefined,unlike"),
        number => format!("load={number},{line} try=refused,16"),
    };
    let input = format!("{BOOK}rule=pass,{policy}\nend=\n{TRY}");
    kit.case(name, input, &answers);
}

fn each(kit: &mut Kit, cases: &[(&str, &str, char)]) {
    for (name, text, outcome) in cases {
        policy(kit, name, text, *outcome);
    }
}

fn words(kit: &mut Kit) {
    kit.says("\"A run of letters, digits, `_` and `.` is one word\": the longest run, capital and small letters alike; a run that is no name, atom or word in capitals is malformed (6).");
    each(
        kit,
        &[
            ("word-two-dots", "user.n.x = 1", '6'),
            ("word-name-grown-together", "user.nIN {1}", '6'),
            ("word-int-grown-together", "user.n=1AND TRUE", '6'),
            ("word-truth-grown-together", "TRUEAND TRUE", '6'),
            ("word-int-before-in", "1IN{1}", '6'),
            ("word-int-behind-in", "user.n IN1", '6'),
            ("word-float", "user.n = 1.5", '6'),
            ("word-underscore-in-int", "user.n = 1_0", '6'),
            ("word-bad-source", "users.n = 1", '6'),
            ("word-source-capital", "User.n = 1", '6'),
            ("word-name-without-source", "n = 1", '6'),
            ("word-source-without-name", "user. = 1", '6'),
            ("word-name-behind-dot", ".n = 1", '6'),
            ("word-dot-alone", ". = 1", '6'),
            ("word-name-capital", "user.N = 1", '6'),
            ("word-name-13-bytes", "user.abcdefghijklm = 1", '6'),
            ("word-true-small", "true", '6'),
            ("word-and-small", "TRUE and TRUE", '6'),
            ("word-null", "NULL", '6'),
            ("word-parted-name", "user .n = 1", '6'),
            ("word-unknown-capitals", "XOR", '6'),
        ],
    );
}

fn between(kit: &mut Kit) {
    kit.says("\"Byte 32 may stand, any number of times, before, between and after tokens.\" No other byte parts tokens, and none is needed where no run goes on.");
    each(
        kit,
        &[
            ("space-empty-policy", "", '6'),
            ("space-only", "   ", '6'),
            ("space-tab", "TRUE\tAND TRUE", '6'),
            ("space-cr-at-end", "TRUE\r", '6'),
            ("space-nul-at-end", "TRUE\0", '6'),
            ("space-byte-beyond-ascii", "TRUE\u{a0}AND TRUE", '6'),
            ("space-many", "  user.n   =  1  ", 'T'),
            ("space-in-parentheses", "( TRUE )", 'T'),
            ("space-in-set", "{ 9 , 5 } = user.n", 'T'),
            ("space-none-ints", "1<2", 'T'),
            ("space-none-strings", "\"a\"IN{\"a\"}", 'T'),
            ("space-none-parentheses", "(TRUE)AND(TRUE)", 'T'),
            ("space-none-before-and", "\"a\"=\"a\"AND TRUE", 'T'),
            ("space-none-before-brace", "1 IN{1}", 'T'),
            ("space-none-behind-not", "NOT(FALSE)", 'T'),
            ("space-none-around-name", "user.n=1", 'T'),
        ],
    );
}

fn operators(kit: &mut Kit) {
    kit.says("\"operators are read longest first\"");
    each(
        kit,
        &[
            ("operator-less-equal", "1<=1", 'T'),
            ("operator-greater-equal", "1>=1", 'T'),
            ("operator-unequal", "1!=2", 'T'),
            ("operator-parted", "1 < = 1", '6'),
            ("operator-equal-less", "1=<1", '6'),
            ("operator-equal-greater", "1=>1", '6'),
            ("operator-doubled", "1==1", '6'),
            ("operator-less-greater", "1<>2", '6'),
            ("operator-unequal-parted", "1 ! = 2", '6'),
            ("operator-mark-alone", "!TRUE", '6'),
            ("operator-ampersands", "TRUE && TRUE", '6'),
            ("operator-in-small", "1 in {1}", '6'),
        ],
    );
}

fn constants(kit: &mut Kit) {
    kit.says("\"atoms\" in policies have the form that they have in lines; a malformed one is 6, not 7.");
    each(
        kit,
        &[
            ("constant-leading-zero", "1 = 01", '6'),
            ("constant-4294967295", "connect.port = 4294967295", 'T'),
            ("constant-4294967296", "1 = 4294967296", '6'),
            ("constant-minus", "1 = -1", '6'),
            ("constant-plus", "1 = +1", '6'),
            ("constant-13-byte-string", "\"abcdefghijklm\" = \"a\"", '6'),
            ("constant-12-byte-string", "\"abcdefghijkl\" = \"a\"", 'F'),
            ("constant-empty-string", "\"\" = \"\"", 'T'),
            ("constant-words-in-string", "\"a AND (b\" = \"a AND (b\"", 'T'),
            ("constant-space-in-string", "\"a\" = \"a \"", 'F'),
            ("constant-backslash", "\"\\\" = \"\\\"", 'T'),
            ("constant-unclosed-string", "\"a\" = \"a", '6'),
            ("constant-tab-in-string", "\"\t\" = \"a\"", '6'),
            ("constant-comma-in-string", "user.s != \",\"", 'T'),
        ],
    );
}

fn sets(kit: &mut Kit) {
    kit.says("\"set `{a, b}` of 1 to 8 atoms of one type\", \"`{}` and sets of two types are 6\", \"TRUE and FALSE are no var, so no set holds them\". Atoms are counted as written: nine equal ones are over 8 (7).");
    each(
        kit,
        &[
            ("set-empty", "{} = 1", '6'),
            ("set-empty-with-space", "{ } = 1", '6'),
            ("set-two-types", "{1,\"a\"} = 1", '6'),
            ("set-with-true", "{TRUE} = user.b", '6'),
            ("set-with-name", "{user.n} = 1", '6'),
            ("set-in-set", "{{1}} = 1", '6'),
            ("set-comma-at-end", "{1,} = 1", '6'),
            ("set-comma-at-start", "{,1} = 1", '6'),
            ("set-commas-doubled", "{1,,2} = 1", '6'),
            ("set-without-comma", "{1 2} = 1", '6'),
            ("set-unclosed", "{1 = 1", '6'),
            ("set-unopened", "1} = 1", '6'),
            ("set-in-parentheses", "(1,2) = 1", '6'),
            ("set-equal-atoms", "{1,1} = 1", 'T'),
            ("set-8-atoms", "{1,2,3,4,5,6,7,8} = 8", 'T'),
            ("set-9-atoms", "{1,2,3,4,5,6,7,8,9} = 8", '7'),
            ("set-9-equal-atoms", "{1,1,1,1,1,1,1,1,1} = 1", '7'),
            ("set-9-atoms-two-types", "{1,2,3,4,5,6,7,8,\"9\"} = 8", '6'),
            ("set-9-atoms-on-the-right", "user.n IN {1,2,3,4,5,6,7,8,9}", '7'),
            ("set-of-strings", "user.s IN {\"c\",\"b\"}", 'T'),
            ("set-on-both-sides", "{1,2} = {2,3}", 'T'),
        ],
    );
}

fn lone(kit: &mut Kit) {
    kit.says("\"A term is `var op var` ..., or an optional NOT before TRUE, FALSE, UNDEF, an attribute or a parenthesised policy.\"");
    each(
        kit,
        &[
            ("lone-int", "1", '6'),
            ("lone-string", "\"a\"", '6'),
            ("lone-set", "{1}", '6'),
            ("lone-int-attribute", "user.n", 'U'),
            ("lone-string-attribute", "user.s", 'U'),
            ("not-int-attribute", "NOT user.n", 'U'),
            ("not-alone", "NOT", '6'),
            ("not-before-int", "NOT 1", '6'),
            ("not-before-comparison", "NOT user.n = 1", '6'),
            ("not-before-set", "NOT {1} = 1", '6'),
            ("not-twice", "NOT NOT TRUE", '6'),
            ("not-of-not-in-parentheses", "NOT (NOT TRUE)", 'T'),
            ("not-before-comparison-in-parentheses", "NOT (1=1)", 'F'),
            ("not-binds-one-operand-before-and", "NOT TRUE AND FALSE", 'F'),
            ("not-binds-one-operand-before-or", "NOT TRUE OR TRUE", 'T'),
            ("not-behind-operand", "TRUE NOT", '6'),
        ],
    );
}

fn sides(kit: &mut Kit) {
    kit.says("\"var: int or str constant, set, attribute\" and \"TRUE and FALSE are no var\"; UNDEF is not in that list either. Bool attributes may be compared with each other.");
    each(
        kit,
        &[
            ("side-true-both", "TRUE = TRUE", '6'),
            ("side-true-right", "user.b = TRUE", '6'),
            ("side-false-left", "FALSE != user.b", '6'),
            ("side-undef", "UNDEF = UNDEF", '6'),
            ("side-undef-right", "user.n = UNDEF", '6'),
            ("side-in-parentheses", "(1) = 1", '6'),
            ("side-name-in-parentheses", "(user.n) = 1", '6'),
            ("side-right-in-parentheses", "1 = (1)", '6'),
            ("side-bool-attributes-equal", "user.b = admin.open", 'T'),
            ("side-bool-attributes-differ", "user.b = user.f", 'F'),
            ("side-bool-attributes-unequal", "user.b != user.f", 'T'),
        ],
    );
}

fn parentheses(kit: &mut Kit) {
    kit.says("\"parentheses at most 8 deep\": open parentheses are counted, neither NOT nor braces; unclosed ones are 6.");
    let deep = |open: usize, close: usize| format!("{}TRUE{}", "(".repeat(open), ")".repeat(close));
    policy(kit, "depth-8", &deep(8, 8), 'T');
    policy(kit, "depth-9", &nine_deep(), '7');
    policy(kit, "depth-9-opened-8-closed", &deep(9, 8), '6');
    policy(kit, "depth-8-opened-9-closed", &deep(8, 9), '6');
    policy(kit, "depth-8-twice", &format!("{0} AND {0}", deep(8, 8)), 'T');
    policy(kit, "depth-8-with-set", &format!("{}1 IN {{1}}{}", "(".repeat(8), ")".repeat(8)), 'T');
    policy(kit, "depth-8-with-not", &format!("{}TRUE{}", "NOT (".repeat(8), ")".repeat(8)), 'T');
    policy(kit, "depth-9-on-the-right", &format!("FALSE OR {}", nine_deep()), '7');
    policy(kit, "depth-60", &deep(60, 60), '7');
    each(
        kit,
        &[
            ("parentheses-empty", "()", '6'),
            ("parentheses-unclosed", "(TRUE", '6'),
            ("parentheses-unopened", "TRUE)", '6'),
            ("parentheses-turned", ")TRUE(", '6'),
            ("parentheses-doubled", "((TRUE))", 'T'),
            ("parentheses-two-without-word", "(TRUE)(TRUE)", '6'),
        ],
    );
}

fn shape(kit: &mut Kit) {
    kit.says("\"Terms join by AND and OR\"; a comparison has one operator.");
    each(
        kit,
        &[
            ("shape-chain-of-equals", "1 = 1 = 1", '6'),
            ("shape-chain-of-in", "1 IN {1} IN {1}", '6'),
            ("shape-two-terms", "TRUE TRUE", '6'),
            ("shape-and-at-end", "TRUE AND", '6'),
            ("shape-or-at-start", "OR TRUE", '6'),
            ("shape-and-or", "TRUE AND OR TRUE", '6'),
            ("shape-no-right-side", "1 =", '6'),
            ("shape-no-left-side", "= 1", '6'),
            ("shape-comma", "TRUE, TRUE", '6'),
            ("shape-name-behind-term", "TRUE user.n", '6'),
        ],
    );
}

fn limits(kit: &mut Kit) {
    kit.says("\"At most 16 terms not counting parenthesised ones\": all terms at every depth count, except that a term which is a parenthesised policy is not itself counted; NOT with its operand is one.");
    let or = |term: &str, count: usize| vec![term; count].join(" OR ");
    policy(kit, "terms-16", &format!("{} OR TRUE", or("FALSE", 15)), 'T');
    policy(kit, "terms-17", &format!("{} OR TRUE", or("FALSE", 16)), '7');
    policy(kit, "terms-16-comparisons", &or("1=2", 16), 'F');
    policy(kit, "terms-17-comparisons", &or("1=2", 17), '7');
    policy(kit, "terms-8-and-8", &format!("({0}) OR ({0})", or("1=2", 8)), 'F');
    policy(kit, "terms-8-and-9", &format!("({}) OR ({})", or("1=2", 8), or("1=2", 9)), '7');
    policy(kit, "terms-16-in-own-parentheses", &or("(1=2)", 16), 'F');
    policy(kit, "terms-17-in-own-parentheses", &or("(1=2)", 17), '7');
    policy(kit, "terms-16-in-one-parenthesis", &format!("({})", or("1=2", 16)), 'F');
    policy(kit, "terms-1-and-16-in-parentheses", &format!("1=2 OR ({})", or("1=2", 16)), '7');
    policy(kit, "terms-16-with-not", &or("NOT TRUE", 16), 'F');
    policy(kit, "terms-17-with-not", &or("NOT TRUE", 17), '7');
    policy(kit, "terms-17-and-malformed", &format!("{} OR", or("1=2", 17)), '6');
    policy(kit, "terms-17-and-undeclared", &format!("{} OR user.nn", or("1=2", 16)), '7');
}

fn equality(kit: &mut Kit) {
    kit.says("\"`=` and IN: a common value exists. `!=`: the negation of `=`.\"");
    each(
        kit,
        &[
            ("equal-common-value", "user.n = object.n", 'T'),
            ("equal-no-common-value", "user.n = 9", 'F'),
            ("equal-constant-left", "5 = user.n", 'T'),
            ("equal-case-matters", "user.s = \"A\"", 'F'),
            ("in-right-set", "user.n IN {9,5}", 'T'),
            ("in-left-set", "{9,5} IN user.n", 'T'),
            ("in-needs-one-common-value", "object.n IN {9}", 'T'),
            ("in-no-common-value", "user.n IN {7,8}", 'F'),
            ("in-constant", "user.n IN 5", 'T'),
            ("unequal-common-value", "user.n != object.n", 'F'),
            ("unequal-no-common-value", "user.n != 9", 'T'),
            ("unequal-some-differ", "user.n != {1,9}", 'F'),
            ("unequal-strings", "object.s != \"a\"", 'T'),
            ("unequal-bools", "user.b != object.both", 'F'),
        ],
    );
}

fn absent(kit: &mut Kit) {
    kit.says("\"An attribute with no value in the set that is read is absent. Absent operands, different types ... give UNDEF.\" Types are no matter of loading.");
    each(
        kit,
        &[
            ("absent-equal", "user.x = 1", 'A'),
            ("absent-unequal", "user.x != 1", 'A'),
            ("absent-right", "1 = user.x", 'A'),
            ("absent-itself", "user.x = user.x", 'A'),
            ("absent-less", "user.x < 1", 'A'),
            ("absent-subset-left", "user.x SUBSET {1}", 'A'),
            ("absent-subset-right", "{1} SUBSET user.x", 'A'),
            ("absent-in", "user.x IN {1}", 'A'),
            ("absent-lone", "env.wind", 'A'),
            ("absent-not", "NOT env.wind", 'A'),
            ("absent-not-activated", "user.idle = 7", 'A'),
            ("absent-not-activated-unequal", "user.idle != 7", 'A'),
            ("types-int-string", "1 = \"1\"", 'U'),
            ("types-int-string-unequal", "1 != \"1\"", 'U'),
            ("types-attributes", "user.n = user.s", 'U'),
            ("types-bool-int", "user.b = 1", 'U'),
            ("types-subset", "user.n SUBSET user.s", 'U'),
            ("types-in", "user.s IN {1,2}", 'U'),
            ("types-order", "1 < \"2\"", 'U'),
            ("types-and-absent", "user.x = \"a\"", 'A'),
        ],
    );
}

fn order(kit: &mut Kit) {
    kit.says("\"`<` and its kin: some left and some right value are so ordered\", and \"an order between non-integers\" gives UNDEF, for equal values too. Integers have 32 bits and no sign.");
    each(
        kit,
        &[
            ("order-strings", "\"b\" < \"c\"", 'U'),
            ("order-equal-strings", "\"b\" <= \"b\"", 'U'),
            ("order-string-attribute", "user.s > \"a\"", 'U'),
            ("order-bools", "user.f < user.b", 'U'),
            ("order-equal-bools", "user.b >= user.b", 'U'),
            ("order-some-less", "{1,9} < {5}", 'T'),
            ("order-some-greater", "{1,9} > {5}", 'T'),
            ("order-less-than-least", "user.n < 1", 'F'),
            ("order-less-equal-least", "user.n <= 1", 'T'),
            ("order-greater-than-most", "user.n > 5", 'F'),
            ("order-greater-equal-most", "user.n >= 5", 'T'),
            ("order-attributes", "user.n < object.n", 'T'),
            ("order-attributes-turned", "object.n < user.n", 'F'),
            ("order-attributes-turned-equal", "object.n <= user.n", 'T'),
            ("order-by-number-not-text", "9 < 10", 'T'),
            ("order-without-sign", "4294967295 > 2147483647", 'T'),
            ("order-without-sign-entry", "connect.port < 1", 'F'),
            ("order-same-number", "5 < 5", 'F'),
        ],
    );
}

fn subset(kit: &mut Kit) {
    kit.says("\"SUBSET: each left value is among the right.\"");
    each(
        kit,
        &[
            ("subset-true", "user.n SUBSET {1,5,9}", 'T'),
            ("subset-false", "user.n SUBSET {1}", 'F'),
            ("subset-constant-left", "5 SUBSET user.n", 'T'),
            ("subset-equal-atoms", "{1,5,1} SUBSET user.n", 'T'),
            ("subset-itself", "user.n SUBSET user.n", 'T'),
            ("subset-strings", "object.s SUBSET user.s", 'T'),
            ("subset-strings-turned", "user.s SUBSET object.s", 'F'),
            ("subset-bools", "user.b SUBSET object.both", 'T'),
            ("subset-bools-turned", "object.both SUBSET user.b", 'F'),
        ],
    );
}

fn bools(kit: &mut Kit) {
    kit.says("\"A lone attribute: UNDEF if absent or not bool, else whether TRUE is among its values.\"");
    each(
        kit,
        &[
            ("bool-true", "user.b", 'T'),
            ("bool-false", "user.f", 'F'),
            ("bool-not-false", "NOT user.f", 'T'),
            ("bool-both", "object.both", 'T'),
            ("bool-not-both", "NOT object.both", 'F'),
            ("bool-false-entry", "env.snow", 'F'),
            ("bool-not-false-entry", "NOT env.snow", 'T'),
            ("bool-admin", "admin.open", 'T'),
        ],
    );
    kit.says("\"`object.` and `admin.` read those holders' sets, `env.` and `connect.` the entries.\"");
    each(
        kit,
        &[
            ("source-admin-and-object", "admin.n = object.n", 'T'),
            ("source-admin-alone", "admin.n SUBSET {9}", 'T'),
            ("source-env-second-entry", "env.hour = 20", 'T'),
            ("source-env-set-of-entries", "env.hour < 11 AND env.hour > 19", 'T'),
            ("source-env-not-only-first", "env.hour SUBSET {10}", 'F'),
            ("source-connect", "connect.port = 4294967295", 'T'),
        ],
    );
}

fn kleene(kit: &mut Kit) {
    kit.says("\"Kleene K3: NOT swaps TRUE and FALSE; AND is FALSE if either is, else UNDEF if either is, else TRUE; OR is its dual.\"");
    each(
        kit,
        &[
            ("k3-true", "TRUE", 'T'),
            ("k3-false", "FALSE", 'F'),
            ("k3-undef", "UNDEF", 'U'),
            ("k3-not-true", "NOT TRUE", 'F'),
            ("k3-not-false", "NOT FALSE", 'T'),
            ("k3-not-undef", "NOT UNDEF", 'U'),
            ("k3-true-and-true", "TRUE AND TRUE", 'T'),
            ("k3-true-and-false", "TRUE AND FALSE", 'F'),
            ("k3-true-and-undef", "TRUE AND UNDEF", 'U'),
            ("k3-false-and-true", "FALSE AND TRUE", 'F'),
            ("k3-false-and-false", "FALSE AND FALSE", 'F'),
            ("k3-false-and-undef", "FALSE AND UNDEF", 'F'),
            ("k3-undef-and-true", "UNDEF AND TRUE", 'U'),
            ("k3-undef-and-false", "UNDEF AND FALSE", 'F'),
            ("k3-undef-and-undef", "UNDEF AND UNDEF", 'U'),
            ("k3-true-or-true", "TRUE OR TRUE", 'T'),
            ("k3-true-or-false", "TRUE OR FALSE", 'T'),
            ("k3-true-or-undef", "TRUE OR UNDEF", 'T'),
            ("k3-false-or-true", "FALSE OR TRUE", 'T'),
            ("k3-false-or-false", "FALSE OR FALSE", 'F'),
            ("k3-false-or-undef", "FALSE OR UNDEF", 'U'),
            ("k3-undef-or-true", "UNDEF OR TRUE", 'T'),
            ("k3-undef-or-false", "UNDEF OR FALSE", 'U'),
            ("k3-undef-or-undef", "UNDEF OR UNDEF", 'U'),
        ],
    );
}

fn precedence(kit: &mut Kit) {
    kit.says("\"AND binds tighter, as in C, which source 002 says it follows, although its printed grammar nests to the right.\"");
    each(
        kit,
        &[
            ("binding-and-first", "FALSE AND TRUE OR TRUE", 'T'),
            ("binding-and-last", "TRUE OR TRUE AND FALSE", 'T'),
            ("binding-and-between", "FALSE OR TRUE AND FALSE OR FALSE", 'F'),
            ("binding-or-in-parentheses", "(TRUE OR TRUE) AND FALSE", 'F'),
            ("binding-or-in-parentheses-right", "FALSE AND (TRUE OR TRUE)", 'F'),
            ("binding-with-undef", "UNDEF AND FALSE OR UNDEF", 'U'),
            ("binding-not-of-parentheses", "NOT (FALSE AND TRUE OR TRUE)", 'F'),
        ],
    );
}

fn names(kit: &mut Kit) {
    kit.says("\"8: undeclared name or pair\": a well-formed name that no attr line declares; constants need no pair.");
    each(
        kit,
        &[
            ("name-undeclared", "user.nn = 1", '8'),
            ("name-undeclared-like-a-word", "user.and = 1", '8'),
            ("name-undeclared-12-bytes", "user.abcdefghijkl = 1", '8'),
            ("name-declared-of-other-source", "object.x = 1", '8'),
            ("name-undeclared-on-the-right", "1 = connect.hour", '8'),
            ("name-undeclared-in-false-part", "FALSE AND env.nn", '8'),
            ("name-undeclared-and-malformed", "env.nn AND", '6'),
            ("constant-without-pair", "user.n = 77", 'F'),
        ],
    );
}

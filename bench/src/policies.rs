//! Policies that are FALSE or UNDEF, so that all rules of an operation are evaluated.

/// 16 terms over the valley file's names, UNDEF by its constant: unlike.
pub fn sixteen_terms_valley() -> &'static str {
    "user.zone=object.zone AND env.hour<17 AND env.hour>=8 AND user.zone IN{1,2,3}AND(user.kind IN{\"day\",\"season\"}\
     OR NOT user.staff)AND user.zone!=9 AND object.zone SUBSET{2}AND 3<2 OR user.zone=7 OR 1>2 OR{1,2}={3}OR 5=6 \
     OR UNDEF OR 3=4 OR FALSE"
}

/// 16 terms over the names of the full file, FALSE.
pub fn sixteen_terms_full() -> &'static str {
    "user.a0=object.a1 AND env.a2<17 AND user.a3=\"s1\"AND user.a0 IN{1,2,3}AND NOT user.a5 AND env.a2>=8 AND 1=2 \
     OR admin.a4!=5 AND object.a6=\"s2\"AND user.a0<9 AND object.a1>2 AND env.a2=3 AND user.a0!=7 AND connect.a7 \
     AND user.a5 AND 3=4"
}

/// The valley file's rule 0, and a rule that compares a string with a number.
pub fn valley_and_unlike() -> [String; 2] {
    ["user.zone = object.zone AND env.hour < 17", "user.kind = env.hour"].map(String::from)
}

/// So many terms over the valley file's names, none of them TRUE: FALSE with values, else absent.
pub fn terms(count: usize) -> String {
    in_turn(count, ["user.zone=9", "env.hour<8"])
}

/// So many terms over the valley file's names, each of unlike types.
pub fn unlike_terms(count: usize) -> String {
    in_turn(count, ["user.kind=9", "env.hour<\"8\""])
}

fn in_turn(count: usize, terms: [&str; 2]) -> String {
    (0..count).map(|k| terms[k % 2]).collect::<Vec<&str>>().join(" OR ")
}

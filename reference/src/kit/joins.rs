//! Vectors for document 02, E3: "What one edit costs". Each third number was added
//! up by hand from the ties that stand after the edit: for the edited holder and
//! each one below it, one and its ties up.

use super::joins_limit;
use super::list::List;
use super::sets::DIAMOND;
use super::valley::{valley, VALLEY_WORDS};
use super::Kit;

pub fn kit() -> Kit {
    let mut kit = Kit::new("edits");
    own_join(&mut kit);
    below(&mut kit);
    after_the_edit(&mut kit);
    first_named(&mut kit);
    once(&mut kit);
    no_value_ties(&mut kit);
    no_change(&mut kit);
    sorts(&mut kit);
    refused(&mut kit);
    many_groups(&mut kit);
    bound(&mut kit);
    kit
}

/// Edits behind a file that is accepted: each with its number, count and joins.
fn session<L: AsRef<str>, A: AsRef<str>>(kit: &mut Kit, name: &str, file: &str, edits: &[(L, A)]) {
    let mut input = format!("{file}end=\n");
    let mut answers = format!("load=0,{}", file.lines().count());
    for (line, answer) in edits {
        input += &format!("{}\n", line.as_ref());
        answers += &format!(" edit={}", answer.as_ref());
    }
    kit.case(name, input, &answers);
}

/// On the diamond top has 1, left 2, right 2, low 3, u 2: 10 for top and all below
/// it, 7 for left or right, 5 for low. v and alone have 1; area 1 and t 2.
fn on_diamond(kit: &mut Kit, name: &str, edits: &[(&str, &str)]) {
    session(kit, name, DIAMOND, edits);
}

fn own_join(kit: &mut Kit) {
    kit.says("Document 02, E3: \"for the edited holder and each one below it, one plus the number of its ties up to a parent or group after the edit, summed\". One for the edited holder itself. A group without parent lines has no tie up: min_group is no holder, and standing under it is no tie.");
    on_diamond(
        kit,
        "joins-of-a-user-without-groups",
        &[("+value=v,z,1", "0,1,1"), ("-value=v,z,1", "0,1,1")],
    );
    on_diamond(kit, "joins-of-a-group-without-parents", &[("+value=alone,z,1", "0,1,1")]);
    on_diamond(kit, "joins-of-a-user-in-a-group", &[("+value=u,z,1", "0,1,2"), ("-value=u,z,1", "0,1,2")]);
    on_diamond(kit, "joins-of-an-object-in-a-group", &[("+value=t,z,1", "0,1,2")]);
    let admin =
        "rights=1\nattr=admin,open,bool\natom=admin.open,TRUE\natom=admin.open,FALSE\nugroup=g\nuser=u\n\
                 member=u,g\n";
    session(
        kit,
        "joins-of-admin",
        admin,
        &[
            ("+value=admin,open,TRUE", "0,1,1"),
            ("+value=admin,open,FALSE", "0,1,1"),
            ("-value=admin,open,TRUE", "0,1,1"),
            ("-value=admin,open,FALSE", "0,1,1"),
        ],
    );
    let untied =
        "rights=1\nattr=user,n,int\nattr=object,n,int\natom=user.n,1\natom=object.n,1\nugroup=g\nugroup=h\n\
                  ogroup=k\nuser=u\nobject=t\n";
    session(
        kit,
        "joins-without-ties",
        untied,
        &[
            ("+value=g,n,1", "0,1,1"),
            ("+value=h,n,1", "0,1,1"),
            ("+value=k,n,1", "0,1,1"),
            ("+value=u,n,1", "0,1,1"),
            ("+value=t,n,1", "0,1,1"),
        ],
    );
}

/// Groups a, b, c, each below the one before, with p, q and r as members: 1 for a,
/// 2 for all others.
const THREE_LEVELS: &str = "rights=1
attr=user,n,int
atom=user.n,1
ugroup=a
ugroup=b
ugroup=c
user=p
user=q
user=r
parent=b,a
parent=c,b
member=p,a
member=q,b
member=r,c
";

fn below(kit: &mut Kit) {
    kit.says("Document 02, E3: \"and each one below it\": groups below, groups below these, and the users and objects in each of them; no holder above, and none beside.");
    session(
        kit,
        "joins-of-groups-and-users-below",
        THREE_LEVELS,
        &[
            ("+value=r,n,1", "0,1,2"),
            ("+value=c,n,1", "0,1,4"),
            ("+value=b,n,1", "0,2,8"),
            ("+value=a,n,1", "0,2,11"),
            ("-parent=b,a", "0,0,7"),
            ("-value=a,n,1", "0,2,3"),
        ],
    );
    on_diamond(
        kit,
        "joins-of-each-holder",
        &[
            ("+value=top,z,2", "0,5,10"),
            ("+value=left,z,2", "0,0,7"),
            ("+value=right,z,2", "0,0,7"),
            ("+value=low,z,2", "0,0,5"),
            ("+value=alone,z,2", "0,1,1"),
            ("+value=u,z,2", "0,0,2"),
            ("+value=v,z,2", "0,1,1"),
            ("+value=area,z,1", "0,2,3"),
            ("+value=t,z,1", "0,0,2"),
        ],
    );
    on_diamond(
        kit,
        "joins-of-those-below-by-then",
        &[
            ("-parent=left,top", "0,0,6"),
            ("-parent=right,top", "0,0,6"),
            ("+value=top,z,1", "0,1,1"),
            ("+parent=left,top", "0,3,7"),
            ("+value=top,z,2", "0,4,8"),
            ("+member=v,top", "0,1,2"),
            ("-value=top,z,1", "0,5,10"),
            ("-member=u,low", "0,1,1"),
            ("-value=top,z,2", "0,4,8"),
        ],
    );
}

fn after_the_edit(kit: &mut Kit) {
    kit.says("Document 02, E3: \"after the edit\". A tie that is added counts, one that is taken does not.");
    on_diamond(
        kit,
        "joins-of-members-added",
        &[("+member=v,top", "0,0,2"), ("+member=v,alone", "0,0,3"), ("+member=v,low", "0,0,4")],
    );
    on_diamond(
        kit,
        "joins-of-members-taken",
        &[
            ("+member=v,left", "0,0,2"),
            ("+member=v,right", "0,0,3"),
            ("-member=v,left", "0,0,2"),
            ("-member=v,right", "0,0,1"),
            ("-member=u,low", "0,0,1"),
            ("-member=t,area", "0,0,1"),
        ],
    );
    on_diamond(
        kit,
        "joins-of-parents-added",
        &[
            ("+parent=alone,top", "0,0,2"),
            ("+parent=alone,low", "0,0,3"),
            ("+parent=low,top", "0,0,9"),
            ("+parent=right,left", "0,0,12"),
        ],
    );
    on_diamond(
        kit,
        "joins-of-parents-taken",
        &[
            ("-parent=low,left", "0,0,4"),
            ("-parent=right,top", "0,0,5"),
            ("-parent=low,right", "0,0,3"),
            ("-parent=left,top", "0,0,1"),
        ],
    );
    on_diamond(
        kit,
        "joins-of-a-parent-put-above-all",
        &[("+parent=top,alone", "0,0,11"), ("+value=alone,z,1", "0,6,12"), ("-parent=top,alone", "0,5,10")],
    );
    kit.says("A tie put and taken: the parent or member tie counts when it is put, so taking it costs one less; a value tie costs the same both times.");
    on_diamond(
        kit,
        "joins-of-ties-put-and-taken",
        &[
            ("+parent=left,alone", "0,0,8"),
            ("-parent=left,alone", "0,0,7"),
            ("+member=u,alone", "0,0,3"),
            ("-member=u,alone", "0,0,2"),
            ("+value=left,z,1", "0,3,7"),
            ("-value=left,z,1", "0,3,7"),
        ],
    );
}

fn first_named(kit: &mut Kit) {
    kit.says("\"The edited holder is the first one named.\" The other one, and who else is below it, do not count.");
    on_diamond(
        kit,
        "joins-of-the-child-and-not-the-parent",
        &[("+parent=alone,top", "0,0,2"), ("-parent=alone,top", "0,0,1"), ("+parent=top,alone", "0,0,11")],
    );
    on_diamond(
        kit,
        "joins-of-the-party-and-not-the-group",
        &[("+member=v,low", "0,0,2"), ("-member=u,low", "0,0,1"), ("-member=v,low", "0,0,1")],
    );
    on_diamond(
        kit,
        "joins-of-a-tie-turned-round",
        &[("+parent=alone,low", "0,0,2"), ("-parent=alone,low", "0,0,1"), ("+parent=low,alone", "0,0,6")],
    );
}

/// d below b and c, both below a; g below e and f, both below d; u in d and in g.
/// Together 18: 1 for a, 2 for b, c, e and f, 3 for d, g and u.
const TWO_DIAMONDS: &str = "rights=1
attr=user,n,int
atom=user.n,1
ugroup=a
ugroup=b
ugroup=c
ugroup=d
ugroup=e
ugroup=f
ugroup=g
user=u
parent=b,a
parent=c,a
parent=d,b
parent=d,c
parent=e,d
parent=f,d
parent=g,e
parent=g,f
member=u,d
member=u,g
";

fn once(kit: &mut Kit) {
    kit.says("A holder that is below on several paths is one holder below: it counts once, with all its ties up, those to groups that are not below too.");
    on_diamond(kit, "joins-of-a-diamond", &[("+value=top,z,1", "0,5,10"), ("-value=top,z,1", "0,5,10")]);
    on_diamond(
        kit,
        "joins-of-a-user-below-on-three-paths",
        &[
            ("+member=u,top", "0,0,3"),
            ("+value=top,z,1", "0,5,11"),
            ("+member=u,left", "0,0,4"),
            ("+value=left,z,2", "0,3,9"),
            ("-value=top,z,1", "0,5,12"),
        ],
    );
    on_diamond(
        kit,
        "joins-of-ties-to-groups-elsewhere",
        &[("+member=u,alone", "0,0,3"), ("+value=low,z,1", "0,2,6"), ("+value=alone,z,1", "0,1,4")],
    );
    session(
        kit,
        "joins-of-two-diamonds",
        TWO_DIAMONDS,
        &[
            ("+value=a,n,1", "0,8,18"),
            ("-value=a,n,1", "0,8,18"),
            ("+value=b,n,1", "0,6,15"),
            ("-value=b,n,1", "0,6,15"),
            ("+value=d,n,1", "0,5,13"),
            ("+value=e,n,1", "0,0,8"),
            ("+value=g,n,1", "0,0,6"),
            ("+value=u,n,1", "0,0,3"),
            ("-parent=d,b", "0,0,12"),
            ("-parent=d,c", "0,0,11"),
        ],
    );
    session(
        kit,
        "joins-of-twenty-diamonds",
        &twenty_diamonds(),
        &[
            // 1 for the highest, 2, 2 and 3 for each diamond, 2 for the user.
            ("+value=g0,n,1", format!("0,62,{}", 1 + 20 * 7 + 2)),
            ("+value=g57,n,1", format!("0,0,{}", 3 + 7 + 2)),
            ("-parent=g60,g58", format!("0,0,{}", 2 + 2)),
            ("-parent=g60,g59", format!("0,2,{}", 1 + 2)),
            ("-value=g0,n,1", format!("0,57,{}", 1 + 19 * 7 + 2 + 2)),
        ],
    );
}

/// Each diamond hangs on the lowest group of the one before; u is in the last.
fn twenty_diamonds() -> String {
    let groups: String = (0..61).map(|number| format!("ugroup=g{number}\n")).collect();
    let diamond = |number: usize| {
        let [high, left, right, low] = [0, 1, 2, 3].map(|step| 3 * number + step);
        format!(
            "parent=g{left},g{high}\nparent=g{right},g{high}\nparent=g{low},g{left}\nparent=g{low},g{right}\n"
        )
    };
    let parents: String = (0..20).map(diamond).collect();
    format!("rights=1\nattr=user,n,int\natom=user.n,1\n{groups}user=u\n{parents}member=u,g60\n")
}

fn no_value_ties(kit: &mut Kit) {
    kit.says("Document 02, E3: \"its ties up to a parent or group\". Value ties lead to neither: they do not count.");
    on_diamond(
        kit,
        "joins-beside-values",
        &[
            ("+value=u,z,1", "0,1,2"),
            ("+value=u,z,2", "0,1,2"),
            ("+value=top,z,1", "0,4,10"),
            ("+value=top,z,2", "0,4,10"),
            ("+member=u,alone", "0,0,3"),
            ("-value=u,z,1", "0,0,3"),
        ],
    );
    let pairs: String = (0..256).map(|value| format!("atom=user.n,{value}\n")).collect();
    let values: String = (0..255).map(|value| format!("value=u,n,{value}\n")).collect();
    let file = format!("rights=1\nattr=user,n,int\n{pairs}ugroup=g\nuser=u\nmember=u,g\n{values}");
    session(
        kit,
        "joins-of-a-user-with-255-values",
        &file,
        &[
            ("+value=u,n,255", "0,1,2"),
            ("-value=u,n,0", "0,1,2"),
            ("+value=g,n,1", "0,1,3"),
            ("-member=u,g", "0,0,1"),
            ("+value=g,n,0", "0,1,1"),
        ],
    );
}

fn no_change(kit: &mut Kit) {
    kit.says(
        "Document 02, E3: \"The number equals that sum\", also where no set changes, or only some of them.",
    );
    let file = valley();
    session(
        kit,
        "joins-of-case-g",
        &file,
        &[("+value=day,zone,2", "0,1,5"), ("-value=season,zone,2", "0,0,4")],
    );
    on_diamond(
        kit,
        "joins-where-no-set-changes",
        &[
            ("+parent=low,top", "0,0,6"),
            ("+member=u,left", "0,0,3"),
            ("-parent=low,left", "0,0,6"),
            ("+parent=alone,top", "0,0,2"),
            ("-parent=left,top", "0,0,4"),
        ],
    );
    on_diamond(
        kit,
        "joins-where-some-sets-change",
        &[
            ("+value=low,z,1", "0,2,5"),
            ("+value=left,z,1", "0,1,7"),
            ("+value=top,z,1", "0,2,10"),
            ("-value=left,z,1", "0,0,7"),
            ("-value=low,z,1", "0,0,5"),
            ("-value=top,z,1", "0,5,10"),
        ],
    );
}

/// Object groups in a diamond, s in the lowest and t in the east: 12 in all.
const GATES: &str = "rights=1
attr=object,z,int
atom=object.z,1
ogroup=all
ogroup=west
ogroup=east
ogroup=mid
object=s
object=t
parent=west,all
parent=east,all
parent=mid,west
parent=mid,east
member=s,mid
member=t,east
";

/// The same shape for users and for objects, and admin with a value.
const TWO_SORTS: &str = "rights=1
attr=user,n,int
attr=object,n,int
attr=admin,n,int
atom=user.n,1
atom=object.n,1
atom=admin.n,1
ugroup=a
ugroup=b
ogroup=c
ogroup=d
user=u
object=t
parent=b,a
parent=d,c
member=u,b
member=t,d
";

fn sorts(kit: &mut Kit) {
    kit.says("Objects and their groups cost as users and theirs do. No tie leads from one sort to the other, nor from or to admin.");
    session(
        kit,
        "joins-of-objects",
        GATES,
        &[
            ("+value=all,z,1", "0,6,12"),
            ("+value=west,z,1", "0,0,7"),
            ("+value=east,z,1", "0,0,9"),
            ("+value=mid,z,1", "0,0,5"),
            ("+value=s,z,1", "0,0,2"),
            ("+member=t,mid", "0,0,3"),
            ("+value=t,z,1", "0,0,3"),
            ("-parent=mid,west", "0,0,7"),
            ("-parent=east,all", "0,0,8"),
        ],
    );
    session(
        kit,
        "joins-of-two-sorts",
        TWO_SORTS,
        &[
            ("+value=a,n,1", "0,3,5"),
            ("+value=c,n,1", "0,3,5"),
            ("+value=admin,n,1", "0,1,1"),
            ("+member=t,c", "0,0,3"),
            ("-value=c,n,1", "0,3,6"),
            ("-value=a,n,1", "0,3,5"),
        ],
    );
}

fn refused(kit: &mut Kit) {
    kit.says("Document 02, E3: \"A refused edit reports 0.\" Every number of an edit, on holders with others below them.");
    let cases = [
        ("4-key", "+values=top,z,1", "4,0,0"),
        ("4-sign-doubled", "++value=top,z,1", "4,0,0"),
        ("6", "+value=top,z,01", "6,0,0"),
        ("8", "+value=top,z,3", "8,0,0"),
        ("8-taken", "-value=top,z,3", "8,0,0"),
        ("9", "+parent=top,area", "9,0,0"),
        ("9-taken", "-parent=top,area", "9,0,0"),
        ("10", "+parent=left,top", "10,0,0"),
        ("12", "+parent=top,low", "12,0,0"),
        ("12-itself", "+parent=top,top", "12,0,0"),
        ("13", "+ugroup=top", "13,0,0"),
        ("14-parent", "-parent=left,alone", "14,0,0"),
        ("14-member", "-member=u,top", "14,0,0"),
        ("14-value", "-value=top,z,1", "14,0,0"),
    ];
    for (name, line, answer) in cases {
        on_diamond(kit, &format!("joins-refused-{name}"), &[(line, answer)]);
    }
    on_diamond(
        kit,
        "joins-refused-between-accepted",
        &[
            ("+value=top,z,1", "0,5,10"),
            ("+value=top,z,1", "10,0,0"),
            ("+parent=top,low", "12,0,0"),
            ("+value=top,z,2", "0,5,10"),
            ("-value=left,z,2", "14,0,0"),
            ("-value=top,z,2", "0,5,10"),
            ("+rule=o,TRUE", "13,0,0"),
            ("-value=top,z,1", "0,5,10"),
        ],
    );
    let cut = format!("{DIAMOND}end=\n+value=top,z,1\n+value=top,z,2");
    kit.case("joins-refused-without-byte-10", cut, "load=0,23 edit=0,5,10 edit=4,0,0");
    kit.says(
        "Every edit on the empty book is refused, so it reports 0, on that of a file without holders too.",
    );
    let lines =
        "end=\n+value=top,z,1\n+parent=admin,admin\n-member=u,low\n+value=admin,z,1\n+user=u\n+\n+parent=,\n";
    let answers = "edit=8,0,0 edit=9,0,0 edit=8,0,0 edit=8,0,0 edit=13,0,0 edit=4,0,0 edit=6,0,0";
    kit.case("joins-on-the-empty-book", format!("{DIAMOND}x\n{lines}"), &format!("load=4,24 {answers}"));
    kit.case("joins-on-the-shortest-file", format!("rights=1\n{lines}"), &format!("load=0,1 {answers}"));
}

fn many_groups(kit: &mut Kit) {
    kit.says("A user put into one group after another, and taken from them again: each time one and the groups that it is in then.");
    let groups: String = (0..8).map(|number| format!("ugroup=g{number}\n")).collect();
    let file = format!("rights=1\n{groups}user=u\n");
    let added = (0..8).map(|group| (format!("+member=u,g{group}"), format!("0,0,{}", 1 + (group + 1))));
    let taken = (0..8).map(|group| (format!("-member=u,g{group}"), format!("0,0,{}", 1 + (7 - group))));
    let edits: Vec<(String, String)> = added.chain(taken).collect();
    session(kit, "joins-of-groups-one-by-one", &file, &edits);
    kit.says("A holder in all 64 groups has 65 joins, the most that one holder can have; a group has at most 63 parents, so at most 64.");
    let groups: String = (0..64).map(|number| format!("ugroup=g{number}\n")).collect();
    let members: String = (0..62).map(|number| format!("member=u,g{number}\n")).collect();
    let file = format!("rights=1\nattr=user,n,int\natom=user.n,1\n{groups}user=u\n{members}");
    session(
        kit,
        "joins-of-a-user-in-64-groups",
        &file,
        &[
            ("+value=u,n,1", "0,1,63"),
            ("+member=u,g62", "0,0,64"),
            ("+member=u,g63", "0,0,65"),
            ("-value=u,n,1", "0,1,65"),
            ("+value=g0,n,1", "0,2,66"),
            ("-member=u,g0", "0,1,64"),
            ("-member=u,g63", "0,0,63"),
        ],
    );
    let groups: String = (0..64).map(|number| format!("ogroup=h{number}\n")).collect();
    let members: String = (0..64).map(|number| format!("member=t,h{number}\n")).collect();
    let file = format!("rights=1\nattr=object,n,int\natom=object.n,1\n{groups}object=t\n{members}");
    session(
        kit,
        "joins-of-an-object-in-64-groups",
        &file,
        &[
            ("+value=t,n,1", "0,1,65"),
            ("+value=h63,n,1", "0,1,66"),
            ("-member=t,h63", "0,0,64"),
            ("-member=t,h0", "0,0,63"),
            ("-value=t,n,1", "0,1,63"),
            ("+value=h63,n,1", "10,0,0"),
            ("+member=t,h63", "0,1,64"),
        ],
    );
}

/// The name of a holder in as few bytes as 255 names can have.
pub fn short(number: usize) -> String {
    let letters: Vec<char> = ('a'..='z').chain('0'..='9').chain(['_']).collect();
    match number.checked_sub(letters.len()) {
        None => letters[number].to_string(),
        Some(rest) => [letters[rest / letters.len()], letters[rest % letters.len()]].iter().collect(),
    }
}

/// 64 groups, each with all those before it as parents: group n has n + 1 joins, all
/// together 2,080. A group has all behind it below it.
pub fn all_parents() -> (String, String) {
    let groups: String = (0..64).map(|group| format!("ugroup={}\n", short(group))).collect();
    let of_child =
        |child: usize| (0..child).map(move |parent| format!("parent={},{}\n", short(child), short(parent)));
    (groups, (0..64).flat_map(of_child).collect())
}

/// The joins of the groups from this one on, with all parents: 2,080 less those of
/// the groups before it, which are 1 up to its number.
fn from(group: usize) -> usize {
    64 * 65 / 2 - group * (group + 1) / 2
}

fn bound(kit: &mut Kit) {
    kit.says("Document 02, E3: \"at most 16,640, which is 256 times 65\". This is never reached: a group cannot have 64 parents without a circle, admin has no tie up, and only one sort can be below one group. The largest sum that a book can have is 14,495: 64 groups, each with all those before it as parents, have 1 + 2 + ... + 64 = 2,080, and 191 users in all 64 groups 191 times 65 = 12,415. An input of 65,536 bytes has no room for these 14,240 ties; here all parents stand, and then users in two groups each. All stand in `library/joins-of-everyone-in-all-groups.in`, a call list in `library`.");
    let head = "rights=1\nattr=user,n,int\natom=user.n,1\n";
    let (groups, parents) = all_parents();
    let name = short;
    session(
        kit,
        "joins-of-all-parents",
        &format!("{head}{groups}{parents}"),
        &[
            (format!("+value={},n,1", name(0)), format!("0,64,{}", from(0))),
            (format!("+value={},n,1", name(32)), format!("0,0,{}", from(32))),
            (format!("+value={},n,1", name(63)), format!("0,0,{}", from(63))),
            (format!("+parent={},{}", name(0), name(63)), "12,0,0".to_string()),
            // Group 1 without its only parent; group 2 without one of two.
            (format!("-parent={},{}", name(1), name(0)), format!("0,1,{}", 1 + from(2))),
            (format!("-parent={},{}", name(2), name(1)), format!("0,0,{}", 2 + from(3))),
            // Group 2 is not below group 1 any more.
            (format!("+parent={},{}", name(1), name(0)), format!("0,1,{}", 2 + from(3))),
            (format!("-value={},n,1", name(0)), format!("0,32,{}", 1 + 2 + 2 + from(3))),
        ],
    );
    let users: String = (64..255).map(|user| format!("user={}\n", name(user))).collect();
    let member = |user: usize, group: usize| format!("member={},{}\n", name(user), name(group));
    let members: String = (64..255).map(|user| member(user, 0) + &member(user, 36)).collect();
    let below = 191 * 3;
    session(
        kit,
        "joins-of-all-parents-and-191-users",
        &format!("{head}{groups}{users}{parents}{members}"),
        &[
            (format!("+value={},n,1", name(0)), format!("0,255,{}", from(0) + below)),
            (format!("+value={},n,1", name(36)), format!("0,0,{}", from(36) + below)),
            (format!("+value={},n,1", name(37)), format!("0,0,{}", from(37))),
            (format!("+member={},{}", name(254), name(63)), "0,0,4".to_string()),
            (format!("-value={},n,1", name(0)), format!("0,36,{}", from(0) + below + 1)),
        ],
    );
}

/// What counts and decisions show of the sets, and what it costs.
pub fn sets() -> Kit {
    let mut kit = Kit::new("sets");
    kit.says("Document 02, E3: the walk goes on below a group whose set does not change, so those below it count, whether their sets change or not.");
    on_diamond(
        &mut kit,
        "joins-past-an-unchanged-group",
        &[
            ("+value=left,z,1", "0,3,7"),
            ("+value=right,z,1", "0,1,7"),
            ("+member=v,right", "0,1,2"),
            ("+value=top,z,1", "0,1,12"),
            ("-value=right,z,1", "0,0,9"),
            ("-value=top,z,1", "0,3,12"),
        ],
    );
    on_diamond(
        &mut kit,
        "joins-past-an-unchanged-group-to-one-that-changes",
        &[
            ("+value=left,z,1", "0,3,7"),
            ("+member=v,right", "0,0,2"),
            ("+value=top,z,1", "0,3,12"),
            ("-parent=right,top", "0,2,8"),
            ("+parent=right,top", "0,2,9"),
        ],
    );
    session(
        &mut kit,
        "joins-down-a-chain-that-does-not-change",
        THREE_LEVELS,
        &[
            ("+value=b,n,1", "0,4,8"),
            ("+value=a,n,1", "0,2,11"),
            ("-value=b,n,1", "0,0,8"),
            ("+parent=c,a", "0,0,5"),
            ("-parent=c,b", "0,0,4"),
            ("-value=a,n,1", "0,6,11"),
        ],
    );
    kit
}

/// What `gate` prints.
pub fn office() -> Kit {
    let mut kit = Kit::new("office-program");
    kit.says("Document 02, E3: \"`gate` prints it as a third number on `edit=` lines\", decimal, behind a comma, also where it is 0. All other lines are as before.");
    let file = members_of_a_group(4);
    session(
        &mut kit,
        "joins-printed-9-10-and-11",
        &file,
        &[
            ("+value=g,n,1", "0,5,9"),
            ("+member=u0,h", "0,0,3"),
            ("-value=g,n,1", "0,5,10"),
            ("+member=u3,h", "0,0,3"),
            ("+value=g,n,1", "0,5,11"),
        ],
    );
    let file = members_of_a_group(49);
    session(
        &mut kit,
        "joins-printed-99-100-and-101",
        &file,
        &[
            ("+value=g,n,1", "0,50,99"),
            ("+member=u0,h", "0,0,3"),
            ("-value=g,n,1", "0,50,100"),
            ("+member=u48,h", "0,0,3"),
            ("+value=g,n,1", "0,50,101"),
        ],
    );
    let file = members_of_a_group(253);
    session(
        &mut kit,
        "joins-printed-over-255-and-over-511",
        &file,
        &[
            ("+value=g,n,1", "0,254,507"),
            ("+parent=g,h", "0,0,508"),
            ("+value=h,n,1", "0,1,509"),
            ("+member=u0,h", "0,0,3"),
            ("+member=u1,h", "0,0,3"),
            ("+member=u252,h", "0,0,3"),
            ("-value=h,n,1", "0,1,512"),
            ("-value=g,n,1", "0,254,511"),
        ],
    );
    let input = format!(
        "{}end=\n+value=day,zone,2\ntry=010405000300000001000410000000\n\n-member=p17,day\n-value=season,zone,2\n\
         try=010405000300000001000411000000\n-parent=season,day",
        valley()
    );
    let answers =
        "load=0,27 edit=0,1,5 try=permit,0 bad= edit=14,0,0 edit=0,0,4 try=undefined,absent edit=4,0,0";
    kit.case("joins-printed-between-other-lines", input, answers);
    let lines = "end=\n+value=top,z,1\n-parent=admin,admin\n+\n";
    kit.case(
        "joins-printed-after-a-refused-load",
        format!("{DIAMOND}op=late\n{lines}"),
        "load=5,24 edit=8,0,0 edit=9,0,0 edit=4,0,0",
    );
    kit.case(
        "joins-printed-behind-more-than-32768-bytes",
        format!("{}{lines}", "x\n".repeat(16_385)),
        "load=2,0 edit=8,0,0 edit=9,0,0 edit=4,0,0",
    );
    kit
}

/// Group g with so many users, each in no other group, and group h.
fn members_of_a_group(users: usize) -> String {
    let declared: String = (0..users).map(|user| format!("user=u{user}\n")).collect();
    let members: String = (0..users).map(|user| format!("member=u{user},g\n")).collect();
    format!("rights=1\nattr=user,n,int\natom=user.n,1\nugroup=g\nugroup=h\n{declared}{members}")
}

/// Calls of the library.
pub fn calls() -> Kit {
    let mut kit = Kit::new("library");
    listed(&mut kit);
    joins_limit::add(&mut kit);
    wrong_tables(&mut kit);
    kit
}

fn listed(kit: &mut Kit) {
    kit.says("Document 02, E3: \"The edit's answer carries also the number of set joins made\" and \"The ledger compares it too.\" A call list prints it as `gate` does; it hangs on no word of the table.");
    let mut list = List::new();
    list.load(&valley(), VALLEY_WORDS);
    list.edit("+value=day,zone,2", (1, 5), "4:d,8:f,12:10,16:f,20:10");
    list.edits(&[("-value=season,zone,2", 4), ("+member=p17,day", 3)]);
    list.refused_edit("+parent=day,season", 12);
    list.edit("-parent=season,day", (1, 4), "4:d,8:2,12:10,16:f,20:10");
    list.edit("-member=p17,season", (1, 2), "4:d,8:2,12:10,16:d,20:10");
    list.edit("-member=p17,day", (1, 1), "4:d,8:2,12:10,20:10");
    list.edit("-value=upper,zone,2", (2, 3), "4:d,8:2");
    list.done(kit, "joins-of-edits");
    let mut list = List::on("1024,0:ff,7:1,1023:1", "");
    list.load(DIAMOND, "");
    list.edit("+value=top,z,1", (5, 10), "4:1,8:1,12:1,16:1,28:1");
    list.refused_edit("+value=top,z,1", 10);
    list.refused_edit("value=top,z,2", 4);
    list.load(DIAMOND, "");
    list.edits(&[("-parent=left,top", 6), ("-parent=right,top", 6)]);
    list.edit("+value=top,z,1", (1, 1), "4:1");
    list.done(kit, "joins-after-a-second-load");
    let mut list = List::new();
    list.load(DIAMOND, "");
    list.edits(&[("+parent=top,alone", 11)]);
    list.refused_load("rights=1\nop=A\n", "load=6,2");
    list.refused_edit("-parent=top,alone", 8);
    list.refused_edit("+parent=admin,admin", 9);
    list.refused_edit("parent=top,alone", 4);
    list.load(DIAMOND, "");
    list.edits(&[("+parent=top,alone", 11)]);
    list.done(kit, "joins-after-a-refused-load");
    kit.says(
        "The joins hang on ties alone: a book written, loaded again and edited costs the same as before.",
    );
    let text = format!("{DIAMOND}rule=o,TRUE\n").replace("user.z = object.z", "user.z=object.z");
    let mut list = List::new();
    list.load(&text, "");
    list.edits(&[
        ("+parent=alone,low", 2),
        ("+member=v,alone", 2),
        ("-parent=alone,low", 3),
        ("-member=v,alone", 1),
    ]);
    list.write(text.len(), 0, &text);
    list.edit("+value=top,z,2", (5, 10), "4:2,8:2,12:2,16:2,28:2");
    list.load(&text, "");
    list.edit("+value=top,z,2", (5, 10), "4:2,8:2,12:2,16:2,28:2");
    list.done(kit, "joins-of-a-book-written-and-loaded-again");
}

fn wrong_tables(kit: &mut Kit) {
    kit.says("On a table of another length an edit is refused with 1, so it reports 0 for both.");
    for (name, table, words) in [
        ("joins-on-a-table-of-0-words", "0", ""),
        ("joins-on-a-table-of-1023-words", "1023,5:5", "5:5"),
        ("joins-on-a-table-of-1025-words", "1025,1024:7", "1024:7"),
        ("joins-on-a-table-of-4096-words", "4096,4095:1", "4095:1"),
    ] {
        let mut list = List::on(table, words);
        list.refused_load(DIAMOND, "load=1,0");
        list.refused_edit("+value=top,z,1", 1);
        list.refused_edit("+parent=top,low", 1);
        list.refused_edit("value=top,z,1", 1);
        list.done(kit, name);
    }
}

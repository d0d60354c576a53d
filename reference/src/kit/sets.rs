//! Vectors for "Sets". The table itself is not printed; counts and decisions
//! show it.

use super::Kit;

/// A diamond (top, left and right, low) with user 7 below; 23 lines.
pub const DIAMOND: &str = "rights=1
attr=user,z,int
attr=object,z,int
op=o
atom=user.z,1
atom=user.z,2
atom=object.z,1
ugroup=top
ugroup=left
ugroup=right
ugroup=low
ugroup=alone
ogroup=area
user=u
user=v
object=t
parent=left,top
parent=right,top
parent=low,left
parent=low,right
member=u,low
member=t,area
rule=o,user.z = object.z
";

/// User u at object t with attribute 0 activated.
const TRY: &str = "try=01070900010000000000\n";

pub fn kit() -> Kit {
    let mut kit = Kit::new("sets");
    diamond(&mut kit);
    walk(&mut kit);
    read_by_blocks(&mut kit);
    large(&mut kit);
    kit
}

fn after(kit: &mut Kit, name: &str, lines: &str, answers: &str) {
    let input = format!("{DIAMOND}end=\n{lines}");
    kit.case(name, input, &format!("load=0,23 {answers}"));
}

fn diamond(kit: &mut Kit) {
    kit.says("\"effective(h): its own direct pairs together with those inherited from each parent (a group) or each group it is a member of (a user or object)\"");
    after(kit, "value-on-top-reaches-all-below", "+value=top,z,1\n", "edit=0,5,10");
    after(kit, "value-on-user", "+value=u,z,1\n", "edit=0,1,2");
    after(kit, "value-on-group-of-objects", "+value=area,z,1\n", "edit=0,2,3");
    after(
        kit,
        "one-side-of-a-diamond-taken",
        "+value=top,z,1\n-parent=low,left\n-parent=low,right\n+parent=low,left\n",
        "edit=0,5,10 edit=0,0,4 edit=0,2,3 edit=0,2,4",
    );
    after(
        kit,
        "value-by-two-paths-taken",
        "+value=top,z,1\n+value=low,z,1\n-value=top,z,1\n-value=low,z,1\n",
        "edit=0,5,10 edit=0,0,5 edit=0,3,10 edit=0,2,5",
    );
    after(
        kit,
        "own-and-inherited-values",
        "+value=u,z,2\n+value=top,z,1\n-value=u,z,2\n+value=top,z,2\n",
        "edit=0,1,2 edit=0,5,10 edit=0,1,2 edit=0,5,10",
    );
}

fn walk(kit: &mut Kit) {
    kit.says("\"ending the whole walk at the first unchanged group, though a holder below on another path changes\" is an error to look out for.");
    after(
        kit,
        "unchanged-group-on-one-path",
        "+member=v,right\n+value=left,z,1\n+value=top,z,1\n-value=top,z,1\n",
        "edit=0,0,2 edit=0,3,7 edit=0,3,12 edit=0,3,12",
    );
    after(
        kit,
        "unchanged-group-right-below",
        "+value=left,z,1\n+value=right,z,1\n+value=top,z,1\n-value=left,z,1\n-value=right,z,1\n-value=top,z,1\n",
        "edit=0,3,7 edit=0,1,7 edit=0,1,10 edit=0,0,7 edit=0,0,7 edit=0,5,10",
    );
    after(
        kit,
        "tie-turned-round",
        "+parent=right,left\n-parent=right,left\n+parent=left,right\n-parent=left,top\n+value=top,z,1\n-value=top,z,1\n",
        "edit=0,0,8 edit=0,0,7 edit=0,0,8 edit=0,0,7 edit=0,5,10 edit=0,5,10",
    );
    kit.says("\"Holder g is above h when a chain of ties leads from h up to g\"");
    after(
        kit,
        "groups-joined-by-an-edit",
        "+value=low,z,1\n+member=v,alone\n+parent=alone,low\n-member=v,alone\n-parent=alone,low\n",
        "edit=0,2,5 edit=0,0,2 edit=0,2,4 edit=0,1,1 edit=0,1,1",
    );
}

fn read_by_blocks(kit: &mut Kit) {
    kit.says("\"Load and edits keep it equal to effective(k).\"");
    after(
        kit,
        "blocks-between-edits",
        &format!("{TRY}+value=top,z,1\n{TRY}+value=area,z,1\n{TRY}-value=top,z,1\n{TRY}"),
        "try=refused,17 edit=0,5,10 try=undefined,absent edit=0,2,3 try=permit,0 edit=0,5,10 try=refused,17",
    );
    after(
        kit,
        "second-value-then-first-taken",
        &format!("+value=area,z,1\n+value=u,z,2\n{TRY}+value=left,z,1\n{TRY}-value=u,z,2\n{TRY}"),
        "edit=0,2,3 edit=0,1,2 try=deny edit=0,3,7 try=permit,0 edit=0,1,2 try=permit,0",
    );
    kit.says("\"`object.` and `admin.` read those holders' sets\": admin has a set of its own, holder 0.");
    let admin = "rights=1\nattr=admin,open,bool\nop=o\natom=admin.open,TRUE\natom=admin.open,FALSE\n\
                 user=u\nobject=t\nvalue=admin,open,FALSE\nrule=o,admin.open\nend=\n";
    let block = "try=01010200000000000000\n";
    let lines = format!(
        "{block}+value=admin,open,TRUE\n{block}-value=admin,open,FALSE\n-value=admin,open,TRUE\n{block}"
    );
    kit.case(
        "admin-values",
        format!("{admin}{lines}"),
        "load=0,9 try=deny edit=0,1,1 try=permit,0 edit=0,1,1 edit=0,1,1 try=undefined,absent",
    );
}

fn large(kit: &mut Kit) {
    kit.says("\"Others are numbered from 1 in file order, at most 255, of which at most 64 groups\"; a chain of all 64 groups.");
    let groups: String = (0..64).map(|number| format!("ugroup=g{number}\n")).collect();
    let chain: String = (1..64).map(|number| format!("parent=g{number},g{}\n", number - 1)).collect();
    let head = "rights=1\nattr=user,n,int\nop=o\natom=user.n,1\n";
    let file = format!("{head}{groups}user=u\nobject=t\n{chain}member=u,g63\nrule=o,user.n = 1\n");
    let lines = "end=\n+value=g0,n,1\ntry=01414200010000000000\n+parent=g0,g63\n-parent=g32,g31\n\
                 try=01414200010000000000\n+parent=g0,g63\n";
    kit.case(
        "chain-of-64-groups",
        format!("{file}{lines}"),
        "load=0,135 edit=0,65,129 try=permit,0 edit=12,0,0 edit=0,33,65 try=refused,17 edit=0,0,64",
    );
    kit.says("\"Holder k's stored set is the four words from word 4k; pair p is bit p modulo 64 (0 lowest) of word p/64\"; holders and pairs to the last number.");
    let pairs: String = (0..256).map(|value| format!("atom=user.n,{value}\n")).collect();
    let users: String = (0..253).map(|number| format!("user=p{number}\n")).collect();
    let ties: String = (0..253).map(|number| format!("member=p{number},g\n")).collect();
    let rules = "rule=o,user.n = 255 AND user.n = 64\n";
    let file = format!("rights=1\nattr=user,n,int\nop=o\n{pairs}ugroup=g\n{users}object=t\n{ties}{rules}");
    let last_user = "try=01feff00010000000000\n";
    let lines = format!(
        "end=\n+value=g,n,255\n+value=g,n,63\n{last_user}+value=p252,n,64\n{last_user}-value=g,n,255\n"
    );
    kit.case(
        "all-holders-and-pairs",
        format!("{file}{lines}"),
        "load=0,768 edit=0,254,507 edit=0,254,507 try=deny edit=0,1,2 try=permit,0 edit=0,254,507",
    );
}

//! The call list for document 02, E3, with the largest sum that a book can have: 64
//! groups, each with all those before it as parents, and 191 users, each in all groups.

use super::joins::{all_parents, short};
use super::list::List;
use super::Kit;

/// The member lines that a file of 32,768 bytes has room for behind all parents. The
/// first line, attribute and pair have 9, 16 and 14 bytes. 37 groups with a name of one
/// byte have 9 each, 27 groups with one of two bytes 10, 191 users 8: 603 and 1,528.
/// Parent lines have 11 bytes where both names have one (37 * 36 / 2 = 666 lines), 13
/// where both have two (27 * 26 / 2 = 351), else 12 (27 * 37 = 999): 23,877. So 26,047
/// bytes are taken and 6,721 left. A member line has 12 bytes or, by the group's name,
/// 13, so a user in all groups 37 * 12 + 27 * 13 = 795: eight users take 6,360, thirty
/// lines of the ninth 360, and one byte stays.
const IN_FILE: usize = 8 * 64 + 30;

/// The last member ties. With nearly all ties standing the ledger takes long for each.
const ANSWERED_BY_LEDGER: usize = 8;

/// What 191 users in 64 groups each cost together.
const ALL_USERS: usize = 191 * 65;

/// User and group of each member tie, user by user.
fn members() -> Vec<(usize, usize)> {
    (64..255).flat_map(|user| (0..64).map(move |group| (user, group))).collect()
}

fn member_line((user, group): (usize, usize)) -> String {
    format!("member={},{}", short(user), short(group))
}

fn file(members: &[(usize, usize)]) -> String {
    let (groups, parents) = all_parents();
    let users: String = (64..255).map(|user| format!("user={}\n", short(user))).collect();
    let members: String = members.iter().map(|&tie| member_line(tie) + "\n").collect();
    format!("rights=1\nattr=user,n,int\natom=user.n,1\n{groups}{users}{parents}{members}")
}

/// Edits that add these ties. A user gets its groups in their order, so that group n
/// is its group number n + 1: one, and as many groups.
fn added(members: &[(usize, usize)]) -> Vec<(String, usize)> {
    members
        .iter()
        .map(|&(user, group)| (format!("+{}", member_line((user, group))), 1 + (group + 1)))
        .collect()
}

pub fn add(kit: &mut Kit) {
    kit.says("Document 02, E3: the largest sum that a book can have, 14,495. The file has all parents and the first member ties, edits add the others up to 191 users in all 64 groups: the k-th group of a user costs one and k. A value at the highest group then costs 2,080 for the groups and 191 times 65 for the users, put or taken; a parent of the lowest group 64 for this group, or 63 when it is taken, and the same for the users, who are all below it.");
    let members = members();
    let (in_file, by_edits) = members.split_at(IN_FILE);
    let (others, last) = by_edits.split_at(by_edits.len() - ANSWERED_BY_LEDGER);
    let mut list = List::new();
    list.load(&file(in_file), "");
    list.edits_unanswered_by_ledger(&added(others));
    list.edits(&added(last));
    let (highest, lowest, user) = (short(0), short(63), short(254));
    let all = (255, 64 * 65 / 2 + ALL_USERS);
    let first_words: Vec<String> = (1..256).map(|holder| format!("{}:1", 4 * holder)).collect();
    list.edit(&format!("+value={highest},n,1"), all, &first_words.join(","));
    list.edit(&format!("-value={highest},n,1"), all, "");
    list.edits(&[
        (format!("-parent={lowest},{highest}"), 63 + ALL_USERS),
        (format!("+parent={lowest},{highest}"), 64 + ALL_USERS),
        (format!("-member={user},{lowest}"), 64),
        (format!("+member={user},{lowest}"), 65),
    ]);
    list.done(kit, "joins-of-everyone-in-all-groups");
}

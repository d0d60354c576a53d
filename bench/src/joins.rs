//! The set joins of an edit, worked out from a file alone.

/// The parent and member lines of a file: who stands under which group.
fn ties_up(text: &str) -> Vec<(&str, &str)> {
    let of_key = |line| str::strip_prefix(line, "parent=").or_else(|| str::strip_prefix(line, "member="));
    text.lines().filter_map(of_key).filter_map(|fields| fields.split_once(',')).collect()
}

/// For this holder and each one below it, one and its ties up to a parent or group, as the file has them.
pub fn of_edit(file: &[u8], holder: &str) -> usize {
    let text = std::str::from_utf8(file).unwrap_or_default();
    let ties = ties_up(text);
    let mut reached = vec![holder];
    let mut next = 0;
    while let Some(&group) = reached.get(next) {
        for &(lower, upper) in &ties {
            if upper == group && !reached.contains(&lower) {
                reached.push(lower);
            }
        }
        next += 1;
    }
    reached.len() + ties.iter().filter(|(lower, _)| reached.contains(lower)).count()
}

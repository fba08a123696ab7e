//! How much there may be of what a word counts: for the places and sentences of refusals. The library alone decides.

/// The most that a count word of this kind may count, and what that is.
pub fn most(kind: u8) -> Option<(usize, &'static str)> {
    Some(match kind {
        3 => (512, "defaulted names"),
        5 => (cogunwa::MAX_RELATIONS, "relations"),
        9 => (8, "slot kinds"),
        13 => (8, "steps in a path"),
        21 => (8, "kinds"),
        22 => (cogunwa::MAX_RULES, "rules"),
        26 => (64, "bodies"),
        28 => (cogunwa::MAX_BLOCKS, "blocks of inputs"),
        30 => (1024, "items in a block"),
        _ => return None,
    })
}

/// A number with a comma before its last three digits.
pub fn with_comma(number: usize) -> String {
    if number < 1000 { number.to_string() } else { format!("{},{:03}", number / 1000, number % 1000) }
}

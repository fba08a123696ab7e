//! The nodes of trees: their kinds, the words that stand for them in texts, and what follows each.

pub const LEAF: u8 = 64;
pub const UNARY: u8 = 66;
pub const BINARY: u8 = 67;
pub const IF: u8 = 71;
pub const NO_MATCH: u8 = 72;
pub const PERIODS: u8 = 73;
pub const COUNT: u8 = 74;
pub const SINGLE: u8 = 77;
pub const ONLY: u8 = 78;
pub const COMPARE: u8 = 96;
pub const NOT: u8 = 100;
pub const MEMBER: u8 = 101;
pub const ATOM: u8 = 102;
pub const EXISTS: u8 = 103;
pub const SAME: u8 = 104;
pub const ROLE: u8 = 106;

const SCALARS: [(&str, u8); 15] = [
    ("leaf", 64),
    ("derived", 65),
    ("unary", 66),
    ("binary", 67),
    ("add", 68),
    ("min", 69),
    ("max", 70),
    ("if", 71),
    ("nomatch", 72),
    ("periods", 73),
    ("count", 74),
    ("sum", 75),
    ("extreme", 76),
    ("single", 77),
    ("only", 78),
];

const JUDGMENTS: [(&str, u8); 11] = [
    ("compare", 96),
    ("and", 97),
    ("or", 98),
    ("exactly_one", 99),
    ("not", 100),
    ("member", 101),
    ("atom", 102),
    ("exists", 103),
    ("same", 104),
    ("derived", 105),
    ("role", 106),
];

/// The words that begin a tree of this sort, with their kinds.
pub fn heads(judgment: bool) -> &'static [(&'static str, u8)] {
    if judgment { &JUDGMENTS } else { &SCALARS }
}

pub fn kind_of(word: &str, judgment: bool) -> Option<u8> {
    heads(judgment).iter().find(|(head, _)| *head == word).map(|&(_, kind)| kind)
}

/// The word of a kind; an empty one for a kind that no node has.
pub fn word_of(kind: u8) -> &'static str {
    let all = SCALARS.iter().chain(&JUDGMENTS);
    all.copied().find(|&(_, k)| k == kind).map_or("", |(word, _)| word)
}

/// What a node with slots is called in sentences.
pub fn called(kind: u8) -> &'static str {
    match kind {
        74 => "the count over",
        75 => "the sum over",
        76 => "the extreme over",
        77 => "the single one of",
        78 => "the only one of",
        _ => "the membership test of",
    }
}

pub fn fits(kind: u8, judgment: bool) -> bool {
    heads(judgment).iter().any(|&(_, k)| k == kind)
}

pub fn has_slots(kind: u8) -> bool {
    matches!(kind, COUNT..=ONLY | MEMBER)
}

/// Whether the value of a node is a number that the tool does not read.
pub fn opaque_value(kind: u8) -> bool {
    matches!(kind, LEAF | UNARY | BINARY | COMPARE | SAME | ROLE)
}

/// How many judgments follow a node, and then how many scalars.
pub fn children(kind: u8, value: u32, where_tree: bool) -> (u32, u32) {
    match kind {
        UNARY => (0, 1),
        BINARY | COMPARE => (0, 2),
        68..=70 => (0, value),
        IF => (1, 2),
        NO_MATCH => (0, value.saturating_add(1)),
        PERIODS => (0, 1 + value % 2),
        COUNT..=SINGLE => (where_tree.into(), 0),
        97..=99 => (value, 0),
        NOT | EXISTS => (1, 0),
        _ => (0, 0),
    }
}

/// Whether the value of a node is a name.
pub fn names(kind: u8) -> bool {
    matches!(kind, 65 | COUNT..=ONLY | MEMBER..=EXISTS | 105)
}

//! Why an operation refuses.

use std::error::Error;
use std::fmt;

/// Why an operation refused. Fields that the number does not fill are 0.
#[derive(Clone, Copy, Debug, PartialEq, Eq, Hash)]
pub struct Refusal {
    /// The refusal's number, from 1 on; [`kind`](Refusal::kind) gives it a name.
    pub number: u32,
    /// The index of a word in the pack.
    pub place: usize,
    /// A name of the pack; for [`NotAName`](RefusalKind::NotAName) the one handed over.
    pub name: u32,
    /// One more name of the pack.
    pub other: u32,
}

impl Refusal {
    /// What the number means.
    ///
    /// ```
    /// let refusal = cogunwa::check(&[0; 3]).unwrap_err();
    /// assert_eq!(refusal.kind(), cogunwa::RefusalKind::WrongLength);
    /// ```
    pub fn kind(&self) -> RefusalKind {
        RefusalKind::of_number(self.number)
    }
}

impl fmt::Display for Refusal {
    fn fmt(&self, f: &mut fmt::Formatter<'_>) -> fmt::Result {
        use RefusalKind::*;
        let Refusal { number, place, name, other } = *self;
        match self.kind() {
            WrongKind => write!(f, "word {place} is of the wrong kind"),
            Ended => write!(f, "the pack ends at word {place}, where one more is due"),
            WrongValue => write!(f, "word {place} has a value that is not allowed"),
            TooDeep => write!(f, "word {place} is a tree node at depth 33"),
            NotRising => write!(f, "word {place} is a defaulted name that is not above the one before"),
            NameUsed => write!(f, "word {place} gives a relation the name {name}, which was used before"),
            LeftOver => write!(f, "words are left over after the last block, from word {place} on"),
            EqualKinds => write!(f, "the defaulted relation {name}, at word {place}, has equal kinds at its two slots"),
            DirectionOpen => write!(f, "in {name}, the direction of word {place} is open: both slots fit {other}"),
            DerivedInput => write!(f, "in {name}, word {place} asks for {other}, which is derived"),
            NoSequence => write!(f, "in {name}, word {place} asks for {other}, but a block of inputs is no sequence"),
            NotDeclaredOnce => {
                write!(f, "in {name}, word {place} asks for {other}, which is not declared exactly once")
            }
            NotBoolean => write!(f, "in {name}, word {place} asks for {other}, which is not Boolean"),
            WrongOwner => write!(
                f,
                "in {name}, word {place} asks for {other}, whose entity is not the owner, or there is no owner"
            ),
            NotAName => write!(f, "the name {name} is not one of the pack's names"),
            kind @ (WrongLength | NoRoom) => f.write_str(kind.text()),
            Unknown => write!(f, "refusal {number}: place {place}, name {name}, other {other}"),
        }
    }
}

impl Error for Refusal {}

macro_rules! kinds {
    ($($(#[$doc:meta])* $kind:ident = $number:literal, $text:literal;)*) => {
        /// What a refusal's number means. Later versions may have more.
        #[derive(Clone, Copy, Debug, PartialEq, Eq, Hash, PartialOrd, Ord)]
        #[non_exhaustive]
        pub enum RefusalKind {
            /// A number that this version does not know.
            Unknown = 0,
            $(#[doc = concat!(stringify!($number), ": ", $text, ".")] $(#[$doc])* $kind = $number,)*
        }

        impl RefusalKind {
            /// All that this version knows, by their numbers.
            pub const ALL: &[RefusalKind] = &[$(RefusalKind::$kind),*];

            /// The kind that has this number, or [`Unknown`](RefusalKind::Unknown).
            ///
            /// ```
            /// use cogunwa::RefusalKind;
            /// assert_eq!(RefusalKind::of_number(10), RefusalKind::DirectionOpen);
            /// assert_eq!(RefusalKind::of_number(63), RefusalKind::Unknown);
            /// ```
            pub fn of_number(number: u32) -> RefusalKind {
                match number {
                    $($number => RefusalKind::$kind,)*
                    _ => RefusalKind::Unknown,
                }
            }

            /// What it means, without the fields of the one refusal.
            ///
            /// ```
            /// assert_eq!(cogunwa::RefusalKind::WrongKind.text(), "a word is of the wrong kind");
            /// ```
            pub fn text(self) -> &'static str {
                match self {
                    $(RefusalKind::$kind => $text,)*
                    RefusalKind::Unknown => "a refusal that this version does not know",
                }
            }
        }
    };
}

kinds! {
    WrongLength = 1, "the bytes are not whole words, or not 6 to 8,192 of them";
    /// Place: the word.
    WrongKind = 2, "a word is of the wrong kind";
    /// Place: the pack's length in words.
    Ended = 3, "the pack has ended where one more word is due";
    /// Place: the word.
    WrongValue = 4, "a word has a value that is not allowed";
    /// Place: the node.
    TooDeep = 5, "a tree node is at depth 33";
    /// Place: the word.
    NotRising = 6, "a defaulted name is not above the one before";
    /// Place: the word. Name: the relation.
    NameUsed = 7, "a relation has a name that was used before";
    /// Place: the first of the words.
    LeftOver = 8, "words are left over after the last block";
    /// Place: its kind 6 word. Name: the relation.
    EqualKinds = 9, "a defaulted relation has equal kinds at its current and related slot";
    /// Place: the node. Name: the citing rule or relation. Other: the entity, or at RelationMember the kind.
    DirectionOpen = 10, "the direction is open: both slots fit";
    /// Place: the node. Name: the citing rule or relation. Other: the derived name.
    DerivedInput = 11, "OnlyRelated asks for a derived name";
    /// Place: the node. Name: the citing rule or relation. Other: the input.
    NoSequence = 12, "OnlyRelated asks for an input, but a block of the citing origin is no sequence";
    /// Place: the node. Name: the citing rule or relation. Other: the input.
    NotDeclaredOnce = 13, "OnlyRelated asks for an input that is not declared exactly once in the blocks of the citing origin";
    /// Place: the node. Name: the citing rule or relation. Other: the input.
    NotBoolean = 14, "OnlyRelated asks for an input that is not Boolean";
    /// Place: the node. Name: the citing rule or relation. Other: the input.
    WrongOwner = 15, "OnlyRelated asks for an input of another entity than the related kind, or there is no such kind";
    NoRoom = 16, "the output has too few words, or the result would have over 8,192";
    /// Name: that name.
    NotAName = 17, "a name handed over is not one of the pack's";
}

impl RefusalKind {
    /// The number; 0 for [`Unknown`](RefusalKind::Unknown).
    ///
    /// ```
    /// assert_eq!(cogunwa::RefusalKind::DirectionOpen.number(), 10);
    /// ```
    pub fn number(self) -> u32 {
        self as u32
    }
}

impl fmt::Display for RefusalKind {
    fn fmt(&self, f: &mut fmt::Formatter<'_>) -> fmt::Result {
        f.write_str(self.text())
    }
}

#[cfg(test)]
mod tests {
    use super::*;

    #[test]
    fn refusals_in_words() {
        let said = |number, place, name| Refusal { number, place, name, other: 3 }.to_string();
        assert_eq!(said(1, 0, 0), "the bytes are not whole words, or not 6 to 8,192 of them");
        assert_eq!(said(2, 5, 0), "word 5 is of the wrong kind");
        assert_eq!(said(7, 12, 9), "word 12 gives a relation the name 9, which was used before");
        assert_eq!(said(9, 12, 7), "the defaulted relation 7, at word 12, has equal kinds at its two slots");
        assert_eq!(said(10, 33, 8), "in 8, the direction of word 33 is open: both slots fit 3");
        assert_eq!(said(13, 33, 8), "in 8, word 33 asks for 3, which is not declared exactly once");
        assert_eq!(said(17, 0, 4_000_000_000), "the name 4000000000 is not one of the pack's names");
        assert_eq!(said(33, 1, 2), "refusal 33: place 1, name 2, other 3");
    }

    #[test]
    fn numbers_are_those_of_the_header() {
        let header = include_str!("../../include/cogunwa.h");
        let numbers: Vec<(&str, u32)> = header
            .lines()
            .filter_map(|line| line.trim().strip_prefix("COGUNWA_")?.split_once(" = "))
            .filter_map(|(name, rest)| Some((name, rest.split([',', ' ']).next()?.parse().ok()?)))
            .filter(|&(_, number)| number != 0)
            .collect();
        assert_eq!(numbers.len(), RefusalKind::ALL.len());
        for (kind, (name, number)) in RefusalKind::ALL.iter().zip(numbers) {
            assert_eq!(kind.number(), number);
            assert_eq!(RefusalKind::of_number(number), *kind);
            assert_eq!(format!("{kind:?}").to_uppercase(), name.replace('_', ""));
            let case = format!("case COGUNWA_{name}: return \"{}\";", kind.text());
            assert!(header.contains(&case), "the header has no line: {case}");
        }
    }
}

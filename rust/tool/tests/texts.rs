//! Texts as authors may write them: with comments anywhere, laid out in any way, and damaged in any way.
mod cases;

use cogunwa_model::Chance;
use cogunwa_model::damage::damaged as damaged_words;
use cogunwa_model::replay::{Tried, by_chance};
use cogunwa_tool::accepted::accept;
use cogunwa_tool::input::{from_bytes, from_hex};
use cogunwa_tool::layout::layout;
use cogunwa_tool::lex::{Token, lex};
use cogunwa_tool::make::{Made, make};
use cogunwa_tool::names::Naming;
use cogunwa_tool::point::pointed;
use cogunwa_tool::read::read;

fn made(text: &str) -> Made {
    make(text).unwrap_or_else(|b| panic!("{}", pointed("text", text, b.span, &b.message)))
}

/// What `fmt` writes for a text that the library accepts.
fn formatted(text: &str) -> String {
    let made = made(text);
    let pack = read(&made.words).expect("words that are read");
    layout(&pack, &made.naming, Some(&made))
}

/// Tries the sample's text with its legend, one that has everything, and texts of packs by chance; answers whether all were.
fn each_text(seed: u64, count: u64, mut test: impl FnMut(&str, &mut Chance)) -> bool {
    let mut chance = Chance::new(seed);
    test(include_str!("../../../examples/household.pack"), &mut chance);
    test(include_str!("../../../tests/golden/packs/everything.pack"), &mut chance);
    by_chance(seed, count, &cases::FORMS, |words, chance| {
        if words.len() < 600 {
            let naming = match chance.often(50) {
                true => Naming::Numbers,
                false => Naming::Texts(cases::texts(chance, words[1] & 0xFF_FFFF)),
            };
            test(&layout(&read(words).unwrap(), &naming, None), chance);
        }
    })
}

/// The tokens of a text, with something between them that is made by chance.
fn strewn(text: &str, tokens: &[Token], c: &mut Chance, between: &mut dyn FnMut(&mut Chance) -> String) -> String {
    let mut out = between(c);
    for token in tokens {
        out.push_str(&text[token.span.start..token.span.end]);
        out.push_str(&between(c));
    }
    out
}

#[test]
fn the_layout_does_not_matter() {
    each_text(2210, 250, |text, c| {
        let plain = formatted(
            &text
                .lines()
                .filter(|line| !line.trim_start().starts_with('#'))
                .map(|l| format!("{l}\n"))
                .collect::<String>(),
        );
        let lexed = lex(&plain).unwrap();
        // a name, then a number: some blank must stand between any two
        let mut blanks = |c: &mut Chance| [" ", "\n", "\t", "\r\n", "   ", " \n\n"][c.below(6) as usize].to_string();
        let strewn = strewn(&plain, &lexed.tokens, c, &mut blanks);
        if lexed.comments.is_empty() {
            assert_eq!(formatted(&strewn), plain);
        }
    });
}

#[test]
fn comments_are_kept() {
    let mut kept = 0;
    let all = each_text(2211, 300, |text, c| {
        let lexed = lex(text).unwrap();
        let mut number = 0;
        let often = 1 + c.below(30);
        let mut gaps = |c: &mut Chance| {
            if !c.often(often) {
                return [" ", "\n"][c.below(2) as usize].to_string();
            }
            number += 1;
            ["  # {}\n", "\n# {}\n", "\n\n    # {}\n", "\n#{}\n\n", " # {}\r\n"][c.below(5) as usize]
                .replace("{}", &format!("note {number} # of it"))
        };
        let with_comments = strewn(text, &lexed.tokens, c, &mut gaps);
        let once = formatted(&with_comments);
        let all = |text: &str| {
            lex(text).unwrap().comments.iter().map(|comment| comment.text.clone()).collect::<Vec<_>>().join(" #")
        };
        assert_eq!(all(&once), all(&with_comments), "of\n{with_comments}");
        assert_eq!(made(&once).words, made(text).words);
        assert_eq!(formatted(&once), once, "laid out again");
        kept += number;
    });
    assert!(!all || kept > 800, "only {kept} comments");
}

/// Damaged texts end in a pack or in a place within the text, never in a panic. Those that still make a pack make it again.
#[test]
fn damaged_texts() {
    let (mut good, mut wrong) = (0, 0);
    let mut try_text = |damaged: &str| match make(damaged) {
        Ok(made) => {
            good += 1;
            if cogunwa::check(&cogunwa::bytes_of(&made.words)).is_ok() {
                assert_eq!(formatted(&formatted(damaged)), formatted(damaged));
                assert_eq!(self::made(&formatted(damaged)).words, made.words);
            }
        }
        Err(b) => {
            wrong += 1;
            assert!(b.span.start <= b.span.end && b.span.end <= damaged.len(), "{}", b.message);
            assert!(!b.message.is_empty());
            let shown = pointed("text", damaged, b.span, &b.message);
            assert!(shown.lines().count() >= 3 && shown.ends_with('^'), "{shown}");
        }
    };
    let all = each_text(2212, 300, |text, c| (0..35).for_each(|_| try_text(&damaged(text, c))));
    assert!(!all || good > 200 && wrong > 2000 && good + wrong > 8000, "{good} good, {wrong} wrong");
}

/// A text in which one thing is left out, doubled or put in, at a place made by chance.
fn damaged(text: &str, c: &mut Chance) -> String {
    let lexed = lex(text).unwrap();
    let token = |c: &mut Chance| lexed.tokens[c.below(lexed.tokens.len() as u32) as usize].span;
    let (a, b) = (token(c), token(c));
    let piece = &text[b.start..b.end];
    let odd = ["(", ")", ",", "\"", "\\", "->", "@", "#", "é", "\u{2028}", "=", "none", "99999999", "\0"]
        [c.below(14) as usize];
    let mut out = text.to_string();
    match c.below(5) {
        0 => out.replace_range(a.start..a.end, ""),
        1 => out.replace_range(a.start..a.end, piece),
        2 => out.insert_str(a.start, &format!("{piece} ")),
        3 => out.insert_str(a.start, odd),
        _ => out.truncate(a.start),
    }
    out
}

/// Every refused pack of the list, and packs damaged by chance: refused in words, with the library's number.
#[test]
fn refused_words() {
    let listed: Vec<cases::Case> = cases::replayed().into_iter().filter(|case| !case.accepted).collect();
    assert!(listed.len() > 500);
    for case in listed {
        assert!(hold_refused(&case.words), "{}", case.name);
    }
    let mut met = 0;
    let all = by_chance(2213, 1200, &cases::FORMS, |words, chance| {
        met += u32::from(hold_refused(&damaged_words(chance, words)));
    });
    assert!(!all || met > 600, "{met}");
}

/// Holds what is said of words that are refused; answers whether they are.
fn hold_refused(words: &[u32]) -> bool {
    let bytes = cogunwa::bytes_of(words);
    let _tried = Tried(&bytes);
    let Err(refusal) = cogunwa::check(&bytes) else { return false };
    let hex = words.iter().map(|word| format!("{word:08X}\n")).collect::<String>();
    for input in [from_hex("pack", hex).ok().unwrap(), from_bytes("pack", bytes.clone())] {
        let trouble = accept(input).err().expect("a refusal");
        assert_eq!(trouble.code, 1);
        assert!(trouble.message.ends_with(&format!("refusal {}", refusal.number)), "{}", trouble.message);
        assert!(trouble.message.starts_with("pack:") && trouble.message.contains("refused: "), "{}", trouble.message);
    }
    true
}

/// The text that the form was first thought of with.
#[test]
fn the_first_text() {
    let text = "pack
defaulted kinship#adult_of_household
relation kinship#member_of_household (Person, Household)
relation kinship#adult_of_household ()
  from kinship#member_of_household
  slots 1->0
  where compare 3 (leaf 1, leaf 2)
rule kinship#household_income for Household
  scalar sum kinship#member_of_household 0->1 of 4 where compare 3 (leaf 1, leaf 3)
inputs kinship
  item age of Person
";
    let words = made(text).words;
    assert_eq!(cogunwa::check(&cogunwa::bytes_of(&words)), Ok(()));
    let apart: Vec<&str> = text.lines().collect();
    assert_eq!(formatted(text).lines().filter(|line| !line.is_empty()).collect::<Vec<_>>(), apart);
}

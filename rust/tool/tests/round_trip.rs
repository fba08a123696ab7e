//! Packs to text and back: the same words, the same names, and one layout.
mod cases;

use cogunwa_model::Chance;
use cogunwa_model::replay::by_chance;
use cogunwa_tool::layout::layout;
use cogunwa_tool::make::make;
use cogunwa_tool::names::Naming;
use cogunwa_tool::read::read;

/// Words to text, to words, to text, to words. Answers the text.
fn round(name: &str, words: &[u32], naming: &Naming) -> String {
    let pack = read(words).unwrap_or_else(|| panic!("{name}: not read"));
    let text = layout(&pack, naming, None);
    let made = make(&text).unwrap_or_else(|b| panic!("{name}: {}\n{}", b.message, &text[b.span.start..b.span.end]));
    assert_eq!(made.words, words, "{name}: the words of\n{text}");
    let by_number = matches!(made.naming, Naming::Numbers);
    assert!(made.naming == *naming || pack.names == 1 && !by_number, "{name}: the names of\n{text}");
    assert_eq!(layout(&pack, naming, Some(&made)), text, "{name}: laid out again");
    assert_eq!(made.words.len(), made.spans.len());
    text
}

fn names_of(words: &[u32]) -> u32 {
    words[1] & 0xFF_FFFF
}

#[test]
fn every_replayed_pack() {
    let mut c = Chance::new(22);
    let mut count = 0;
    for case in cases::replayed().iter().filter(|case| case.accepted) {
        round(&case.name, &case.words, &Naming::Numbers);
        let texts = cases::texts(&mut c, names_of(&case.words));
        round(&case.name, &case.words, &Naming::Texts(texts));
        count += 1;
    }
    assert!(count > 1500, "only {count} packs");
    println!("{count} replayed packs");
}

#[test]
fn packs_by_chance() {
    let mut count = 0;
    let all = by_chance(2201, 2500, &cases::FORMS, |words, chance| {
        let naming = match chance.once(2) {
            true => Naming::Numbers,
            false => Naming::Texts(cases::texts(chance, names_of(words))),
        };
        round("a pack by chance", words, &naming);
        count += 1;
    });
    assert!(!all || count > 2000, "only {count} packs");
    println!("{count} packs by chance");
}

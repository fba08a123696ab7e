//! The forms that hand back vectors say what the forms with buffers write.

use cogunwa::{MAX_BYTES, NONE, bytes_of, words_of};
use cogunwa_model::damage::damaged;
use cogunwa_model::generate::Form;
use cogunwa_model::packs;
use cogunwa_model::replay::{Tried, by_chance};

/// What an operation writes into a buffer that has room for anything.
fn written<T>(operation: impl Fn(&mut [u8]) -> T) -> (T, Vec<u32>) {
    let mut out = vec![0xA5; MAX_BYTES];
    let answer = operation(&mut out);
    (answer, words_of(&out))
}

fn compare(pack: &[u8]) {
    let _tried = Tried(pack);
    let (answer, words) = written(|out| cogunwa::rewrite(pack, out));
    assert_eq!(cogunwa::rewrite_vec(pack), answer.map(|length| words[..length].to_vec()));

    let (answer, words) = written(|out| cogunwa::resolve(pack, out));
    let owned = cogunwa::resolve_vec(pack).map(|resolved| (resolved.words, resolved.steps));
    assert_eq!(owned, answer.map(|w| (words[..w.words].to_vec(), w.steps)));

    let (answer, words) = written(|out| cogunwa::all_kinds(pack, out));
    let kinds = cogunwa::all_kinds_vec(pack);
    let owned = kinds.clone().map(|kinds| (kinds.places, kinds.steps));
    let places = |count: usize| words[..count].iter().map(|&p| (p != 0).then_some(p as usize)).collect();
    assert_eq!(owned, answer.map(|w| (places(w.words), w.steps)));
    if let Ok(kinds) = kinds {
        let words = words_of(pack);
        let at = |place: Option<usize>| place.map_or(vec![], |place| cogunwa::kinds_at(&words, place).collect());
        let each = cogunwa::relations(&words).map(|name| (name, cogunwa::kinds_of(pack, name).unwrap()));
        assert!(kinds.each(&words).eq(each.map(|(name, place)| (name, place, at(place)))));
        assert_eq!(kinds.each(&words).count(), kinds.places.len());
    }

    for (owned, (answer, words)) in [
        (cogunwa::direct_vec(pack), written(|out| cogunwa::direct(pack, out))),
        (cogunwa::innermost_vec(pack), written(|out| cogunwa::innermost(pack, out))),
    ] {
        let names = |length: usize| words[..length].iter().map(|&w| (w != NONE).then_some(w)).collect();
        assert_eq!(owned, answer.map(names));
    }
    for (owned, (answer, words)) in [
        (cogunwa::alias_vec(pack), written(|out| cogunwa::alias(pack, out))),
        (cogunwa::unresolved_vec(pack), written(|out| cogunwa::unresolved(pack, out))),
    ] {
        assert_eq!(owned, answer.map(|length| words[..length].iter().map(|&w| w == 1).collect()));
    }
}

#[test]
fn vectors_are_what_buffers_get() {
    let mut resolved = 0;
    let forms = [Form::Mixed, Form::Entities, Form::Turning];
    let all = by_chance(21, 900, &forms, |words, chance| {
        for words in [damaged(chance, words), words.to_vec()] {
            let pack = bytes_of(&words);
            compare(&pack);
            resolved += usize::from(cogunwa::resolve_vec(&pack).is_ok());
        }
    });
    assert!(!all || resolved > 300, "{resolved}");
    compare(&bytes_of(&packs::of_length(8192)));
    compare(&[]);
}

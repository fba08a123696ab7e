//! Document 01's cases and large packs, by name: every operation over the static library, and what each case comes to.
mod beside;

use cogunwa::{bytes_of, resolve_vec};
use cogunwa_model::{cases, large};

#[test]
fn every_case() {
    let mut count = 0;
    for case in cases::all() {
        let words = case.pack.words();
        beside::every_operation(&words);
        let pack = bytes_of(&words);
        let resolved = resolve_vec(&pack);
        let kinds = cogunwa::all_kinds_vec(&pack).unwrap();
        let last = kinds.each(&words).last().map_or(vec![], |(_, _, names)| names);
        let resolved = resolved.map(|resolved| resolved.words).map_err(|r| [r.number, r.name, r.other]);
        assert!(case.wanted.is_met(&case.pack, &resolved, &last, kinds.steps), "{}: {:?}", case.name, case.wanted);
        count += 1;
    }
    assert_eq!(count, 63);
}

#[test]
fn large_packs() {
    let mut accepted = 0;
    for (_, words) in large::all() {
        beside::every_operation(&words);
        accepted += usize::from(cogunwa::check(&bytes_of(&words)).is_ok());
    }
    // All but one large pack, and of each deep tree the one that is not too deep.
    let all = large::all().len();
    assert_eq!(accepted, 13 + (all - 14) / 2);
}

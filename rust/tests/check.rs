//! Check over the static library.
mod beside;

use cogunwa::{Refusal, bytes_of, check};
use cogunwa_model::NONE;
use cogunwa_model::packs::{self, Words};
use std::collections::BTreeMap;

fn refused(number: u32, place: usize) -> Result<(), Refusal> {
    Err(Refusal { number, place, name: 0, other: 0 })
}

fn check_words(words: &[u32]) -> Result<(), Refusal> {
    check(&bytes_of(words))
}

#[test]
fn good_packs() {
    for words in
        [packs::smallest(), packs::household(), packs::flat(1), packs::flat(96), packs::deep(3), packs::deep(84)]
    {
        assert_eq!(check_words(&words), Ok(()), "{} words", words.len());
    }
}

#[test]
fn the_listing_has_the_words_of_the_sample() {
    let mut listed = vec![];
    for line in include_str!("../../examples/household.txt").lines() {
        let columns: Vec<&str> = line.split_whitespace().take(4).collect();
        let [place, word, kind, value] = columns[..] else { continue };
        let (Ok(place), Ok(word)) = (place.parse::<usize>(), cogunwa::words_of_hex(word)) else { continue };
        assert_eq!(place, listed.len());
        assert_eq!(word[0], cogunwa::word(kind.parse().unwrap(), value.parse().unwrap()), "{line}");
        listed.push(word[0]);
    }
    assert_eq!(listed, packs::household());
}

#[test]
fn byte_counts() {
    let longest = bytes_of(&packs::of_length(8192));
    assert_eq!(longest.len(), 32_768);
    assert_eq!(check(&longest), Ok(()));
    assert_eq!(check(&[]), refused(1, 0));

    let longer = bytes_of(&packs::of_length(8193));
    assert_eq!(longer.len(), 32_772);
    assert_eq!(check(&longer), refused(1, 0));
    for length in 32_769..=32_772 {
        assert_eq!(check(&longer[..length]), refused(1, 0), "{length} bytes");
    }
    assert_eq!(check(&vec![0; 1 << 20]), refused(1, 0));

    let smallest = bytes_of(&packs::smallest());
    for length in 0..24 {
        assert_eq!(check(&smallest[..length]), refused(1, 0), "{length} bytes");
    }
    // Odd lengths of a longer pack, and the pack cut at each whole word.
    let household = bytes_of(&packs::household());
    for length in 24..household.len() {
        let expected = if length % 4 == 0 { refused(4, 0) } else { refused(1, 0) };
        assert_eq!(check(&household[..length]), expected, "{length} bytes");
    }
}

#[test]
fn each_refusal() {
    let start = || Words::start(4);
    let done = |w: &mut Words| packs::with_total(std::mem::take(&mut w.0));

    // 2: the first word, and a section that is missing.
    assert_eq!(check_words(&[0; 6]), refused(2, 0));
    assert_eq!(check_words(&done(start().all(&[(3, 0), (22, 0), (28, 0), (28, 0)]))), refused(2, 3));
    // 3: the pack ends within its last list.
    assert_eq!(check_words(&done(start().all(&[(3, 0), (5, 0), (22, 0), (28, 1)]))), refused(3, 6));
    assert_eq!(check_words(&packs::with_total(packs::household()[..59].to_vec())), refused(3, 59));
    // 4: the total, N, each count one over, a name that is none where none is not allowed.
    assert_eq!(check_words(&[&packs::smallest()[..], &[0]].concat()), refused(4, 0));
    assert_eq!(check_words(&done(Words::start(0).all(&[(3, 0), (5, 0), (22, 0), (28, 0)]))), refused(4, 1));
    assert_eq!(check_words(&done(Words::start(4097).all(&[(3, 0), (5, 0), (22, 0), (28, 0)]))), refused(4, 1));
    assert_eq!(check_words(&done(start().all(&[(3, 513), (5, 0), (22, 0), (28, 0)]))), refused(4, 2));
    assert_eq!(check_words(&done(start().all(&[(3, 0), (5, 513), (22, 0), (28, 0)]))), refused(4, 3));
    assert_eq!(check_words(&done(start().all(&[(3, 0), (5, 0), (22, 1025), (28, 0)]))), refused(4, 4));
    assert_eq!(check_words(&done(start().all(&[(3, 0), (5, 0), (22, 0), (28, 65)]))), refused(4, 5));
    assert_eq!(check_words(&done(start().all(&[(3, 1), (4, NONE), (5, 0), (22, 0), (28, 0)]))), refused(4, 3));
    // 6: a defaulted name again, and one below the one before.
    assert_eq!(check_words(&done(start().all(&[(3, 2), (4, 1), (4, 1), (5, 0), (22, 0), (28, 0)]))), refused(6, 4));
    assert_eq!(check_words(&done(start().all(&[(3, 2), (4, 3), (4, 0), (5, 0), (22, 0), (28, 0)]))), refused(6, 4));
    // 7: a relation's name again.
    let twice = [(6, 3), (7, NONE), (8, 2), (9, 0), (11, 0)];
    let again = done(start().all(&[(3, 0), (5, 2)]).all(&twice).all(&twice).all(&[(22, 0), (28, 0)]));
    assert_eq!(check_words(&again), Err(Refusal { number: 7, place: 9, name: 3, other: 0 }));
    // 8: a word after the last block.
    assert_eq!(check_words(&done(start().all(&[(3, 0), (5, 0), (22, 0), (28, 0), (28, 0)]))), refused(8, 6));
}

#[test]
fn depth() {
    for depth in 1..=32 {
        assert_eq!(check_words(&packs::one_rule(1, &packs::nested(depth))), Ok(()), "depth {depth}");
    }
    // A body's root is word 10, so the node at depth 33 is word 42.
    assert_eq!(check_words(&packs::one_rule(1, &packs::nested(33))), refused(5, 42));
    // At depth 33 a wrong kind comes before the depth, and the depth before a wrong value.
    let at_33 = |kind, value| {
        let mut body = packs::nested(33);
        body[32] = (kind, value);
        packs::one_rule(1, &body)
    };
    assert_eq!(check_words(&at_33(104, 0)), refused(2, 42));
    assert_eq!(check_words(&at_33(65, 9)), refused(5, 42));
    // A relation's predicate starts at depth 1 too.
    let predicate = |nots| {
        let mut w = Words::start(1);
        w.all(&[(3, 0), (5, 1), (6, 0), (7, NONE), (8, 2), (9, 0), (11, 1), (12, NONE), (13, NONE)]);
        w.all(&[(17, 0), (18, 0), (19, NONE), (20, NONE), (21, 0)]).all(&vec![(100, 0); nots]);
        w.all(&[(106, 0), (22, 0), (28, 0)]);
        w.done()
    };
    assert_eq!(check_words(&predicate(31)), Ok(()));
    assert_eq!(check_words(&predicate(32)), refused(5, 48));
}

#[test]
fn limits() {
    // Each count at its limit.
    let names: Vec<(u8, u32)> = (0..512).map(|v| (4, v * 8)).collect();
    let mut w = Words::start(4096);
    w.put(3, 512).all(&names).put(5, 512);
    for name in 0..512 {
        w.all(&[(6, 4095 - name), (7, NONE), (8, NONE), (9, 0), (11, 0)]);
    }
    w.put(22, 0).put(28, 64).put(29, NONE).put(30, 1024);
    for _ in 0..1024 {
        w.all(&[(31, NONE), (32, 1), (33, NONE)]);
    }
    for _ in 1..64 {
        w.put(29, 0).put(30, NONE);
    }
    assert_eq!(check_words(&w.done()), Ok(()));

    let mut w = Words::start(1);
    w.put(3, 0).put(5, 0).put(22, 1024);
    for rule in 0..1024 {
        w.all(&[(23, 0), (24, 0), (25, 0), (26, if rule == 0 { 64 } else { 1 })]);
        for _ in 0..if rule == 0 { 64 } else { 1 } {
            w.put(27, 0).put(64, NONE);
        }
    }
    w.put(28, 0);
    assert_eq!(check_words(&w.done()), Ok(()));

    // A count beyond the pack's end is no reason to go on for long.
    assert_eq!(check_words(&packs::one_rule(1, &[(68, NONE)])), refused(2, 11));
}

#[test]
fn every_change_of_one_word_of_the_sample() {
    let sample = packs::household();
    let held = |words: &[u32]| _ = beside::check(&bytes_of(words));
    for place in 0..sample.len() {
        for kind in 0..256 {
            let mut words = sample.clone();
            words[place] = words[place] & NONE | kind << 24;
            held(&words);
        }
        for value in (0..70).chain([511, 512, 513, 1023, 1024, 1025, 4095, 4096, 4097, NONE - 1, NONE]) {
            let mut words = sample.clone();
            words[place] = words[place] & !NONE | value;
            held(&words);
        }
        held(&packs::with_total(sample[..place.max(1)].to_vec()));
        held(&[&sample[..place], &sample[place + 1..]].concat());
    }
}

/// One below each limit, at it and one above, as they are and cut short.
#[test]
fn packs_at_the_limits() {
    let mut tally: BTreeMap<u32, usize> = BTreeMap::new();
    for words in cogunwa_model::limits::limits() {
        let mut held = |words: &[u32]| {
            let answer = beside::check(&bytes_of(words));
            *tally.entry(answer.map_or_else(|r| r.number, |()| 0)).or_default() += 1;
        };
        held(&words);
        for cut in 1..4 {
            let short = &words[..words.len() - cut];
            held(short);
            held(&packs::with_total(short.to_vec()));
        }
    }
    // 0 stands for yes. No word is left over in any of them.
    assert_eq!(tally.keys().copied().collect::<Vec<_>>(), [0, 1, 2, 3, 4, 5, 6, 7], "{tally:?}");
}

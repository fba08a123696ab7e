//! Packs whose records are dealt out again in another order: All kinds and Resolve answer alike.

use cogunwa::{Refusal, bytes_of, resolve, words_of};
use cogunwa_model::dealt::dealt_with;
use cogunwa_model::generate::Form;
use cogunwa_model::replay::{Tried, by_chance};
use cogunwa_model::{NONE, Pack, read};

/// The kinds of each relation in record order, as names, and the steps.
fn kinds(words: &[u32]) -> (Vec<Option<Vec<u32>>>, u32) {
    let mut out = vec![0; 2048];
    let written = cogunwa::all_kinds(&bytes_of(words), &mut out).unwrap();
    let names = |place: u32| {
        let list = &words[place as usize..];
        (place != 0).then(|| list[1..=(list[0] & NONE) as usize].iter().map(|word| word & NONE).collect())
    };
    (words_of(&out[..4 * written.words]).into_iter().map(names).collect(), written.steps)
}

/// The records that Resolve wrote.
fn records(out: &[u8], words: usize) -> Pack {
    read(&words_of(&out[..4 * words])).unwrap().pack
}

fn in_order<T: Clone>(records: &[T], order: &[usize]) -> Vec<T> {
    order.iter().map(|&i| records[i].clone()).collect()
}

#[test]
fn in_whatever_order() {
    let (mut resolved, mut refused) = (0, 0);
    let mut forms = [Form::Turning; 8];
    forms[0] = Form::Mixed;
    let all = by_chance(14_142, 4000, &forms, |words, chance| {
        let before = read(words).unwrap().pack;
        assert_eq!(before.words(), words);
        let (again, orders) = dealt_with(chance, &before);
        assert_eq!(again.sorted(), before.sorted());
        let dealt = again.words();
        let dealt_bytes = bytes_of(&dealt);
        let _tried = Tried(&dealt_bytes);
        assert_eq!(cogunwa::check(&dealt_bytes), Ok(()));
        // The same kinds of every relation, and the same steps.
        let (own, dealt_own) = (kinds(words), kinds(&dealt));
        assert_eq!(dealt_own.1, own.1);
        assert_eq!(dealt_own.0, in_order(&own.0, &orders.relations));

        for room in [4 * words.len(), 4 * words.len() + chance.below(200) as usize, 32_768] {
            let (mut out, mut dealt_out) = (vec![0; room], vec![0; room]);
            match (resolve(&bytes_of(words), &mut out), resolve(&dealt_bytes, &mut dealt_out)) {
                (Ok(written), Ok(dealt_written)) => {
                    resolved += 1;
                    assert_eq!(dealt_written, written);
                    let whole = records(&out, written.words);
                    let other = records(&dealt_out, written.words);
                    assert_eq!((other.n, &other.defaulted), (whole.n, &whole.defaulted));
                    assert_eq!(other.relations, in_order(&whole.relations, &orders.relations));
                    assert_eq!(other.rules, in_order(&whole.rules, &orders.rules));
                    // Blocks, with their items as they were dealt, come out as they stood.
                    assert_eq!(whole.blocks, before.blocks);
                    assert_eq!(other.blocks, again.blocks);
                }
                (Err(a), Err(b)) => {
                    refused += 1;
                    let open = |r: Refusal| (10..=15).contains(&r.number);
                    assert!(a.number == b.number && a.name == b.name || open(a) && open(b), "{a:?} {b:?}");
                }
                (a, b) => panic!("{a:?} {b:?}"),
            }
        }
    });
    assert!(!all || resolved > 3000 && refused > 3000, "{resolved} {refused}");
}

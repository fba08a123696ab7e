//! Calls from several threads at once answer as calls from one do.
mod beside;

use beside::said;
use cogunwa::{all_kinds, bytes_of, check, innermost, kinds_of, lean, resolve, rewrite, words_of};
use cogunwa_model::damage::damaged;
use cogunwa_model::generate::{self, Form};
use cogunwa_model::replay::Tried;
use cogunwa_model::{Chance, packs, read_bytes};

#[test]
fn several_threads_at_once() {
    let mut chance = Chance::new(99);
    let mut all = vec![bytes_of(&packs::household()), bytes_of(&packs::flat(96)), bytes_of(&packs::deep(84))];
    for _ in 0..40 {
        let words = generate::words(&mut chance, Form::Mixed);
        all.push(bytes_of(&damaged(&mut chance, &words)));
        all.push(bytes_of(&words));
        for form in [Form::Tangled, Form::Entities, Form::Paths, Form::Turning, Form::Program] {
            all.push(bytes_of(&generate::words(&mut chance, form)));
        }
    }
    let read: Vec<_> = all.iter().map(|pack| read_bytes(pack)).collect();
    let read = || read.iter().map(|reading| reading.as_ref().map_err(|r| *r));
    let expected: Vec<_> = read().map(|reading| said(reading.map(drop))).collect();
    let settled: Vec<_> = read().map(|reading| said(reading.and_then(|r| r.all_kinds(8192)))).collect();
    let first: Vec<_> = read().map(|reading| said(reading.and_then(|r| r.kinds_of(0)))).collect();
    let leans: Vec<_> = read().map(|reading| said(reading.and_then(|r| r.lean(0, 1)))).collect();
    let inner: Vec<_> = read().map(|reading| said(reading.and_then(|r| r.innermost(8192)))).collect();
    let resolved: Vec<_> = read().map(|reading| said(reading.and_then(|r| r.resolve(8192)))).collect();
    std::thread::scope(|scope| {
        for thread in 0..8 {
            let (all, expected, settled, first) = (&all, &expected, &settled, &first);
            let (leans, inner, resolved) = (&leans, &inner, &resolved);
            scope.spawn(move || {
                let mut out = vec![0; 32_768];
                for turn in 0..50 * all.len() {
                    let i = (thread * 11 + turn) % all.len();
                    let _tried = Tried(&all[i]);
                    assert_eq!(check(&all[i]), expected[i]);
                    out.fill(thread as u8);
                    let answer = rewrite(&all[i], &mut out);
                    assert_eq!(answer, expected[i].map(|()| all[i].len() / 4));
                    let written = answer.map_or(0, |words| 4 * words);
                    assert_eq!(out[..written], all[i][..written]);
                    assert!(out[written..].iter().all(|&b| b == thread as u8));
                    let answer = all_kinds(&all[i], &mut out).map(|w| (words_of(&out[..4 * w.words]), w.steps));
                    assert_eq!(answer, settled[i]);
                    assert_eq!(kinds_of(&all[i], 0), first[i]);
                    assert_eq!(lean(&all[i], 0, 1), leans[i]);
                    let answer = innermost(&all[i], &mut out).map(|words| words_of(&out[..4 * words]));
                    assert_eq!(answer, inner[i]);
                    let answer = resolve(&all[i], &mut out).map(|w| (words_of(&out[..4 * w.words]), w.steps));
                    assert_eq!(answer, resolved[i]);
                }
            });
        }
    });
}

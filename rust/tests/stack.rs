//! The stack that a call takes, measured over the packs that take most of it, is within `STACK_BYTES`.
use cogunwa::{Refusal, STACK_BYTES, bytes_of, resolve_vec};
use cogunwa_model::generate::{self, Form};
use cogunwa_model::large::{self, LEVELS, atoms, blocks, deep_tree, kinds_in_a_row, nested_sums, sources, with_tree};
use cogunwa_model::limits::limits;
use cogunwa_model::replay::hex;
use cogunwa_model::{Chance, packs};
use std::hint::black_box;
use std::thread;

type Operation = fn(&[u8], &mut [u8]) -> Result<(), Refusal>;

const OPERATIONS: [(&str, Operation); 10] = [
    ("check", |pack, _| cogunwa::check(pack)),
    ("rewrite", |pack, out| cogunwa::rewrite(pack, out).map(drop)),
    ("resolve", |pack, out| cogunwa::resolve(pack, out).map(drop)),
    ("all kinds", |pack, out| cogunwa::all_kinds(pack, out).map(drop)),
    ("kinds of one name", |pack, _| cogunwa::kinds_of(pack, 1).map(drop)),
    ("lean", |pack, _| cogunwa::lean(pack, 1, 0).map(drop)),
    ("direct", |pack, out| cogunwa::direct(pack, out).map(drop)),
    ("innermost", |pack, out| cogunwa::innermost(pack, out).map(drop)),
    ("alias", |pack, out| cogunwa::alias(pack, out).map(drop)),
    ("unresolved", |pack, out| cogunwa::unresolved(pack, out).map(drop)),
];

/// So much stack is painted before a call, more than any takes.
const PAINTED: usize = 512 * 1024;
const PAINT: u64 = 0xA5A5_A5A5_A5A5_A5A5;
/// What `depth_of` leaves for its own callees between its frame and the paint.
const LEFT: usize = 8192;

/// How many bytes below its caller's frame a call writes, in eights. The thread has more than `PAINTED` left.
#[inline(never)]
fn depth_of(call: impl FnOnce()) -> usize {
    let here = black_box(&raw const call as usize);
    let top = (here - LEFT) & !7;
    for at in (top - PAINTED..top).step_by(8) {
        // SAFETY: these bytes of the thread's stack are below all frames in use.
        unsafe { (at as *mut u64).write_volatile(PAINT) };
    }
    call();
    // SAFETY: as above.
    let kept = |at: &usize| unsafe { (*at as *const u64).read_volatile() } == PAINT;
    let bottom = (top - PAINTED..top).step_by(8).take_while(kept).count() * 8;
    assert!(bottom > 0, "the call took more than what was painted");
    LEFT + PAINTED - bottom
}

/// Runs on a thread with so much stack.
fn with_stack<T: Send>(bytes: usize, run: impl FnOnce() -> T + Send) -> T {
    thread::scope(|scope| thread::Builder::new().stack_size(bytes).spawn_scoped(scope, run).unwrap().join().unwrap())
}

#[test]
fn the_measure_measures() {
    #[inline(never)]
    fn takes(bytes: &[u8; 100 * 1024]) -> u8 {
        black_box(*bytes)[7]
    }
    let bytes = Box::new([1; 100 * 1024]);
    let depth = with_stack(2 * PAINTED, || depth_of(|| assert_eq!(takes(&bytes), 1)));
    assert!((100 * 1024..210 * 1024).contains(&depth), "{depth}");
}

#[test]
fn every_operation_is_measured() {
    let header = include_str!("../../include/cogunwa.h");
    let declared = header.lines().filter(|line| line.starts_with("COGUNWA_MUST_USE uint64_t cogunwa_"));
    assert_eq!(declared.count(), OPERATIONS.len());
}

#[test]
fn within_the_constant() {
    let packs = all_packs();
    let deepest = with_stack(2 * PAINTED, || {
        let mut deepest = [(0, 0); OPERATIONS.len()];
        for (i, (_, words)) in packs.iter().enumerate() {
            let pack = bytes_of(words);
            for ((_, operation), deepest) in OPERATIONS.iter().zip(&mut deepest) {
                for room in [32_768, 1028, 0] {
                    let mut out = vec![0; room];
                    let depth = depth_of(|| _ = black_box(operation(&pack, &mut out)));
                    *deepest = (*deepest).max((depth, i));
                }
            }
        }
        deepest
    });
    for ((name, _), &(depth, i)) in OPERATIONS.iter().zip(&deepest) {
        println!("{name:18} {depth:7} bytes, on {}", packs[i].0);
    }
    // A page for what a call reserves and does not write, and for the caller's own frames.
    let (most, i) = deepest.into_iter().max().unwrap();
    let words = hex(&packs[i].1);
    assert!(
        most + 4096 <= STACK_BYTES,
        "{most} bytes and a page are more than {STACK_BYTES}, on {}\n{words}",
        packs[i].0
    );
    on_a_thread_of_that_size(&packs.iter().map(|(_, words)| bytes_of(words)).collect::<Vec<_>>());
}

/// On a thread that has as much left, besides what its own frames take. A call that took more would end the run.
fn on_a_thread_of_that_size(packs: &[Vec<u8>]) {
    let mut out = vec![0; 32_768];
    let calls = with_stack(STACK_BYTES + 16 * 1024, || {
        let calls = packs.iter().flat_map(|pack| OPERATIONS.map(|(_, operation)| (pack, operation)));
        calls.map(|(pack, operation)| operation(pack, &mut out)).count()
    });
    assert_eq!(calls, packs.len() * OPERATIONS.len());
}

/// Packs that go as far as they can in one way or another, and packs by chance.
fn all_packs() -> Vec<(String, Vec<u32>)> {
    let mut all = vec![("the sample".into(), packs::household())];
    all.extend(large::all().into_iter().map(|(what, words)| (what.into(), words)));
    all.extend(limits().into_iter().map(|words| ("a pack at a limit".into(), words)));
    for number in 0..60 {
        for form in [Form::Mixed, Form::Tangled, Form::Entities, Form::Paths, Form::Turning, Form::Program] {
            let words = generate::words(&mut Chance::nth(7, number), form);
            all.push((format!("pack {number} of seed 7 ({form:?})"), words));
        }
    }
    all
}

#[test]
fn the_packs_are_what_they_are_for() {
    for (depth, fits) in [(32, true), (33, false)] {
        let check = cogunwa::check(&bytes_of(&with_tree(&deep_tree([LEVELS[12], LEVELS[13]], depth))));
        assert_eq!(check.is_ok(), fits, "{check:?}");
    }
    // The kinds lead on from each name to the last.
    let innermost = cogunwa::innermost_vec(&bytes_of(&kinds_in_a_row())).unwrap();
    assert_eq!(innermost[..512], [Some(512); 512]);
    // Every relation and the one undeclared name are read.
    assert_eq!(cogunwa::all_kinds_vec(&bytes_of(&sources(|name| name + 1))).unwrap().steps, 513);
    assert_eq!(resolve_vec(&bytes_of(&atoms())).map(|resolved| resolved.words.len()), Ok(8012));
    assert_eq!(resolve_vec(&bytes_of(&blocks())).map(|resolved| resolved.words.len()), Ok(blocks().len()));
}

#[test]
fn the_deepest_sum_is_turned() {
    let result = resolve_vec(&bytes_of(&nested_sums())).unwrap().words;
    // the outermost runs from kind 3, which stands in slot 1, the next from kind 1, in slot 0, and so on
    let slots: Vec<_> = result.iter().filter(|&&w| w >> 24 == 80).map(|w| w & 0xFF_FFFF).collect();
    assert_eq!(slots, (0..15).map(|i| u32::from(i % 2 == 0)).collect::<Vec<_>>());
}

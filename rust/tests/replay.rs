//! The words that `COGUNWA_WORDS` has, or the sample, in every operation: how a failure that was shown is run again.
mod beside;

use cogunwa::bytes_of;
use cogunwa_model::{packs, replay};

#[test]
fn every_operation() {
    let words = replay::words_to_replay().unwrap_or_else(packs::household);
    let pack = bytes_of(&words);
    println!("check: {:?}", cogunwa::check(&pack));
    println!("all kinds: {:?}", cogunwa::all_kinds_vec(&pack));
    println!("resolve: {:?}", cogunwa::resolve_vec(&pack).map(|result| (result.steps, replay::hex(&result.words))));
    beside::every_operation(&words);
}

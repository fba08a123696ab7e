//! Safe calls of Cogunwa's operations on rule packs.
//!
//! The operations are proved in Rattle and linked from a static library. A pack goes over as bytes, four a word, low
//! byte first; [`bytes_of`] makes them from words. Any bytes and any lengths may be handed over. A refusal changes no
//! byte of an output buffer. A call takes up to [`STACK_BYTES`] of its thread's stack and nothing from the heap.
//!
//! The operations: [`check`], [`rewrite`], [`resolve`], [`all_kinds`], [`kinds_of`], [`lean`], and the filtered tables
//! [`direct`], [`innermost`], [`alias`] and [`unresolved`]. Those that write take an output buffer of bytes, and each has
//! a second form that hands back a vector: [`resolve_vec`] and so on.
//!
//! ```
//! // The smallest pack: its length, one name, and no defaulted names, relations, rules and blocks.
//! let words = [0x01000006, 0x02000001, 0x03000000, 0x05000000, 0x16000000, 0x1C000000];
//! let pack = cogunwa::bytes_of(&words);
//! assert_eq!(cogunwa::check(&pack), Ok(()));
//! assert_eq!(cogunwa::resolve_vec(&pack)?.words, words);
//!
//! let refusal = cogunwa::check(&pack[..3]).unwrap_err();
//! assert_eq!(refusal.number, 1);
//! # Ok::<(), cogunwa::Refusal>(())
//! ```
//!
//! A relation's kinds are the names of one list in the pack, its own or that of the relation that it inherits from. They
//! are answered as the place of the list's count word, which is of kind 9 or 21; [`kinds_at`] reads the names there.
//!
//! The filtered tables say something of each name as an entity, by the kinds that it takes: those at the current slot of
//! each derivation with that entity, where the relation has kinds and the slot is in range. A table has N words, one for
//! each name from 0 on.
//!
//! The examples below use the sample pack, `examples/household.hex`. Its relation 9 has the kinds 2 (Person) and 1
//! (Household), and 7 inherits from 9.
#![warn(missing_docs)]

mod refusal;
mod words;

pub use refusal::{Refusal, RefusalKind};
pub use words::{HexError, bytes_of, kinds_at, relations, word, word_kind, word_value, words, words_of, words_of_hex};

unsafe extern "C" {
    fn cogunwa_check(pack: *const u8, pack_len: usize) -> u64;
    fn cogunwa_rewrite(pack: *const u8, pack_len: usize, out: *mut u8, out_len: usize) -> u64;
    fn cogunwa_all_kinds(pack: *const u8, pack_len: usize, out: *mut u8, out_len: usize) -> u64;
    fn cogunwa_resolve(pack: *const u8, pack_len: usize, out: *mut u8, out_len: usize) -> u64;
    fn cogunwa_kinds_of(pack: *const u8, pack_len: usize, name: u32) -> u64;
    fn cogunwa_lean(pack: *const u8, pack_len: usize, a: u32, b: u32) -> u64;
    fn cogunwa_direct(pack: *const u8, pack_len: usize, out: *mut u8, out_len: usize) -> u64;
    fn cogunwa_innermost(pack: *const u8, pack_len: usize, out: *mut u8, out_len: usize) -> u64;
    fn cogunwa_alias(pack: *const u8, pack_len: usize, out: *mut u8, out_len: usize) -> u64;
    fn cogunwa_unresolved(pack: *const u8, pack_len: usize, out: *mut u8, out_len: usize) -> u64;
}

/// The version of the library and of this crate.
pub const VERSION: &str = env!("CARGO_PKG_VERSION");

/// The fewest words that a pack has.
pub const MIN_WORDS: usize = 6;
/// The most words that a pack or a result has.
pub const MAX_WORDS: usize = 8192;
/// The most bytes that a pack or a result has: four a word. A buffer of as many has room for any result.
pub const MAX_BYTES: usize = 4 * MAX_WORDS;
/// The most names that a pack has: N, its second word's value, is not above it.
pub const MAX_NAMES: usize = 4096;
/// The most relations that a pack has.
pub const MAX_RELATIONS: usize = 512;
/// The most rules that a pack has.
pub const MAX_RULES: usize = 1024;
/// The most blocks that a pack has.
pub const MAX_BLOCKS: usize = 64;
/// The greatest depth of a tree node; the root's is 1.
pub const MAX_DEPTH: usize = 32;
/// The stack that a call takes at most, in bytes, whatever the pack: call from a thread that has as much left. A thread of
/// Rust has 2 MiB where nothing else is said. `tests/stack.rs` measures it over the packs that take most.
pub const STACK_BYTES: usize = 192 * 1024;
/// "None" in a word's value: what [`direct`] and [`innermost`] write for a name that has none.
pub const NONE: u32 = 16_777_215;

/// What an operation gives when it does not refuse.
struct Given {
    value: u32,
    steps: u32,
}

/// What [`all_kinds`] or [`resolve`] has written.
#[derive(Clone, Copy, Debug, PartialEq, Eq, Hash)]
pub struct Written {
    /// The number of words.
    pub words: usize,
    /// How many names were read on the way.
    pub steps: u32,
}

/// What [`resolve_vec`] hands back.
#[derive(Clone, Debug, PartialEq, Eq, Hash)]
#[non_exhaustive]
pub struct Resolved {
    /// The words of the resolved pack.
    pub words: Vec<u32>,
    /// How many names were read on the way.
    pub steps: u32,
}

/// What [`all_kinds_vec`] hands back.
#[derive(Clone, Debug, PartialEq, Eq, Hash)]
#[non_exhaustive]
pub struct AllKinds {
    /// For each relation in record order the place of its kinds; [`each`](AllKinds::each) has names and kinds too.
    pub places: Vec<Option<usize>>,
    /// How many names were read on the way.
    pub steps: u32,
}

impl AllKinds {
    /// Each relation in record order: its name, the place of its kinds, and the kinds. The words are those of the pack that
    /// was handed over.
    ///
    /// ```
    /// # let hex = include_str!(concat!(env!("CARGO_MANIFEST_DIR"), "/../examples/household.hex"));
    /// # let words = cogunwa::words_of_hex(hex).unwrap();
    /// let kinds = cogunwa::all_kinds_vec(&cogunwa::bytes_of(&words))?;
    /// let each: Vec<_> = kinds.each(&words).collect();
    /// assert_eq!(each, [(9, Some(8), vec![2, 1]), (7, Some(8), vec![2, 1])]);
    /// # Ok::<(), cogunwa::Refusal>(())
    /// ```
    pub fn each<'a>(&'a self, words: &'a [u32]) -> impl Iterator<Item = (u32, Option<usize>, Vec<u32>)> + Clone + 'a {
        let kinds = |place: Option<usize>| place.into_iter().flat_map(|place| kinds_at(words, place)).collect();
        relations(words).zip(&self.places).map(move |(name, &place)| (name, place, kinds(place)))
    }
}

/// Takes an answer apart: number in bits 0 to 5, place in 6 to 19, name in 20 to 51, other in 52 to 63. With the number
/// 0 the name is the value and the other the steps.
fn take_apart(answer: u64) -> Result<Given, Refusal> {
    let number = (answer & 0x3F) as u32;
    let name = (answer >> 20) as u32;
    let other = (answer >> 52) as u32;
    if number == 0 {
        return Ok(Given { value: name, steps: other });
    }
    Err(Refusal { number, place: (answer >> 6 & 0x3FFF) as usize, name, other })
}

/// An operation of the library that writes words.
type Writes = unsafe extern "C" fn(*const u8, usize, *mut u8, usize) -> u64;

fn write(operation: Writes, pack: &[u8], out: &mut [u8]) -> Result<Given, Refusal> {
    // SAFETY: each pointer and length are those of one slice. `out` is borrowed for writing, so `pack` shares no byte
    // with it.
    take_apart(unsafe { operation(pack.as_ptr(), pack.len(), out.as_mut_ptr(), out.len()) })
}

/// The words that an operation writes, of which there are at most so many, and its steps.
fn write_vec(operation: Writes, pack: &[u8], most: usize) -> Result<(Vec<u32>, u32), Refusal> {
    let mut out = vec![0; 4 * most];
    let given = write(operation, pack, &mut out)?;
    Ok((words(&out).take(given.value as usize).collect(), given.steps))
}

/// Whether the bytes are a pack.
///
/// # Errors
///
/// The first of the refusals 1 to 8 ([`RefusalKind`]), if they are not.
///
/// ```
/// # let hex = include_str!(concat!(env!("CARGO_MANIFEST_DIR"), "/../examples/household.hex"));
/// # let mut pack = cogunwa::bytes_of(&cogunwa::words_of_hex(hex).unwrap());
/// assert_eq!(cogunwa::check(&pack), Ok(()));
/// pack[7] = 3; // the kind of word 1
/// let refusal = cogunwa::check(&pack).unwrap_err();
/// assert_eq!((refusal.kind(), refusal.place), (cogunwa::RefusalKind::WrongKind, 1));
/// ```
pub fn check(pack: &[u8]) -> Result<(), Refusal> {
    // SAFETY: the pointer and the length are those of one slice, which is only read.
    take_apart(unsafe { cogunwa_check(pack.as_ptr(), pack.len()) }).map(|_| ())
}

/// Reads a pack's records and writes them again. Answers the number of words written; bytes past them stay as they are,
/// and a refusal leaves all of `out` as it is. Of `out` only whole words count.
///
/// # Errors
///
/// Those of [`check`], then [`NoRoom`](RefusalKind::NoRoom) if `out` has fewer words than the pack.
///
/// ```
/// # let hex = include_str!(concat!(env!("CARGO_MANIFEST_DIR"), "/../examples/household.hex"));
/// # let pack = cogunwa::bytes_of(&cogunwa::words_of_hex(hex).unwrap());
/// let mut out = vec![0; pack.len()];
/// assert_eq!(cogunwa::rewrite(&pack, &mut out), Ok(60));
/// assert_eq!(out, pack);
/// ```
pub fn rewrite(pack: &[u8], out: &mut [u8]) -> Result<usize, Refusal> {
    write(cogunwa_rewrite, pack, out).map(|given| given.value as usize)
}

/// As [`rewrite`]: the words in a vector.
///
/// # Errors
///
/// Those of [`check`].
///
/// ```
/// # let hex = include_str!(concat!(env!("CARGO_MANIFEST_DIR"), "/../examples/household.hex"));
/// # let pack = cogunwa::bytes_of(&cogunwa::words_of_hex(hex).unwrap());
/// assert_eq!(cogunwa::bytes_of(&cogunwa::rewrite_vec(&pack)?), pack);
/// # Ok::<(), cogunwa::Refusal>(())
/// ```
pub fn rewrite_vec(pack: &[u8]) -> Result<Vec<u32>, Refusal> {
    write_vec(cogunwa_rewrite, pack, MAX_WORDS).map(|(words, _)| words)
}

/// Settles the kinds of every relation. Writes to `out`, one word for each relation in record order, the place of its
/// kinds, or 0 where it has none. Bytes past those words stay as they are, and a refusal leaves all of `out` as it is. Of
/// `out` only whole words count.
///
/// # Errors
///
/// Those of [`check`], then [`NoRoom`](RefusalKind::NoRoom) if `out` has fewer words than the pack has relations.
///
/// ```
/// # let hex = include_str!(concat!(env!("CARGO_MANIFEST_DIR"), "/../examples/household.hex"));
/// # let pack = cogunwa::bytes_of(&cogunwa::words_of_hex(hex).unwrap());
/// let mut out = [0; 4 * cogunwa::MAX_RELATIONS];
/// let written = cogunwa::all_kinds(&pack, &mut out)?;
/// // Both relations have the kinds of the list at word 8.
/// assert_eq!(cogunwa::words_of(&out[..4 * written.words]), [8, 8]);
/// # Ok::<(), cogunwa::Refusal>(())
/// ```
pub fn all_kinds(pack: &[u8], out: &mut [u8]) -> Result<Written, Refusal> {
    write(cogunwa_all_kinds, pack, out).map(|given| Written { words: given.value as usize, steps: given.steps })
}

/// As [`all_kinds`]: the places in a vector, `None` for a relation without kinds.
///
/// # Errors
///
/// Those of [`check`].
///
/// ```
/// # let hex = include_str!(concat!(env!("CARGO_MANIFEST_DIR"), "/../examples/household.hex"));
/// # let pack = cogunwa::bytes_of(&cogunwa::words_of_hex(hex).unwrap());
/// let kinds = cogunwa::all_kinds_vec(&pack)?;
/// assert_eq!((kinds.places, kinds.steps), (vec![Some(8), Some(8)], 2));
/// # Ok::<(), cogunwa::Refusal>(())
/// ```
pub fn all_kinds_vec(pack: &[u8]) -> Result<AllKinds, Refusal> {
    let (words, steps) = write_vec(cogunwa_all_kinds, pack, MAX_RELATIONS)?;
    Ok(AllKinds { places: words.into_iter().map(place_of).collect(), steps })
}

/// Place 0 means that there are no kinds.
fn place_of(word: u32) -> Option<usize> {
    Some(word as usize).filter(|&place| place != 0)
}

/// Settles the directions of a pack. Writes to `out` the whole pack in record order, with the slots of aggregates and
/// membership tests set by the kinds of their relations and the lists of relations stamped where that is due; all else is
/// as it stood. The result may have more words than the pack, up to [`MAX_WORDS`]. Bytes past it stay as they are, and a
/// refusal leaves all of `out` as it is. Of `out` only whole words count. The steps are those of [`all_kinds`].
///
/// # Errors
///
/// Those of [`check`]; then 9 to 15 ([`RefusalKind`]) where a direction stays open or an input does not fit; then
/// [`NoRoom`](RefusalKind::NoRoom) if the result has more than [`MAX_WORDS`], or than `out`.
///
/// ```
/// # let hex = include_str!(concat!(env!("CARGO_MANIFEST_DIR"), "/../examples/household.hex"));
/// # let pack = cogunwa::bytes_of(&cogunwa::words_of_hex(hex).unwrap());
/// let mut out = vec![0; cogunwa::MAX_BYTES];
/// let written = cogunwa::resolve(&pack, &mut out)?;
/// assert_eq!((written.words, written.steps), (64, 2));
/// # Ok::<(), cogunwa::Refusal>(())
/// ```
pub fn resolve(pack: &[u8], out: &mut [u8]) -> Result<Written, Refusal> {
    write(cogunwa_resolve, pack, out).map(|given| Written { words: given.value as usize, steps: given.steps })
}

/// As [`resolve`]: the words in a vector.
///
/// # Errors
///
/// Those of [`resolve`]; 16 only where the result would have more than [`MAX_WORDS`].
///
/// ```
/// # let hex = include_str!(concat!(env!("CARGO_MANIFEST_DIR"), "/../examples/household.hex"));
/// # let mut words = cogunwa::words_of_hex(hex).unwrap();
/// # let pack = cogunwa::bytes_of(&words);
/// let resolved = cogunwa::resolve_vec(&pack)?;
/// // The sum runs from slot 1, where the household stands.
/// assert_eq!(resolved.words[38..40], [cogunwa::word(80, 1), cogunwa::word(81, 0)]);
/// # Ok::<(), cogunwa::Refusal>(())
/// ```
pub fn resolve_vec(pack: &[u8]) -> Result<Resolved, Refusal> {
    write_vec(cogunwa_resolve, pack, MAX_WORDS).map(|(words, steps)| Resolved { words, steps })
}

/// The place of a name's kinds; `None` where it has none, also where no relation has the name.
///
/// # Errors
///
/// Those of [`check`], then [`NotAName`](RefusalKind::NotAName) if the name is not below the pack's N.
///
/// ```
/// # let hex = include_str!(concat!(env!("CARGO_MANIFEST_DIR"), "/../examples/household.hex"));
/// # let pack = cogunwa::bytes_of(&cogunwa::words_of_hex(hex).unwrap());
/// assert_eq!(cogunwa::kinds_of(&pack, 7), Ok(Some(8)));
/// assert_eq!(cogunwa::kinds_of(&pack, 3), Ok(None));
/// ```
pub fn kinds_of(pack: &[u8], name: u32) -> Result<Option<usize>, Refusal> {
    // SAFETY: as in `check`.
    let answer = unsafe { cogunwa_kinds_of(pack.as_ptr(), pack.len(), name) };
    take_apart(answer).map(|given| place_of(given.value))
}

/// Whether the name `a` leans on the name `b`: whether one or more sources and steps of paths lead from `a` to `b`, in any
/// mixture, whatever lists of kinds stand beside them. A name leans on itself only round a ring; one that no relation has can
/// be leant on, and leans on nothing. Kinds, unlike this, never pass through a path.
///
/// # Errors
///
/// Those of [`check`], then [`NotAName`](RefusalKind::NotAName) if a name is not below the pack's N, `a` before `b`.
///
/// ```
/// # let hex = include_str!(concat!(env!("CARGO_MANIFEST_DIR"), "/../examples/household.hex"));
/// # let pack = cogunwa::bytes_of(&cogunwa::words_of_hex(hex).unwrap());
/// // 9 is the source of 7.
/// assert_eq!(cogunwa::lean(&pack, 7, 9), Ok(true));
/// assert_eq!(cogunwa::lean(&pack, 9, 7), Ok(false));
/// ```
pub fn lean(pack: &[u8], a: u32, b: u32) -> Result<bool, Refusal> {
    // SAFETY: as in `check`.
    let answer = unsafe { cogunwa_lean(pack.as_ptr(), pack.len(), a, b) };
    take_apart(answer).map(|given| given.value == 1)
}

/// Writes to `out`, one word for each name, the one kind that it takes as an entity, however often; [`NONE`] where it
/// takes none, or several. Answers the number of words written, which is the pack's N. Bytes past those words stay as
/// they are, and a refusal leaves all of `out` as it is. Of `out` only whole words count.
///
/// # Errors
///
/// Those of [`check`], then [`NoRoom`](RefusalKind::NoRoom) if `out` has fewer words than N.
///
/// ```
/// # let hex = include_str!(concat!(env!("CARGO_MANIFEST_DIR"), "/../examples/household.hex"));
/// # let pack = cogunwa::bytes_of(&cogunwa::words_of_hex(hex).unwrap());
/// let mut out = [0; 4 * cogunwa::MAX_NAMES];
/// assert_eq!(cogunwa::direct(&pack, &mut out), Ok(10));
/// // No derivation of the sample has an entity.
/// assert!(cogunwa::words(&out[..40]).all(|kind| kind == cogunwa::NONE));
/// ```
pub fn direct(pack: &[u8], out: &mut [u8]) -> Result<usize, Refusal> {
    write(cogunwa_direct, pack, out).map(|given| given.value as usize)
}

/// As [`direct`]: for each name its kind, `None` where it takes none, or several.
///
/// # Errors
///
/// Those of [`check`].
///
/// ```
/// # let hex = include_str!(concat!(env!("CARGO_MANIFEST_DIR"), "/../examples/household.hex"));
/// # let mut words = cogunwa::words_of_hex(hex).unwrap();
/// // The sample's derivation made one of the entity 3, with the current slot 1, where the kind 1 stands.
/// words[21] = cogunwa::word(19, 3);
/// let direct = cogunwa::direct_vec(&cogunwa::bytes_of(&words))?;
/// assert_eq!(direct[3], Some(1));
/// assert_eq!(direct[4], None);
/// # Ok::<(), cogunwa::Refusal>(())
/// ```
pub fn direct_vec(pack: &[u8]) -> Result<Vec<Option<u32>>, Refusal> {
    names_vec(cogunwa_direct, pack)
}

/// A table of names, with `None` for [`NONE`].
fn names_vec(operation: Writes, pack: &[u8]) -> Result<Vec<Option<u32>>, Refusal> {
    let (words, _) = write_vec(operation, pack, MAX_NAMES)?;
    Ok(words.into_iter().map(|name| Some(name).filter(|&name| name != NONE)).collect())
}

/// Writes to `out`, one word for each name, where its direct kind leads: on from kind to kind, as [`direct`] says, until a
/// name that has none or is its own. [`NONE`] for a name without a direct kind, and for one that leads into a longer ring.
/// Answer and bytes past the words are as in [`direct`].
///
/// # Errors
///
/// Those of [`direct`].
///
/// ```
/// # let hex = include_str!(concat!(env!("CARGO_MANIFEST_DIR"), "/../examples/household.hex"));
/// # let pack = cogunwa::bytes_of(&cogunwa::words_of_hex(hex).unwrap());
/// let mut out = [0; 4 * cogunwa::MAX_NAMES];
/// assert_eq!(cogunwa::innermost(&pack, &mut out), Ok(10));
/// ```
pub fn innermost(pack: &[u8], out: &mut [u8]) -> Result<usize, Refusal> {
    write(cogunwa_innermost, pack, out).map(|given| given.value as usize)
}

/// As [`innermost`]: for each name where its direct kind leads, `None` for [`NONE`].
///
/// # Errors
///
/// Those of [`check`].
///
/// ```
/// # let hex = include_str!(concat!(env!("CARGO_MANIFEST_DIR"), "/../examples/household.hex"));
/// # let mut words = cogunwa::words_of_hex(hex).unwrap();
/// words[21] = cogunwa::word(19, 3); // as in `direct_vec`
/// assert_eq!(cogunwa::innermost_vec(&cogunwa::bytes_of(&words))?[3], Some(1));
/// # Ok::<(), cogunwa::Refusal>(())
/// ```
pub fn innermost_vec(pack: &[u8]) -> Result<Vec<Option<u32>>, Refusal> {
    names_vec(cogunwa_innermost, pack)
}

/// Writes to `out`, one word for each name, 1 if it takes a kind other than itself, otherwise 0. Answer and bytes past the
/// words are as in [`direct`].
///
/// # Errors
///
/// Those of [`direct`].
///
/// ```
/// # let hex = include_str!(concat!(env!("CARGO_MANIFEST_DIR"), "/../examples/household.hex"));
/// # let pack = cogunwa::bytes_of(&cogunwa::words_of_hex(hex).unwrap());
/// let mut out = [1; 4 * cogunwa::MAX_NAMES];
/// assert_eq!(cogunwa::alias(&pack, &mut out), Ok(10));
/// assert_eq!(cogunwa::words_of(&out[..40]), [0; 10]);
/// ```
pub fn alias(pack: &[u8], out: &mut [u8]) -> Result<usize, Refusal> {
    write(cogunwa_alias, pack, out).map(|given| given.value as usize)
}

/// As [`alias`]: for each name whether it takes a kind other than itself.
///
/// # Errors
///
/// Those of [`check`].
///
/// ```
/// # let hex = include_str!(concat!(env!("CARGO_MANIFEST_DIR"), "/../examples/household.hex"));
/// # let mut words = cogunwa::words_of_hex(hex).unwrap();
/// words[21] = cogunwa::word(19, 3); // as in `direct_vec`
/// assert!(cogunwa::alias_vec(&cogunwa::bytes_of(&words))?[3]);
/// # Ok::<(), cogunwa::Refusal>(())
/// ```
pub fn alias_vec(pack: &[u8]) -> Result<Vec<bool>, Refusal> {
    flags_vec(cogunwa_alias, pack)
}

/// A table of flags.
fn flags_vec(operation: Writes, pack: &[u8]) -> Result<Vec<bool>, Refusal> {
    let (words, _) = write_vec(operation, pack, MAX_NAMES)?;
    Ok(words.into_iter().map(|flag| flag == 1).collect())
}

/// Writes to `out`, one word for each name, 1 if it is the entity of some derivation and takes no kind, otherwise 0.
/// Answer and bytes past the words are as in [`direct`].
///
/// # Errors
///
/// Those of [`direct`].
///
/// ```
/// # let hex = include_str!(concat!(env!("CARGO_MANIFEST_DIR"), "/../examples/household.hex"));
/// # let pack = cogunwa::bytes_of(&cogunwa::words_of_hex(hex).unwrap());
/// let mut out = [1; 4 * cogunwa::MAX_NAMES];
/// assert_eq!(cogunwa::unresolved(&pack, &mut out), Ok(10));
/// assert_eq!(cogunwa::words_of(&out[..40]), [0; 10]);
/// ```
pub fn unresolved(pack: &[u8], out: &mut [u8]) -> Result<usize, Refusal> {
    write(cogunwa_unresolved, pack, out).map(|given| given.value as usize)
}

/// As [`unresolved`]: for each name whether it is the entity of some derivation and takes no kind.
///
/// # Errors
///
/// Those of [`check`].
///
/// ```
/// # let hex = include_str!(concat!(env!("CARGO_MANIFEST_DIR"), "/../examples/household.hex"));
/// # let mut words = cogunwa::words_of_hex(hex).unwrap();
/// words[19] = cogunwa::word(17, 5); // a current slot that no kind stands in
/// words[21] = cogunwa::word(19, 3);
/// assert!(cogunwa::unresolved_vec(&cogunwa::bytes_of(&words))?[3]);
/// # Ok::<(), cogunwa::Refusal>(())
/// ```
pub fn unresolved_vec(pack: &[u8]) -> Result<Vec<bool>, Refusal> {
    flags_vec(cogunwa_unresolved, pack)
}

#[cfg(test)]
mod tests {
    use super::*;

    #[test]
    fn the_fields_of_an_answer() {
        let answer = 7 | 8192 << 6 | 0xFFFF_FFFF << 20 | 4095 << 52;
        let refusal = take_apart(answer).err();
        assert_eq!(refusal, Some(Refusal { number: 7, place: 8192, name: 0xFFFF_FFFF, other: 4095 }));
        let given = take_apart(8192 << 20 | 1024 << 52).ok().map(|given| (given.value, given.steps));
        assert_eq!(given, Some((8192, 1024)));
    }

    #[test]
    fn the_constants_are_those_of_the_header() {
        let header = include_str!("../../include/cogunwa.h");
        let defined = |name: &str| {
            let line = header.lines().find_map(|line| line.strip_prefix(&format!("#define COGUNWA_{name} ")));
            let number = line.unwrap_or_else(|| panic!("the header does not define {name}")).split(' ').next().unwrap();
            number.trim_end_matches('u').parse::<usize>().unwrap()
        };
        let constants = [
            ("MIN_WORDS", MIN_WORDS),
            ("MAX_WORDS", MAX_WORDS),
            ("MAX_BYTES", MAX_BYTES),
            ("MAX_NAMES", MAX_NAMES),
            ("MAX_RELATIONS", MAX_RELATIONS),
            ("MAX_RULES", MAX_RULES),
            ("MAX_BLOCKS", MAX_BLOCKS),
            ("MAX_DEPTH", MAX_DEPTH),
            ("STACK_BYTES", STACK_BYTES),
            ("NONE", NONE as usize),
        ];
        for (name, constant) in constants {
            assert_eq!(defined(name), constant, "{name}");
        }
        let version = ["MAJOR", "MINOR", "PATCH"].map(|part| defined(&format!("VERSION_{part}")).to_string());
        assert_eq!(version.join("."), VERSION);
    }
}

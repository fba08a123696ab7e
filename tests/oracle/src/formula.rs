//! A stand-in for the original's module of this name, which is not at hand. Nothing under test reaches it.

pub fn is_builtin_function(_: &str) -> bool {
    unreachable!("a stand-in")
}

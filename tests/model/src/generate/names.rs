//! The names of a pack by chance.

use super::Form;
use crate::chance::Chance;
use crate::records::NONE;
use std::collections::BTreeSet;

/// How many names there are, which of them are used, in an order by chance, and what origins they give.
pub struct Names {
    pub n: u32,
    pub used: Vec<u32>,
    pub origins: Origins,
    /// In byte order from the empty one on; none where names are but numbers.
    pub texts: Vec<String>,
}

pub enum Origins {
    /// Of each name.
    OfTexts(Vec<u32>),
    /// Any of these.
    Any(Vec<u32>),
}

impl Names {
    /// About so many names with texts.
    pub fn with_texts(r: &mut Chance, about: u32) -> Names {
        let texts = texts(r, about);
        let mut used: Vec<u32> = (0..texts.len() as u32).collect();
        r.mix(&mut used);
        Names { n: used.len() as u32, used, origins: Origins::OfTexts(origins(&texts)), texts }
    }

    /// Names that are but numbers: few, or 4,096, of which some are used.
    pub fn numbers(r: &mut Chance, form: Form) -> Names {
        let few = match form {
            Form::Turning => 6 + r.below(20),
            _ => 1 + r.below(40),
        };
        let n = if r.often(if form == Form::Turning { 95 } else { 90 }) { few } else { 4096 };
        let most = if form.is_graph() { 2 + r.below(300) } else { 60 };
        let mut used: Vec<u32> = (0..n).collect();
        if form.is_graph() {
            // The last names, which lead from one to the next.
            used.drain(..n.saturating_sub(most) as usize);
        } else {
            r.mix(&mut used);
            used.truncate(most as usize);
        }
        let origins = match form {
            Form::Turning => vec![used[0], used[1], used[2], NONE, NONE],
            _ => used.iter().copied().chain(vec![NONE; used.len() / 2 + 1]).collect(),
        };
        Names { n, used, origins: Origins::Any(origins), texts: vec![] }
    }
}

fn origins(texts: &[String]) -> Vec<u32> {
    let origin = |text: &String| {
        let (before, _) = text.split_once('#')?;
        texts.binary_search_by(|t| t.as_str().cmp(before)).ok().map(|i| i as u32)
    };
    texts.iter().map(|text| origin(text).unwrap_or(NONE)).collect()
}

/// Texts in byte order from the empty one on, with the origin of each among them.
fn texts(r: &mut Chance, about: u32) -> Vec<String> {
    const PARTS: [&str; 14] =
        ["a", "b", "B", "ab", "us", "us:x/1", "person", "Household", "é", "z~", "\u{1F600}", " ", "0", "Z"];
    let mut all = BTreeSet::from([String::new()]);
    while all.len() < about as usize {
        let mut text = String::new();
        if !r.once(12) {
            text += r.one(&PARTS);
        }
        if r.once(2) {
            text += &r.below(about).to_string();
        }
        if r.once(2) {
            all.insert(text.clone());
            text += "#";
            text += r.one(&PARTS);
            if r.once(3) {
                text += &r.below(about).to_string();
            }
            if r.once(6) {
                text += "#x";
            }
        }
        all.insert(text);
    }
    all.into_iter().collect()
}

//! A list of cases, each a pack with calls on it. Every answer is the model's.

use cogunwa_model::records::Pack;
use cogunwa_model::{Outcome, Reading, Refusal, read};

/// What an entry of the list is, by its number.
pub const OPERATIONS: [&str; 13] = [
    "part",
    "pack",
    "check",
    "rewrite",
    "all_kinds",
    "kinds_of",
    "lean",
    "direct",
    "innermost",
    "alias",
    "unresolved",
    "resolve",
    "end",
];

pub const TABLES: [&str; 4] = ["direct", "innermost", "alias", "unresolved"];

/// Room for any result.
pub const MUCH: u32 = 8400;

/// A call: its operation, its room or its names, what it answers and the words that it writes.
#[derive(Debug, PartialEq)]
pub struct Call {
    pub operation: &'static str,
    pub arguments: Vec<u32>,
    /// Number, place, name and other: those of a refusal, or 0, 0, a value and the steps.
    pub answer: [u32; 4],
    pub words: Vec<u32>,
}

#[derive(Debug)]
pub struct Case {
    pub name: String,
    pub words: Vec<u32>,
    pub reading: Outcome<Reading>,
    pub calls: Vec<Call>,
}

/// The cases, and the headings of sections, each with how many cases stand before it.
#[derive(Default)]
pub struct List {
    pub cases: Vec<Case>,
    pub headings: Vec<(usize, String)>,
}

fn given(reading: &Reading, operation: &str, arguments: &[u32]) -> Outcome<(u32, u32, Vec<u32>)> {
    let room = arguments.first().map_or(0, |&room| room as usize);
    let written = |words: Vec<u32>| (words.len() as u32, 0, words);
    let counted = |(words, steps): (Vec<u32>, u32)| (words.len() as u32, steps, words);
    Ok(match operation {
        "check" => (1, 0, vec![]),
        "rewrite" => written(reading.rewrite(room)?),
        "all_kinds" => counted(reading.all_kinds(room)?),
        "kinds_of" => (reading.kinds_of(arguments[0])?.unwrap_or(0) as u32, 0, vec![]),
        "lean" => (reading.lean(arguments[0], arguments[1])?.into(), 0, vec![]),
        "direct" => written(reading.direct(room)?),
        "innermost" => written(reading.innermost(room)?),
        "alias" => written(reading.alias(room)?),
        "unresolved" => written(reading.unresolved(room)?),
        "resolve" => counted(reading.resolve(room)?),
        _ => panic!("there is no operation {operation}"),
    })
}

/// The call with the model's answer.
pub fn answered(reading: &Outcome<Reading>, operation: &'static str, arguments: &[u32]) -> Call {
    let found = reading.as_ref().map_err(|refusal| *refusal).and_then(|r| given(r, operation, arguments));
    let (answer, words) = match found {
        Ok((value, steps, words)) => ([0, 0, value, steps], words),
        Err(Refusal { number, place, name, other }) => ([number, place as u32, name, other], vec![]),
    };
    Call { operation, arguments: arguments.to_vec(), answer, words }
}

/// Rooms at the edges of what is needed.
fn about(needs: usize) -> Vec<u32> {
    let mut rooms = [0, needs.saturating_sub(1), needs, needs + 3].map(|room| room as u32).to_vec();
    rooms.dedup();
    rooms
}

impl List {
    pub fn section(&mut self, text: &str) {
        self.headings.push((self.cases.len(), text.into()));
    }

    /// A pack, or words that are none, with a call of Check and of Rewrite in these rooms.
    pub fn add(&mut self, name: &str, words: &[u32], rooms: &[u32]) -> &mut Case {
        assert!(!name.contains([' ', '|']) && self.cases.iter().all(|case| case.name != name), "{name}");
        let mut case = Case { name: name.into(), words: words.to_vec(), reading: read(words), calls: vec![] };
        case.call("check", &[]);
        rooms.iter().for_each(|&room| case.call("rewrite", &[room]));
        self.cases.push(case);
        self.cases.last_mut().unwrap()
    }

    /// Words that Check accepts or not, with Rewrite and Resolve in rooms around what they need, in turn.
    pub fn any(&mut self, name: &str, words: &[u32]) -> &mut Case {
        let turn = self.cases.len() % 3;
        let length = words.len() as u32;
        if read(words).is_err() {
            let case = self.add(name, words, &[[length, 0, MUCH][(turn + 1) % 3]]);
            case.call("resolve", &[[length, 0, MUCH][turn]]);
            return case;
        }
        let case = self.add(name, words, &[length, [length - 1, 0, length + 3][turn]]);
        case.resolve(|n| [[n, n - 1], [n + 1, 0], [MUCH, n - 1]][turn].to_vec())
    }

    pub fn ok(&mut self, name: &str, words: &[u32]) -> &mut Case {
        let case = self.any(name, words);
        assert!(case.reading.is_ok(), "{name}: {:?}", case.reading);
        case
    }

    /// Words that Check refuses by this number.
    pub fn refused(&mut self, number: u32, name: &str, words: &[u32]) -> &mut Case {
        let case = self.any(name, words);
        assert!(case.reading.as_ref().is_err_and(|r| r.number == number), "{name}: {:?}", case.reading);
        case
    }

    /// A pack that resolves to itself.
    pub fn kept(&mut self, name: &str, pack: &Pack) -> &mut Case {
        self.resolves(name, pack, false)
    }

    /// A pack that resolves to another.
    pub fn turned(&mut self, name: &str, pack: &Pack) -> &mut Case {
        self.resolves(name, pack, true)
    }

    pub fn resolves(&mut self, name: &str, pack: &Pack, changed: bool) -> &mut Case {
        let words = pack.words();
        let case = self.add(name, &words, &[words.len() as u32]);
        let result = case.reading.as_ref().unwrap().resolve(MUCH as usize);
        let found = result.as_ref().map(|(result, _)| *result != words);
        assert_eq!(found, Ok(changed), "{name}");
        case.resolve(|n| vec![n, n - 1]);
        case
    }

    /// A pack that Resolve refuses, with number, name and other, whatever the room.
    pub fn stopped(&mut self, wanted: [u32; 3], name: &str, pack: &Pack) -> &mut Case {
        let words = pack.words();
        let case = self.add(name, &words, &[words.len() as u32]);
        let result = case.reading.as_ref().unwrap().resolve(MUCH as usize);
        assert!(result.as_ref().is_err_and(|r| [r.number, r.name, r.other] == wanted), "{name}: {result:?}");
        case.resolve(|_| vec![MUCH, 0])
    }
}

impl Case {
    pub fn call(&mut self, operation: &'static str, arguments: &[u32]) {
        let call = answered(&self.reading, operation, arguments);
        self.calls.push(call);
    }

    /// Calls of Resolve in the rooms for a result of so many words, be it too long; two where it is refused by another
    /// number.
    pub fn resolve(&mut self, rooms: impl Fn(u32) -> Vec<u32>) -> &mut Case {
        let rooms = match self.length() {
            Some(length) => rooms(length),
            None => vec![MUCH, 0],
        };
        rooms.iter().for_each(|&room| self.call("resolve", &[room]));
        self
    }

    /// How many words Resolve's result has.
    fn length(&self) -> Option<u32> {
        match self.reading.as_ref().ok()?.resolve(MUCH as usize) {
            Ok((result, _)) => Some(result.len() as u32),
            Err(refusal) if refusal.number == 16 => Some(8193),
            Err(_) => None,
        }
    }

    pub fn pack(&self) -> &Pack {
        &self.reading.as_ref().unwrap().pack
    }

    /// Pairs of names, some that lean and as many that do not: the first, one between and the last.
    pub fn pairs(&self) -> Vec<(u32, u32)> {
        let reading = self.reading.as_ref().unwrap();
        let met = self.pack().met();
        let pairs = met.iter().flat_map(|&a| met.iter().map(move |&b| (a, b)));
        let (yes, no): (Vec<_>, Vec<_>) = pairs.partition(|&(a, b)| reading.lean(a, b) == Ok(true));
        let some = |all: Vec<(u32, u32)>| {
            let mut places = match all.len() {
                0 => vec![],
                count => vec![0, count / 2, count - 1],
            };
            places.dedup();
            places.into_iter().map(move |place| all[place])
        };
        some(yes).chain(some(no)).collect()
    }

    /// Calls of every operation but Check, Rewrite and Resolve for these names and pairs of names.
    pub fn ask_of(&mut self, names: &[u32], pairs: &[(u32, u32)]) {
        let more = self.words.len() as u32 % 3;
        let (relations, n) = (self.pack().relations.len() as u32, self.pack().n);
        self.call("all_kinds", &[relations + more]);
        self.ask_names(names, pairs);
        TABLES.into_iter().for_each(|table| self.call(table, &[n + more]));
    }

    fn ask_names(&mut self, names: &[u32], pairs: &[(u32, u32)]) {
        names.iter().for_each(|&name| self.call("kinds_of", &[name]));
        pairs.iter().for_each(|&(a, b)| self.call("lean", &[a, b]));
    }

    pub fn ask(&mut self) {
        self.ask_of(&self.pack().met(), &self.pairs());
    }

    /// The same at the edges of rooms, for these names and for numbers that are none; of a refused pack too.
    pub fn ask_edges(&mut self, names: &[u32], pairs: &[(u32, u32)]) {
        let (n, relations) = self.reading.as_ref().map_or((10, 3), |r| (r.pack.n, r.pack.relations.len()));
        about(relations).iter().for_each(|&room| self.call("all_kinds", &[room]));
        self.ask_names(names, pairs);
        self.ask_names(&[n, u32::MAX], &[(0, n), (n, 0), (n, u32::MAX), (u32::MAX, n)]);
        for table in TABLES {
            about(n as usize).iter().for_each(|&room| self.call(table, &[room]));
        }
    }
}

//! The original's answers, tests/oracle/answers.txt, which `bash tests/oracle/run list FILE` writes.
//!
//! A line there is a comment, which begins with #, a case, or a call on the pack of the case above it; the words are
//! hexadecimal:
//!
//!     NAME | ok | how many words the pack has | ROOM .. for Rewrite | the words of the pack
//!     NAME > OPERATION ARGUMENT | given VALUE STEPS, or refused NUMBER PLACE NAME OTHER | the words written

use crate::list::{Call, List, OPERATIONS, answered};

const ANSWERS: &str = include_str!("../../../../oracle/answers.txt");

fn words(text: &str) -> Vec<u32> {
    text.split_whitespace().map(|word| u32::from_str_radix(word, 16).unwrap()).collect()
}

fn numbers(text: &str) -> Vec<u32> {
    text.split_whitespace().map(|number| number.parse().unwrap()).collect()
}

fn call(asked: &str, answer: &str, written: &str) -> Call {
    let (operation, arguments) = asked.split_once(' ').unwrap();
    let answer = match answer.split_once(' ').unwrap() {
        ("given", given) => [&[0, 0], &numbers(given)[..]].concat(),
        ("refused", refusal) => numbers(refusal),
        _ => panic!("{answer}"),
    };
    Call {
        operation: OPERATIONS.into_iter().find(|name| *name == operation).unwrap(),
        arguments: numbers(arguments),
        answer: answer.try_into().unwrap(),
        words: words(written),
    }
}

/// Takes them up, and holds the model to them.
pub fn section(list: &mut List) {
    for line in ANSWERS.lines() {
        let fields: Vec<&str> = line.split('|').map(str::trim).collect();
        match (line.strip_prefix("# "), &fields[..]) {
            (Some(comment), _) => list.section(comment),
            (None, [name, "ok", length, rooms, pack]) => {
                let words = words(pack);
                assert_eq!(numbers(length), [words.len() as u32], "{name}");
                let case = list.add(name, &words, &numbers(rooms));
                assert!(case.reading.is_ok(), "{name}");
            }
            (None, [head, answer, written]) => {
                let case = list.cases.last_mut().unwrap();
                let (name, asked) = head.split_once(" > ").unwrap();
                assert_eq!(name, case.name);
                let call = call(asked, answer, written);
                assert_eq!(call, answered(&case.reading, call.operation, &call.arguments), "{head}");
                case.calls.push(call);
            }
            _ => panic!("{line}"),
        }
    }
}

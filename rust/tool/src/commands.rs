//! The commands that read, write and resolve packs. Those that say something of them are in `answers`.

use crate::accepted::{Accepted, accept};
use crate::args::{Args, Command, Done, Flag};
use crate::facts::Resolved;
use crate::held::{facts, find};
use crate::input::{Form, load};
use crate::layout::layout;
use crate::make::make;
use crate::pack::{Pack, Tree};
use crate::trouble::{Outcome, disagreement, refused, unusable};
use crate::{answers, graph, report, say, tell};
use std::fmt::Write;

const OUT: Flag = Flag { name: "-o", value: "FILE", about: "write there; `-` or nothing is standard output" };
const NAMES: Flag = Flag {
    name: "--names",
    value: "FILE",
    about: "the names of a pack in bytes or words: for each a length byte and its bytes",
};
const HEX: Flag = Flag { name: "--hex", value: "", about: "write hexadecimal words" };
const BYTES: Flag = Flag { name: "--bytes", value: "", about: "write bytes" };
const TEXT: Flag = Flag { name: "--text", value: "", about: "write a text" };

pub const COMMANDS: &[Command] = &[
    Command {
        name: "make",
        takes: "TEXT",
        count: (1, 1),
        options: &[
            OUT,
            Flag {
                name: "--names",
                value: "FILE",
                about: "write the names there: for each a length byte and its bytes",
            },
            HEX,
        ],
        summary: "a pack's bytes from its text",
        about: "Makes a pack from its text: bytes, four a word, low byte first. Names are numbered in the byte order of\n\
                their texts; --names writes that list beside the pack, so that `list` can read the texts again.",
        run: run_make,
    },
    Command {
        name: "list",
        takes: "PACK",
        count: (1, 1),
        options: &[OUT, NAMES],
        summary: "a pack's text from its bytes",
        about: "Writes a pack as text. Without --names its names are written by number, such as @7. `make` gives the same\n\
                words back.",
        run: run_list,
    },
    Command {
        name: "fmt",
        takes: "TEXT",
        count: (1, 1),
        options: &[OUT],
        summary: "a pack's text in one layout",
        about: "Lays a pack's text out again. Comments and the legend stay, and so do the words that it makes.",
        run: run_fmt,
    },
    Command {
        name: "check",
        takes: "PACK",
        count: (1, 1),
        options: &[NAMES],
        summary: "whether a pack is well formed",
        about: "Says whether the library accepts a pack, or the first thing that it refuses, with the place. It does not\n\
                look at directions: `resolve` and `why` do.",
        run: run_check,
    },
    Command {
        name: "resolve",
        takes: "PACK",
        count: (1, 1),
        options: &[OUT, NAMES, TEXT, HEX, BYTES],
        summary: "the pack with every direction settled, and what changed",
        about: "Settles the direction of every aggregate and membership test and writes the whole pack, in the form that it\n\
                came in unless another is asked for. What was turned and what was stamped is said on standard error.",
        run: run_resolve,
    },
    Command {
        name: "why",
        takes: "PACK [RULE]",
        count: (1, 2),
        options: &[
            Flag {
                name: "--warn-kept",
                value: "",
                about: "point at every node that is kept as it was written, with what to look at",
            },
            NAMES,
        ],
        summary: "why each node runs the way it does",
        about: "Says of each node that has slots which way it runs, and why: of the whole pack, or of one rule or relation.\n\n\
                \x20 turned      its slots were set another way than they were written\n\
                \x20 as written  its slots were set, and were written so\n\
                \x20 KEPT        nothing tells which way it runs, and what was written stays: look at these\n\
                \x20 REFUSED     its direction is open, or what it asks for is not there\n\n\
                The reasons are worked out from the pack and held to what the library resolved.",
        run: answers::why,
    },
    Command {
        name: "kinds",
        takes: "PACK [RELATION]",
        count: (1, 2),
        options: &[NAMES],
        summary: "the kinds of each relation's slots, and whose list it is",
        about: "Says which kinds each relation's slots have, its own or inherited ones, in whose record the list stands, and\n\
                why there are none.",
        run: answers::kinds,
    },
    Command {
        name: "leans",
        takes: "PACK [RELATION [ON]]",
        count: (1, 3),
        options: &[NAMES],
        summary: "which relations lean on which",
        about: "Says on which names each relation leans: on its source, on the relations of its path's steps, and on all that\n\
                these lean on. Of one relation it says also what leans on it: one that nothing leans on can be withdrawn. Of\n\
                two it says whether the first leans on the second, and the way that leads there.\n\n\
                The way is worked out from the pack and held to what the library answers.",
        run: answers::leans,
    },
    Command {
        name: "tables",
        takes: "PACK",
        count: (1, 1),
        options: &[NAMES, Flag { name: "--all", value: "", about: "also the names of which there is nothing to say" }],
        summary: "what each entity stands for",
        about: "Says of each name, as an entity: the one kind that it takes from the derivations that name it (direct),\n\
                where these kinds lead in the end (innermost), whether it takes a kind other than itself (alias), and\n\
                whether derivations name it and it takes none (unresolved).",
        run: answers::tables,
    },
    Command {
        name: "graph",
        takes: "PACK",
        count: (1, 1),
        options: &[OUT, NAMES, Flag { name: "--dot", value: "", about: "write DOT, for Graphviz, in place of SVG" }],
        summary: "the relations and their sources as a picture",
        about: "Draws the relations as an SVG picture: sources as arrows, paths dashed, rings marked; on the boxes the kinds\n\
                and the nodes that run over the relation, those that are kept or refused marked.",
        run: graph::run,
    },
    Command {
        name: "report",
        takes: "PACK",
        count: (1, 1),
        options: &[OUT, NAMES],
        summary: "all of this on one page, for the screen or for paper",
        about: "Writes one HTML file with the pack, the picture of its relations, why each node runs the way it does, the\n\
                kinds, the leans and the tables.",
        run: report::run,
    },
];

/// The pack that a command was given, as the library accepts it.
pub fn given(args: &Args) -> Outcome<Accepted> {
    accept(load(args.pack(), args.value("--names"))?)
}

fn hex(words: &[u32]) -> Vec<u8> {
    words.iter().flat_map(|word| format!("{word:08X}\n").into_bytes()).collect()
}

fn run_make(args: &Args) -> Outcome<Done> {
    match (args.value("--names"), args.value("-o")) {
        (Some("-"), _) => return Err(unusable("cogunwa make: --names needs a file; standard output is for the pack")),
        (Some(names), Some(out)) if names == out => {
            return Err(unusable(format!("{names}: this cannot have both the pack and the list of its names")));
        }
        _ => {}
    }
    let accepted = accept(load(args.pack(), None)?)?;
    let input = &accepted.input;
    if let Some(file) = args.value("--names") {
        let Some(list) = input.naming.to_list() else {
            return Err(unusable(format!(
                "{}: the names of this pack have no texts, so there is no list of them",
                input.file
            )));
        };
        write_file(file, &list)?;
    }
    let out = if args.has("--hex") { hex(&input.words) } else { input.bytes.clone() };
    Ok(Done { out, beside: String::new(), code: 0 })
}

pub fn write_file(file: &str, bytes: &[u8]) -> Outcome<()> {
    std::fs::write(file, bytes).map_err(|error| match error.kind() {
        std::io::ErrorKind::NotFound => unusable(format!("{file}: there is no such folder to write to")),
        _ => unusable(format!("{file}: {}", crate::input::in_words(&error))),
    })
}

fn run_list(args: &Args) -> Outcome<Done> {
    given(args)?.laid_out().map(Done::text)
}

fn run_fmt(args: &Args) -> Outcome<Done> {
    let input = load(args.pack(), None)?;
    input.needs_text()?;
    accept(input)?.laid_out().map(Done::text)
}

fn run_check(args: &Args) -> Outcome<Done> {
    let accepted = given(args)?;
    Ok(Done::text(format!("{}: accepted: {}\n", accepted.input.file, counts(&accepted))))
}

/// How much there is in a pack.
pub fn counts(accepted: &Accepted) -> String {
    let Pack { names, relations, rules, blocks, .. } = &accepted.pack;
    let counted = |count: usize, one: &str| format!("{count} {one}{}", if count == 1 { "" } else { "s" });
    let blocks = format!("{} of inputs", counted(blocks.len(), "block"));
    let words = counted(accepted.input.words.len(), "word");
    let names = counted(*names as usize, "name");
    [words, names, counted(relations.len(), "relation"), counted(rules.len(), "rule"), blocks].join(", ")
}

fn run_resolve(args: &Args) -> Outcome<Done> {
    let accepted = given(args)?;
    let facts = facts(&accepted)?;
    let found = find(&accepted, &facts)?;
    let resolved = match &found.resolved {
        Ok(resolved) => resolved,
        Err(refusal) => return Err(refused(say::unresolved(&accepted, &facts, *refusal))),
    };
    let out = match form_asked(args, accepted.input.form)? {
        Form::Text => resolved_text(&accepted, resolved)?.into_bytes(),
        Form::Hex => hex(&resolved.words),
        Form::Bytes => cogunwa::bytes_of(&resolved.words),
    };
    let changes = tell::changes(&accepted, &found);
    let mut beside = format!("{}: resolved", accepted.title);
    match changes.is_empty() {
        true => beside.push_str("; nothing had to be changed\n"),
        false => beside.push_str(":\n"),
    }
    for change in changes {
        _ = writeln!(beside, "  {change}");
    }
    beside.push_str(&answers::kept_note(&found.reasons, &accepted.input.file));
    Ok(Done { out, beside, code: 0 })
}

fn form_asked(args: &Args, form: Form) -> Outcome<Form> {
    let forms = [("--text", Form::Text), ("--hex", Form::Hex), ("--bytes", Form::Bytes)];
    let mut asked = forms.into_iter().filter(|(name, _)| args.has(name)).map(|(_, form)| form);
    let first = asked.next().unwrap_or(form);
    if asked.next().is_some() {
        Err(unusable("cogunwa resolve: one of --text, --hex and --bytes is enough"))
    } else {
        Ok(first)
    }
}

/// The text of the resolved pack, with the comments and the legend of the text that it came from.
pub fn resolved_text(accepted: &Accepted, resolved: &Resolved) -> Outcome<String> {
    let mut pack = accepted.pack.clone();
    for relation in &mut pack.relations {
        let Some(result) = resolved.pack.find(relation.name) else { continue };
        relation.kinds.names.clone_from(&result.kinds.names);
        if let (Some(d), Some(result)) = (&mut relation.derivation, &result.derivation) {
            d.kinds.names.clone_from(&result.kinds.names);
            copy_slots(&mut d.predicate, &result.predicate);
        }
    }
    for (rule, result) in pack.rules.iter_mut().zip(&resolved.pack.rules) {
        for (body, result) in rule.bodies.iter_mut().zip(&result.bodies) {
            copy_slots(&mut body.tree, &result.tree);
        }
    }
    let text = layout(&pack, &accepted.input.naming, accepted.input.made.as_ref());
    let same = make(&text).is_ok_and(|made| made.words == resolved.words);
    if same { Ok(text) } else { Err(disagreement("the text of the resolved pack does not give its words back")) }
}

fn copy_slots(tree: &mut Tree, from: &Tree) {
    tree.slots = from.slots;
    for (child, from) in tree.children.iter_mut().zip(&from.children) {
        copy_slots(child, from);
    }
}

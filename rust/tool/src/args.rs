//! The command line: which command, what it is given, and its options.

use crate::trouble::{Outcome, Trouble, unusable};
use crate::words::nearest;

pub struct Command {
    pub name: &'static str,
    /// What stands behind the name and the options.
    pub takes: &'static str,
    /// The least and the most that stands there.
    pub count: (usize, usize),
    pub options: &'static [Flag],
    pub summary: &'static str,
    pub about: &'static str,
    pub run: fn(&Args) -> Outcome<Done>,
}

pub struct Flag {
    pub name: &'static str,
    /// What stands behind it, if anything.
    pub value: &'static str,
    pub about: &'static str,
}

/// What a command was given.
pub struct Args {
    pub given: Vec<String>,
    options: Vec<(&'static str, String)>,
}

/// What a command leaves: what goes to standard output or to the file of `-o`, what is said beside it, the exit code.
pub struct Done {
    pub out: Vec<u8>,
    pub beside: String,
    pub code: u8,
}

impl Done {
    pub fn text(out: String) -> Done {
        Done { out: out.into_bytes(), beside: String::new(), code: 0 }
    }
}

impl Args {
    pub fn pack(&self) -> &str {
        self.given.first().map_or("-", String::as_str)
    }

    pub fn has(&self, name: &str) -> bool {
        self.value(name).is_some()
    }

    pub fn value(&self, name: &str) -> Option<&str> {
        self.options.iter().rfind(|(n, _)| *n == name).map(|(_, value)| value.as_str())
    }
}

/// What the command line asks for.
pub enum Asked {
    Help(String),
    Run(&'static Command, Args),
}

pub fn take_apart(arguments: &[String], commands: &'static [Command]) -> Outcome<Asked> {
    let Some((first, rest)) = arguments.split_first() else {
        return Err(unusable(overview(commands)));
    };
    let find = |name: &str| commands.iter().find(|command| command.name == name);
    match first.as_str() {
        "--help" | "-h" => return Ok(Asked::Help(overview(commands))),
        "--version" => return Ok(Asked::Help(format!("cogunwa {}\n", cogunwa::VERSION))),
        "help" => {
            let command = rest.first().map(|name| find(name).ok_or_else(|| no_command(name, commands))).transpose()?;
            return Ok(Asked::Help(command.map_or_else(|| overview(commands), help)));
        }
        _ => {}
    }
    let command = find(first).ok_or_else(|| no_command(first, commands))?;
    if rest.iter().take_while(|a| *a != "--").any(|a| a == "--help" || a == "-h") {
        return Ok(Asked::Help(help(command)));
    }
    Ok(Asked::Run(command, arguments_of(command, rest)?))
}

fn arguments_of(command: &'static Command, rest: &[String]) -> Outcome<Args> {
    let mut args = Args { given: vec![], options: vec![] };
    let mut rest = rest.iter();
    while let Some(argument) = rest.next() {
        if argument == "--" {
            args.given.extend(rest.by_ref().cloned());
        } else if argument.len() > 1 && argument.starts_with('-') {
            let (name, value) = match argument.split_once('=').filter(|_| argument.starts_with("--")) {
                Some((name, value)) => (name, Some(value.to_string())),
                None => (argument.as_str(), None),
            };
            let option = command.options.iter().find(|option| option.name == name);
            let option = option.ok_or_else(|| no_option(name, command))?;
            let value = match (option.value, value) {
                ("", None) => String::new(),
                ("", Some(_)) => return Err(wrong(command, &format!("{name} takes no value"))),
                (_, Some(value)) => value,
                (what, None) => {
                    rest.next().cloned().ok_or_else(|| wrong(command, &format!("{name} needs {what} behind it")))?
                }
            };
            args.options.push((option.name, value));
        } else {
            args.given.push(argument.clone());
        }
    }
    let (least, most) = command.count;
    if args.given.len() < least || args.given.len() > most {
        let what = if args.given.len() < least { "too little is" } else { "too much is" };
        return Err(wrong(command, &format!("{what} given")));
    }
    Ok(args)
}

fn wrong(command: &Command, message: &str) -> Trouble {
    let Command { name, .. } = command;
    unusable(format!("cogunwa {name}: {message}\nusage: {}\n`cogunwa {name} --help` says more.", usage(command)))
}

fn no_option(name: &str, command: &Command) -> Trouble {
    let meant = nearest(name, command.options.iter().map(|option| option.name));
    let meant = meant.map_or(String::new(), |meant| format!("; is {meant} meant?"));
    wrong(command, &format!("there is no option {name}{meant}"))
}

fn no_command(name: &str, commands: &[Command]) -> Trouble {
    let meant = nearest(name, commands.iter().map(|command| command.name));
    let meant = meant.map_or(String::new(), |meant| format!("; is `{meant}` meant?"));
    unusable(format!("cogunwa: there is no command `{name}`{meant}\n`cogunwa --help` lists them."))
}

fn usage(command: &Command) -> String {
    let option = |option: &Flag| match option.value {
        "" => format!(" [{}]", option.name),
        value => format!(" [{} {value}]", option.name),
    };
    let options: String = command.options.iter().map(option).collect();
    format!("cogunwa {} {}{options}", command.name, command.takes)
}

fn help(command: &'static Command) -> String {
    let mut out = format!("usage: {}\n\n{}\n", usage(command), command.about.trim());
    if !command.options.is_empty() {
        out.push('\n');
    }
    for option in command.options {
        let head = format!("{} {}", option.name, option.value);
        out.push_str(&format!("  {:<15} {}\n", head.trim(), option.about));
    }
    out
}

fn overview(commands: &[Command]) -> String {
    let mut out = String::from(
        "usage: cogunwa COMMAND PACK ..\n\nReads rule packs and says which way everything in them runs.\n\n",
    );
    for command in commands {
        out.push_str(&format!("  {:<9} {}\n", command.name, command.summary));
    }
    out.push_str(
        "\nA PACK is a text, bytes (four a word, low byte first) or hexadecimal words, told apart by what the file holds;\n\
         `-` is standard input. Exit codes: 0 done, 1 the pack is refused, 2 the command line or a file is not as it must\n\
         be, 3 the tool and the library disagree. Slots, words and records count from 0, lines and columns from 1.\n\
         `cogunwa COMMAND --help` says more of each.\n",
    );
    out
}

//! What the tool writes, word for word: `tests/golden/commands` lists command lines, and beside it stands what each writes to
//! standard output and standard error, and its exit code. With WRITE_GOLDEN set these files are written again.
use std::fmt::Write;
use std::fs;
use std::path::{Path, PathBuf};
use std::process::{Command, Stdio};

const ROOT: &str = concat!(env!("CARGO_MANIFEST_DIR"), "/../..");
const TEMPORARY: &str = env!("CARGO_TARGET_TMPDIR");

/// Packs that are too large to stand in the repository.
fn generated() {
    let many = |count: usize, text: fn(usize) -> String| (0..count).map(text).collect::<String>();
    let save = |name: &str, text: String| fs::write(Path::new(TEMPORARY).join(name), text).unwrap();
    let leaves = |count: usize| vec!["leaf 1"; count].join(", ");
    let rule = |body: String| format!("pack\nrule m#rule for Person\n  scalar {body}\n");
    save("513-relations.pack", format!("pack\n{}", many(513, |i| format!("relation r{i} ()\n"))));
    save("513-defaulted.pack", format!("pack\n{}", many(513, |i| format!("defaulted r{i}\n"))));
    save("1025-rules.pack", format!("pack\n{}", many(1025, |i| format!("rule r{i} for Person\n  scalar leaf 1\n"))));
    save("65-bodies.pack", format!("pack\nrule r for Person\n{}", many(65, |_| "  scalar leaf 1\n".into())));
    save("65-blocks.pack", format!("pack\n{}", many(65, |_| "inputs m\n".into())));
    save("1025-items.pack", format!("pack\ninputs m\n{}", many(1025, |i| format!("  item i{i}\n"))));
    save("4097-names.pack", format!("pack\n{}", many(4096, |i| format!("unused n{i}\n"))));
    save("far-name.pack", "pack\nunused @4095\nrelation @4096 ()\n".into());
    save("8193-words.pack", rule(format!("add ({})", leaves(8181))));
    save("8192-words.pack", rule(format!("add ({})", leaves(8180))));
    save("depth-32.pack", rule(format!("{}leaf 1{}", "unary 1 (".repeat(31), ")".repeat(31))));
    save("depth-33.pack", rule(format!("{}leaf 1{}", "unary 1 (\n  ".repeat(32), ")".repeat(32))));
    save("depth-5000.pack", rule(format!("{}leaf 1{}", "unary 1 (".repeat(5000), ")".repeat(5000))));
    let stamped = format!(
        "pack\nrelation m#a (Person, Household)\nrelation m#b ()\n  from m#a\n  slots 0->1\n  where role 1\n\
         rule m#rule for Person\n  scalar add ({})\n",
        leaves(8158)
    );
    save("stamped-too-long.pack", stamped);
    save("empty.pack", String::new());
    save("blank.pack", " \n\n".into());
    fs::write(Path::new(TEMPORARY).join("huge.pack"), vec![b' '; (16 << 20) + 1]).unwrap();
    fs::write(Path::new(TEMPORARY).join("huge.bin"), vec![0; 40_000]).unwrap();
}

/// Runs a command line; `""` is an empty argument, `<` and a file behind it is standard input.
fn run(line: &str) -> String {
    let part = |part: &str| if part == "\"\"" { String::new() } else { part.replace("TMP", TEMPORARY) };
    let parts: Vec<String> = line.split_whitespace().map(part).collect();
    let (arguments, input) = match parts.iter().position(|part| part == "<") {
        Some(at) => (&parts[..at], Some(Path::new(ROOT).join(&parts[at + 1]))),
        None => (&parts[..], None),
    };
    let mut command = Command::new(env!("CARGO_BIN_EXE_cogunwa"));
    let input = input.map_or_else(Stdio::null, |file| fs::File::open(file).unwrap().into());
    let output = command.args(arguments).current_dir(ROOT).stdin(input).output().unwrap();
    let mut out = format!("$ cogunwa {line}\nexit {}\n", output.status.code().unwrap_or(-1));
    for (name, bytes) in [("output", &output.stdout), ("error", &output.stderr)] {
        if !bytes.is_empty() {
            _ = write!(out, "--- standard {name}\n{}", shown(bytes));
        }
    }
    out.replace(TEMPORARY, "TMP")
}

/// Texts as they are, other bytes as numbers.
fn shown(bytes: &[u8]) -> String {
    match String::from_utf8(bytes.to_vec()) {
        Ok(text) if !text.contains('\0') => text,
        _ => bytes.chunks(16).map(|row| row.iter().map(|b| format!("{b:02X} ")).collect::<String>() + "\n").collect(),
    }
}

fn golden() -> PathBuf {
    Path::new(ROOT).join("tests/golden")
}

/// The command lines, each with its name.
fn lines() -> Vec<(String, String)> {
    let list = fs::read_to_string(golden().join("commands")).unwrap();
    let lines = list.lines().filter(|line| !line.is_empty() && !line.starts_with('#'));
    lines
        .map(|line| line.split_once(':').map(|(name, line)| (name.trim().into(), line.trim().into())).unwrap())
        .collect()
}

#[test]
fn what_the_tool_writes() {
    generated();
    let writes = std::env::var_os("WRITE_GOLDEN").is_some();
    let mut differing = vec![];
    for (name, line) in lines() {
        let file = golden().join(format!("{name}.txt"));
        let found = run(&line);
        if writes {
            fs::write(&file, &found).unwrap();
        } else if fs::read_to_string(&file).unwrap_or_default() != found {
            differing.push(format!("== {name}\n{found}"));
        }
    }
    assert!(differing.is_empty(), "not what tests/golden has:\n{}", differing.join("\n"));
}

/// No file without a command line, every command and every refusal number in some file.
#[test]
fn nothing_is_left_out() {
    let lines = lines();
    let mut all = String::new();
    for entry in fs::read_dir(golden()).unwrap().map(|entry| entry.unwrap().path()).filter(|path| path.is_file()) {
        let stem = entry.file_stem().unwrap().to_string_lossy().into_owned();
        assert!(stem == "commands" || lines.iter().any(|(name, _)| *name == stem), "{stem} has no command line");
        all.push_str(&fs::read_to_string(entry).unwrap());
    }
    for command in cogunwa_tool::commands::COMMANDS {
        let starts = |text: &str| all.contains(&format!("$ cogunwa {}{text}", command.name));
        assert!(
            starts(" --help\n") && all.contains(&format!("$ cogunwa {} examples/", command.name)),
            "{}",
            command.name
        );
    }
    for number in 1..=17 {
        assert!(all.contains(&format!("refusal {number}\n")), "refusal {number} is in no file");
    }
    for pack in fs::read_dir(golden().join("packs")).unwrap().map(|entry| entry.unwrap().file_name()) {
        let pack = format!("packs/{}", pack.to_string_lossy());
        assert!(lines.iter().any(|(_, line)| line.contains(&pack)), "{pack} is not used");
    }
}

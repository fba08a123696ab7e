// Includes the original's files from the folder that ORACLE_SOURCES names, as they are, and compiles the floor.
use std::path::{Path, PathBuf};
use std::process::{Command, exit};
use std::{env, fs};

const FILES: [&str; 5] = ["relation_direction", "relation_typing", "spec", "model", "selected_year"];

const FLAGS: [&str; 5] = ["-std=c11", "-O3", "-Wall", "-Wextra", "-Werror"];

fn main() {
    original();
    floor();
}

fn original() {
    println!("cargo:rerun-if-env-changed=ORACLE_SOURCES");
    let folder =
        PathBuf::from(env::var_os("ORACLE_SOURCES").expect("ORACLE_SOURCES names the folder of the original's files"));
    let mut text = String::new();
    for name in FILES {
        let file = folder.join(name).with_extension("rs").canonicalize().expect("the original's files");
        println!("cargo:rerun-if-changed={}", file.display());
        text += &format!("#[allow(dead_code)]\n#[path = {:?}]\nmod {name};\n", file.display().to_string());
    }
    fs::write(PathBuf::from(env::var_os("OUT_DIR").unwrap()).join("original.rs"), text).unwrap();
}

/// The C program beside which the benchmark measures, by the compiler that CC names, or cc.
fn floor() {
    println!("cargo:rerun-if-env-changed=CC");
    let include = Path::new("../../include");
    println!("cargo:rerun-if-changed=floor.c");
    println!("cargo:rerun-if-changed={}", include.join("cogunwa.h").display());
    let compiler = env::var_os("CC").unwrap_or("cc".into());
    let object = PathBuf::from(env::var_os("OUT_DIR").unwrap()).join("floor.o");
    let mut command = Command::new(&compiler);
    command.args(FLAGS).arg("-I").arg(include).args(["-c", "floor.c", "-o"]).arg(&object);
    match command.status() {
        Ok(status) if status.success() => println!("cargo:rustc-link-arg-bins={}", object.display()),
        Ok(_) => stop("floor.c does not compile"),
        Err(error) => stop(&format!(
            "The comparison compiles floor.c, and there is no C compiler {}: {error}. CC names another.",
            compiler.to_string_lossy()
        )),
    }
}

fn stop(message: &str) {
    eprintln!("{message}");
    exit(1);
}

//! With the header and the library the example for C is built by C and C++ compilers, every warning an
//! error, and writes what is stored beside it.

use std::env;
use std::fs;
use std::path::{Path, PathBuf};
use std::process::{Command, Output};

fn repository() -> PathBuf {
    Path::new(env!("CARGO_MANIFEST_DIR")).join("..")
}

/// A compiler: the one that a variable names, or the usual one.
fn compiler(variable: &str, usual: &str) -> Command {
    Command::new(env::var_os(variable).unwrap_or_else(|| usual.into()))
}

/// Runs a command to its end, which must be a quiet one.
fn output(command: &mut Command) -> Output {
    let output = command.output();
    let output = output.unwrap_or_else(|error| panic!("{command:?}: {error}"));
    assert_eq!(String::from_utf8_lossy(&output.stderr), "", "{command:?}");
    assert!(output.status.success(), "{command:?}");
    output
}

/// Builds `examples/recovery.c` and runs it.
fn assert_told_as_stored(mut compiler: Command, standard: &str) {
    let examples = repository().join("examples");
    let program = Path::new(env!("CARGO_TARGET_TMPDIR")).join(format!("recovery_{standard}"));
    compiler.arg(format!("-std={standard}"));
    compiler.args(["-pedantic", "-Wall", "-Wextra", "-Werror"]);
    compiler.arg("-I").arg(repository().join("include"));
    compiler.arg(examples.join("recovery.c"));
    compiler.arg("-o").arg(&program);
    compiler.args(["-L", env!("GOULVIZAD_LIB_USED"), "-lgoulvizad"]);
    output(&mut compiler);
    let told = String::from_utf8(output(&mut Command::new(program)).stdout);
    let stored = fs::read_to_string(examples.join("recovery.out"));
    assert_eq!(told.expect("ASCII"), stored.expect("a stored output"));
}

#[test]
fn a_c_program_tells_a_recovery() {
    for standard in ["c99", "c11"] {
        assert_told_as_stored(compiler("CC", "cc"), standard);
    }
}

/// As C++ too, where the machine has a compiler for it.
#[test]
fn a_cpp_program_tells_a_recovery() {
    if compiler("CXX", "c++").arg("--version").output().is_err() {
        println!("not checked: there is no C++ compiler here");
        return;
    }
    let mut compiler = compiler("CXX", "c++");
    compiler.args(["-x", "c++"]);
    assert_told_as_stored(compiler, "c++11");
}

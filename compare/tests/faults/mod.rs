//! A program run under a plan of faults. `inject.c` injects them, and has the words of a plan.

use compare::house::program;
use std::collections::BTreeSet;
use std::env;
use std::fs::{self, File};
use std::path::{Path, PathBuf};
use std::process::{Child, Command, ExitStatus};
use std::sync::atomic::{AtomicUsize, Ordering};
use std::sync::OnceLock;
use std::thread;
use std::time::{Duration, Instant};

/// How long a program may take. Far more than it needs: only one that never ends is to be caught.
const PATIENCE: Duration = Duration::from_secs(30);
const POLL: Duration = Duration::from_millis(1);

/// Where the library and the runs have their files.
fn scratch() -> PathBuf {
    Path::new(env!("CARGO_TARGET_TMPDIR")).join("io_faults")
}

/// Builds the library that injects faults, once.
fn build_library() {
    static BUILT: OnceLock<()> = OnceLock::new();
    BUILT.get_or_init(|| {
        fs::create_dir_all(scratch()).expect("a directory for the library");
        let mut compiler = Command::new(env::var_os("CC").unwrap_or_else(|| "cc".into()));
        compiler.args(["-std=c99", "-pedantic", "-Wall", "-Wextra", "-Werror"]);
        compiler.args(["-shared", "-fPIC", "-o"]);
        compiler.arg(scratch().join("faults.so"));
        compiler.arg(Path::new(env!("CARGO_MANIFEST_DIR")).join("tests/faults/inject.c"));
        let built = compiler.output();
        let built = built.unwrap_or_else(|error| panic!("{compiler:?}: {error}"));
        let complaints = String::from_utf8_lossy(&built.stderr);
        assert!(built.status.success(), "{compiler:?}: {complaints}");
    });
}

/// A program about to run in a directory of its own, with the files `in`, `out` and `err`.
pub struct Run {
    pub command: Command,
    directory: PathBuf,
}

impl Run {
    pub fn new(mut command: Command, script: &[u8]) -> Self {
        static RUNS: AtomicUsize = AtomicUsize::new(0);
        let number = RUNS.fetch_add(1, Ordering::Relaxed);
        let directory = scratch().join(number.to_string());
        // It is there where an earlier test failed.
        let _ = fs::remove_dir_all(&directory);
        fs::create_dir_all(&directory).expect("a directory for a run");
        fs::write(directory.join("in"), script).expect("a file for the script");
        command.stdin(File::open(directory.join("in")).expect("the script"));
        command.stdout(File::create(directory.join("out")).expect("a file for the output"));
        command.stderr(File::create(directory.join("err")).expect("a file for complaints"));
        command.current_dir(&directory);
        Run { command, directory }
    }

    /// With the library of faults, by a name without spaces: `LD_PRELOAD` would part it there.
    pub fn with_faults(plan: &str, command: Command, script: &[u8]) -> Self {
        build_library();
        let mut run = Run::new(command, script);
        run.command.env("LD_PRELOAD", "../faults.so");
        run.command.env("FAULTS", plan).env("FAULTS_LOG", "log");
        run
    }

    /// Runs it to its end.
    pub fn end(mut self) -> Ended {
        let process = self.command.spawn();
        let mut process = process.unwrap_or_else(|error| panic!("{:?}: {error}", self.command));
        let status = status(&mut process).unwrap_or_else(|| panic!("{:?} goes on", self.command));
        let read = |name| fs::read(self.directory.join(name)).expect("what a program wrote");
        let log = fs::read_to_string(self.directory.join("log")).unwrap_or_default();
        let ended = Ended {
            status,
            output: read("out"),
            complaint: String::from_utf8_lossy(&read("err")).into_owned(),
            calls: log.lines().map(Call::new).collect(),
        };
        fs::remove_dir_all(&self.directory).expect("a directory that is there");
        ended
    }
}

/// Waits for a program, and kills one that doesn't end.
fn status(process: &mut Child) -> Option<ExitStatus> {
    let deadline = Instant::now() + PATIENCE;
    while Instant::now() < deadline {
        let status = process.try_wait().expect("a program of this one");
        if status.is_some() {
            return status;
        }
        thread::sleep(POLL);
    }
    // It fails only for one that has ended meanwhile.
    let _ = process.kill();
    None
}

/// A read or a write that a program made.
#[derive(Debug)]
pub struct Call {
    pub name: String,
    pub asked: usize,
    pub answer: Result<usize, String>,
    /// The word of the plan that was carried out in it.
    pub fault: Option<String>,
}

impl Call {
    /// By its line in the log.
    fn new(line: &str) -> Self {
        let parts: Vec<&str> = line.split(' ').collect();
        let [name, asked, answer, fault] = parts[..] else {
            panic!("a line of the log: {line}");
        };
        Call {
            name: name.to_owned(),
            asked: asked.parse().expect("a number of bytes"),
            answer: answer.parse().map_err(|_| answer.to_owned()),
            fault: Some(fault.to_owned()).filter(|fault| fault != "-"),
        }
    }
}

/// How a program ended.
#[derive(Debug)]
pub struct Ended {
    pub status: ExitStatus,
    pub output: Vec<u8>,
    pub complaint: String,
    /// None without the library of faults.
    pub calls: Vec<Call>,
}

impl Ended {
    pub fn writes(&self) -> impl Iterator<Item = &Call> {
        self.calls.iter().filter(|call| call.name.starts_with('w'))
    }

    /// Each word of the plan was carried out.
    pub fn assert_carried_out(&self, plan: &str) {
        assert!(!self.calls.is_empty(), "no library of faults: {self:?}");
        let done = self.calls.iter().filter_map(|call| call.fault.as_deref());
        let done: BTreeSet<&str> = done.collect();
        let planned = plan.split_whitespace().collect();
        assert_eq!(done, planned, "other faults than planned: {self:?}");
    }
}

/// Plays a script with the program under a plan, all of which must happen.
pub fn under(plan: &str, script: &[u8]) -> Ended {
    let ended = Run::with_faults(plan, program(), script).end();
    ended.assert_carried_out(plan);
    ended
}

/// The program, started by a shell with these words.
pub fn by_shell(words: &str) -> Command {
    let mut shell = Command::new("sh");
    shell.args(["-c", words]).arg(program().get_program());
    shell
}

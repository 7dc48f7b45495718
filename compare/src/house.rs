//! The program `house`, driven from outside, and never waited for without a limit.

use std::env;
use std::io::{self, ErrorKind, Read, Write};
use std::path::{Path, PathBuf};
use std::process::{Child, ChildStdin, Command as Program, ExitStatus, Stdio};
use std::sync::mpsc::{self, Receiver, RecvTimeoutError, Sender};
use std::thread;
use std::time::{Duration, Instant};

/// How long a program may take for its next output or for ending. Far more than it needs: only a
/// program that never will is to be caught.
const PATIENCE: Duration = Duration::from_secs(30);
const POLL: Duration = Duration::from_millis(2);

/// The proved program: at `GOULVIZAD_HOUSE`, or where the repository builds it.
pub fn program() -> Program {
    let path = env::var_os("GOULVIZAD_HOUSE").map(PathBuf::from);
    let package = Path::new(env!("CARGO_MANIFEST_DIR"));
    Program::new(package.join(path.unwrap_or_else(|| "../target/bin/house".into())))
}

/// Plays a whole script with a program, and returns all that it answers. The program must end with
/// its input, in success, and complain of nothing.
pub fn run(program: Program, script: &[u8]) -> io::Result<Vec<u8>> {
    let mut session = Session::start(program)?;
    session.write(script);
    session.close_input();
    let answers = session.rest()?;
    let end = session.end()?;
    if end.status.success() && end.complaints.is_empty() {
        Ok(answers)
    } else {
        Err(io::Error::other(format!("{end:?}")))
    }
}

/// A running program. It is killed if it is given up.
#[derive(Debug)]
pub struct Session {
    process: Child,
    input: Option<Sender<Vec<u8>>>,
    output: Option<Receiver<Vec<u8>>>,
    errors: Receiver<Vec<u8>>,
    /// What the program wrote and nobody asked for yet.
    unread: Vec<u8>,
}

/// How a program ended.
#[derive(Debug)]
pub struct End {
    /// Its exit status.
    pub status: ExitStatus,
    /// What it wrote to standard error.
    pub complaints: String,
}

impl Session {
    /// Starts a program. Threads write to it and read from it, so that a call here never hangs on one
    /// that doesn't read or doesn't write.
    pub fn start(mut program: Program) -> io::Result<Self> {
        program.stdin(Stdio::piped());
        program.stdout(Stdio::piped()).stderr(Stdio::piped());
        let spawned = program.spawn();
        let mut process =
            spawned.map_err(|error| io::Error::other(format!("{program:?}: {error}")))?;
        let (input, output) = (process.stdin.take(), process.stdout.take());
        let errors = process.stderr.take();
        Ok(Session {
            input: input.map(writer),
            output: output.map(reader),
            errors: errors.map(reader).ok_or(ErrorKind::BrokenPipe)?,
            unread: Vec::new(),
            process,
        })
    }

    /// Writes to the program's input in one piece, as far as it takes that.
    pub fn write(&self, bytes: &[u8]) {
        if let Some(input) = &self.input {
            // A program that has ended takes no more; whoever asks for its answers finds out.
            let _ = input.send(bytes.to_vec());
        }
    }

    /// Ends the program's input after all that was written.
    pub fn close_input(&mut self) {
        self.input = None;
    }

    /// Closes the reading end of the program's output, once something more has come out of it.
    pub fn close_output(&mut self) {
        self.output = None;
    }

    /// The next line of output with its line feed, or what is left of it where the output ends.
    pub fn line(&mut self) -> io::Result<Vec<u8>> {
        loop {
            let end = self.unread.iter().position(|&byte| byte == b'\n');
            if let Some(end) = end {
                return Ok(self.unread.drain(..=end).collect());
            }
            if !self.read_more()? {
                return Ok(std::mem::take(&mut self.unread));
            }
        }
    }

    /// All the output up to its end.
    pub fn rest(&mut self) -> io::Result<Vec<u8>> {
        while self.read_more()? {}
        Ok(std::mem::take(&mut self.unread))
    }

    /// Waits for more output; false at its end.
    fn read_more(&mut self) -> io::Result<bool> {
        let Some(output) = &self.output else {
            return Ok(false);
        };
        match output.recv_timeout(PATIENCE) {
            Ok(part) => {
                self.unread.extend(part);
                Ok(true)
            }
            Err(RecvTimeoutError::Disconnected) => Ok(false),
            Err(RecvTimeoutError::Timeout) => Err(ErrorKind::TimedOut.into()),
        }
    }

    /// Waits for the program to end by itself.
    pub fn end(&mut self) -> io::Result<End> {
        let deadline = Instant::now() + PATIENCE;
        while Instant::now() < deadline {
            if let Some(status) = self.process.try_wait()? {
                let complaints: Vec<u8> = self.errors.iter().flatten().collect();
                let complaints = String::from_utf8_lossy(&complaints).into_owned();
                return Ok(End { status, complaints });
            }
            thread::sleep(POLL);
        }
        Err(ErrorKind::TimedOut.into())
    }
}

impl Drop for Session {
    fn drop(&mut self) {
        // Both fail only for a program that has ended, which is what they are for.
        let _ = self.process.kill();
        let _ = self.process.wait();
    }
}

/// Writes what it is sent, until the pipe is closed at either end.
fn writer(mut pipe: ChildStdin) -> Sender<Vec<u8>> {
    let (sender, receiver) = mpsc::channel::<Vec<u8>>();
    thread::spawn(move || receiver.iter().try_for_each(|bytes| pipe.write_all(&bytes)));
    sender
}

/// Sends on what it reads, until the pipe ends or nobody listens.
fn reader(mut pipe: impl Read + Send + 'static) -> Receiver<Vec<u8>> {
    let (sender, receiver) = mpsc::channel();
    thread::spawn(move || {
        let mut part = vec![0; 1 << 16];
        while let Ok(length @ 1..) = pipe.read(&mut part) {
            if sender.send(part[..length].to_vec()).is_err() {
                break;
            }
        }
    });
    receiver
}

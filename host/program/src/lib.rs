//! The small program `screen` as a process, and the byte vectors that it must agree with.

use std::io::{Read, Write};
use std::path::{Path, PathBuf};
use std::process::{Child, ChildStdin, ChildStdout, Command, Stdio};
use std::{env, fs, thread};

/// Says which program to run, if not the one that `tools/library.sh` builds.
const PROGRAM: &str = "SCREEN_PROGRAM";

/// A running `screen`.
pub struct Screen {
    child: Child,
    input: ChildStdin,
    output: ChildStdout,
}

impl Screen {
    /// Starts the program.
    pub fn start() -> Screen {
        let program = program();
        let mut child =
            Command::new(&program).stdin(Stdio::piped()).stdout(Stdio::piped()).spawn().unwrap_or_else(
                |error| panic!("{}: {error}; run `tools/library.sh`, or set {PROGRAM}", program.display()),
            );
        let input = child.stdin.take().expect("its standard input is a pipe");
        let output = child.stdout.take().expect("its standard output is a pipe");
        Screen { child, input, output }
    }

    /// Writes bytes, one at a time.
    pub fn drip(&mut self, bytes: &[u8]) {
        for byte in bytes {
            self.input.write_all(&[*byte]).expect("it reads");
        }
    }

    /// Waits for the next `n` bytes that it writes.
    pub fn wait_for(&mut self, n: usize) -> Vec<u8> {
        let mut bytes = vec![0; n];
        self.output.read_exact(&mut bytes).expect("it writes");
        bytes
    }

    /// Ends its input; what it still writes.
    pub fn end(self) -> Vec<u8> {
        drop(self.input);
        rest(self.output, self.child)
    }

    /// Writes the whole input in pieces of these lengths, over and over, and ends it; all that the program writes.
    pub fn run(self, input: &[u8], pieces: &[usize]) -> Vec<u8> {
        let Screen { child, input: mut pipe, output } = self;
        thread::scope(|scope| {
            scope.spawn(move || {
                let mut left = input;
                for piece in pieces.iter().cycle() {
                    let (now, later) = left.split_at(left.len().min(*piece));
                    // A program that has stopped reads no more, and that is no fault.
                    if now.is_empty() || pipe.write_all(now).is_err() {
                        return;
                    }
                    left = later;
                }
            });
            rest(output, child)
        })
    }
}

fn rest(mut output: ChildStdout, mut child: Child) -> Vec<u8> {
    let mut bytes = Vec::new();
    output.read_to_end(&mut bytes).expect("it writes");
    assert!(child.wait().expect("it ends").success(), "the program failed");
    bytes
}

fn program() -> PathBuf {
    match env::var_os(PROGRAM) {
        Some(program) => PathBuf::from(program),
        None => Path::new(env!("CARGO_MANIFEST_DIR")).join("../../target/bin/screen"),
    }
}

/// An input stream, and the exact bytes that the program must write for it.
pub struct Vector {
    pub name: String,
    pub input: Vec<u8>,
    pub output: Vec<u8>,
}

/// The vectors of the program `practice`, whose format `tools/vectors.py` describes.
pub fn vectors() -> Vec<Vector> {
    let path = Path::new(env!("CARGO_MANIFEST_DIR")).join("../../crates/practice/data/vectors");
    let file = fs::read(&path).unwrap_or_else(|error| panic!("{}: {error}", path.display()));
    let mut left = &file[..];
    let mut vectors = Vec::new();
    loop {
        let length = part(&mut left, 1)[0];
        if length == 0 {
            return vectors;
        }
        let name = String::from_utf8(part(&mut left, length.into()).to_vec()).expect("a name is text");
        let input = counted(&mut left).to_vec();
        let output = counted(&mut left).to_vec();
        vectors.push(Vector { name, input, output });
    }
}

fn part<'a>(left: &mut &'a [u8], n: usize) -> &'a [u8] {
    let (part, later) = left.split_at(n);
    *left = later;
    part
}

fn counted<'a>(left: &mut &'a [u8]) -> &'a [u8] {
    let length = part(left, 4).try_into().expect("four bytes");
    part(left, u32::from_be_bytes(length) as usize)
}

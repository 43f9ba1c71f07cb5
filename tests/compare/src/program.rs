//! Runs the program `manifold` on an input.

use std::env;
use std::fs::File;
use std::io::{ErrorKind, Write};
use std::path::{Path, PathBuf};
use std::process::{Child, Command, Stdio};
use std::thread::sleep;
use std::time::Duration;

/// How the input comes to the program.
#[derive(Clone, Copy)]
pub enum Way {
    /// Through a pipe, at once.
    Pipe,
    /// Through a pipe, in pieces with pauses.
    Pieces,
    /// From a file.
    File,
}

impl Way {
    pub fn numbered(number: u64) -> Way {
        match number {
            0 => Way::Pipe,
            1 => Way::Pieces,
            _ => Way::File,
        }
    }
}

/// Where the program is: `BRIMCLIF_PROGRAM`, or `crates/manifold/out/manifold` of the repository.
pub fn path() -> PathBuf {
    let repository = Path::new(env!("CARGO_MANIFEST_DIR")).join("..").join("..");
    let built = repository.join("crates/manifold/out/manifold");
    env::var_os("BRIMCLIF_PROGRAM").map_or(built, PathBuf::from)
}

/// What the program prints for an input, or why it couldn't be run or ended badly.
pub fn run(input: &[u8], way: Way) -> Result<Vec<u8>, String> {
    let printed = match way {
        Way::File => run_on_file(input),
        Way::Pipe => run_on_pieces(input, input.len().max(1), Duration::ZERO),
        Way::Pieces => run_on_pieces(input, (input.len() / 4).max(1), Duration::from_millis(2)),
    };
    printed.map_err(|error| format!("{}: {error}", path().display()))
}

fn start(input: Stdio) -> std::io::Result<Child> {
    let mut command = Command::new(path());
    command.stdin(input).stdout(Stdio::piped()).spawn()
}

fn run_on_file(input: &[u8]) -> std::io::Result<Vec<u8>> {
    let name = env::temp_dir().join(format!("brimclif-{}.txt", std::process::id()));
    std::fs::write(&name, input)?;
    let child = start(Stdio::from(File::open(&name)?))?;
    let printed = finish(child);
    std::fs::remove_file(&name)?;
    printed
}

fn run_on_pieces(input: &[u8], piece: usize, pause: Duration) -> std::io::Result<Vec<u8>> {
    let mut child = start(Stdio::piped())?;
    let mut pipe = child.stdin.take().expect("the input is a pipe");
    for piece in input.chunks(piece) {
        match pipe.write_all(piece) {
            // the program need not read what is above its limit
            Err(error) if error.kind() == ErrorKind::BrokenPipe => break,
            written => written?,
        }
        sleep(pause);
    }
    drop(pipe);
    finish(child)
}

/// All that is printed, if the program ends well.
fn finish(child: Child) -> std::io::Result<Vec<u8>> {
    let output = child.wait_with_output()?;
    if !output.status.success() {
        return Err(std::io::Error::other(output.status.to_string()));
    }
    Ok(output.stdout)
}

//! A program that is compared, run once for each text on its standard input.
use std::io::{ErrorKind, Read, Write};
use std::path::PathBuf;
use std::process::{Child, ChildStdin, Command, Stdio};
use std::sync::mpsc::channel;
use std::thread;
use std::time::Duration;

/// A program that takes longer than this is ended, and the comparison with it.
const PATIENCE: Duration = Duration::from_secs(60);

pub struct Program {
    path: PathBuf,
}

/// How a text reaches the program.
#[derive(Clone, Debug)]
pub enum Pieces {
    /// In so many writes of one size.
    Equal(usize),
    /// In writes of these sizes in turn, with a pause after each of the first so many.
    Sizes { sizes: Vec<usize>, pauses: usize },
}

/// Long enough for the program to read what is there and wait for more.
const PAUSE: Duration = Duration::from_micros(300);

/// What a run of the program leaves.
#[derive(Clone)]
pub struct Printed {
    pub bytes: Vec<u8>,
    /// The exit status; none where a signal ended it.
    pub status: Option<i32>,
}

impl Printed {
    pub fn differs(&self, expected: &[u8]) -> bool {
        self.bytes != expected || self.status != Some(0)
    }
}

impl Program {
    /// The file that the variable of that name in capitals names, or else the program of the crate of that
    /// name, as rt makes it.
    pub fn find(name: &str) -> Result<Self, String> {
        let crates = PathBuf::from(env!("CARGO_MANIFEST_DIR")).join("../../crates");
        let path = match std::env::var_os(name.to_uppercase()) {
            Some(path) => PathBuf::from(path),
            None => crates.join(name).join("out").join(name),
        };
        let failed = |e| format!("the program {} is not there: {e}", path.display());
        let path = path.canonicalize().map_err(failed)?;
        Ok(Program { path })
    }

    /// What the program prints for a text that is written to its standard input in such pieces.
    pub fn print(&self, text: &[u8], pieces: &Pieces) -> Result<Printed, String> {
        let failed = |e| format!("the program {}: {e}", self.path.display());
        let mut child = self.start().map_err(failed)?;
        let input = child.stdin.take().expect("piped");
        let mut output = child.stdout.take().expect("piped");
        let (sender, receiver) = channel();
        let (text, pieces) = (text.to_vec(), pieces.clone());
        // neither side waits for the other, whatever the program does
        let writer = thread::spawn(move || write(input, &text, &pieces));
        thread::spawn(move || {
            let mut bytes = Vec::new();
            let read = output.read_to_end(&mut bytes);
            sender.send(read.map(|_| bytes)).ok();
        });
        let Ok(read) = receiver.recv_timeout(PATIENCE) else {
            child.kill().and_then(|()| child.wait()).map_err(failed)?;
            return Err(format!("the program does not end within {PATIENCE:?}"));
        };
        writer.join().expect("a writer ends").map_err(failed)?;
        let ended = child.wait().map_err(failed)?;
        Ok(Printed {
            bytes: read.map_err(failed)?,
            status: ended.code(),
        })
    }

    fn start(&self) -> std::io::Result<Child> {
        let mut command = Command::new(&self.path);
        command.stdin(Stdio::piped()).stdout(Stdio::piped());
        command.spawn()
    }
}

/// Writes the text in pieces, so that the program's reads may come back short. A program that ends
/// before it has read a text to its end closes the pipe, which is no fault.
fn write(mut input: ChildStdin, text: &[u8], pieces: &Pieces) -> std::io::Result<()> {
    let (sizes, pauses) = match pieces {
        Pieces::Equal(count) => (vec![text.len().div_ceil(*count)], 0),
        Pieces::Sizes { sizes, pauses } => (sizes.clone(), *pauses),
    };
    let mut rest = text;
    for (n, size) in sizes.iter().cycle().enumerate() {
        if rest.is_empty() {
            break;
        }
        let (piece, after) = rest.split_at((*size).clamp(1, rest.len()));
        rest = after;
        match input.write_all(piece) {
            Err(e) if e.kind() == ErrorKind::BrokenPipe => return Ok(()),
            written => written?,
        }
        match n < pauses {
            true => thread::sleep(PAUSE),
            false => thread::yield_now(),
        }
    }
    Ok(())
}

//! The programs that `rt ci` builds, or `rt run` in a program's own folder, run as programs.

use std::io::Write;
use std::process::{Child, Command, Stdio};
use std::thread;
use std::time::Duration;

/// What a program wrote to its standard output and to its standard error.
#[derive(Debug, PartialEq)]
pub struct Written {
    pub out: Vec<u8>,
    pub err: String,
}

/// Starts a program on this standard input, so that what it writes can be read.
pub fn start(name: &str, stdin: Stdio) -> Child {
    let folder = format!("crates/{name}");
    let program = format!("{}/../{folder}/out/{name}", env!("CARGO_MANIFEST_DIR"));
    Command::new(program)
        .stdin(stdin)
        .stdout(Stdio::piped())
        .stderr(Stdio::piped())
        .spawn()
        .unwrap_or_else(|e| panic!("{folder}/out/{name}: 'rt run' in {folder} builds it: {e}"))
}

/// What a program wrote, once it has ended.
pub fn end(child: Child) -> Written {
    let output = child.wait_with_output().unwrap();
    assert!(output.status.success());
    Written {
        out: output.stdout,
        err: String::from_utf8(output.stderr).unwrap(),
    }
}

/// Runs a program on an input.
pub fn run(name: &str, input: &[u8]) -> Written {
    run_on_pieces(name, &[input])
}

/// Runs a program on an input that comes piece by piece.
pub fn run_on_pieces(name: &str, pieces: &[&[u8]]) -> Written {
    let mut child = start(name, Stdio::piped());
    let mut stdin = child.stdin.take().unwrap();
    let pieces: Vec<Vec<u8>> = pieces.iter().map(|piece| piece.to_vec()).collect();
    let writer = thread::spawn(move || {
        for (i, piece) in pieces.iter().enumerate() {
            // so that the program asks for this piece alone
            if i > 0 {
                thread::sleep(Duration::from_millis(2));
            }
            // Of a longer input a program reads only the first bytes, and may end before the rest is written.
            if stdin.write_all(piece).is_err() {
                return;
            }
        }
    });
    let written = end(child);
    writer.join().unwrap();
    written
}

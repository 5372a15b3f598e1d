//! A program at two of the world's edges that a shell cannot make.
//!
//! `edge terminal PROGRAM` runs it on a terminal of its own, sends one whole line and waits for the
//! answer, sends a line without its end and hangs up. `edge nonblocking PROGRAM` sends it more lines
//! than a pipe holds answers, and reads nothing from a pipe that does not let it wait. Both print
//! what it wrote to standard output, then, each line after "error: ", what it wrote to standard
//! error.

use std::ffi::{c_char, c_int, CStr};
use std::fs::{File, OpenOptions};
use std::io::{self, BufRead, BufReader, Read, Write};
use std::os::fd::{AsRawFd, FromRawFd};
use std::process::{Child, Command, ExitCode, Stdio};
use std::thread::sleep;
use std::time::Duration;

/// An add, which is answered with 00.
const WHOLE: &[u8] = b"01112233440007006400000064000000c800\n";

/// A datagram of two PAUSE packets, cut after the first: by itself a good datagram.
const CUT: &[u8] = b"000000000089cd0004aabbccdd000000001122334400000007";

extern "C" {
    fn posix_openpt(flags: c_int) -> c_int;
    fn grantpt(terminal: c_int) -> c_int;
    fn unlockpt(terminal: c_int) -> c_int;
    fn ptsname(terminal: c_int) -> *const c_char;
    fn fcntl(file: c_int, command: c_int, flags: c_int) -> c_int;
}

/// O_RDWR, O_NOCTTY and O_CLOEXEC of Linux: only we hold our end.
const FLAGS: c_int = 0o2 | 0o400 | 0o2_000_000;

/// F_SETFL and O_NONBLOCK of Linux.
const SET_FLAGS: c_int = 4;
const NONBLOCKING: c_int = 0o4000;

/// As many lines as no pipe holds the answers to.
const MANY: usize = 200_000;

/// The two ends of a new terminal: ours, and the one that a program reads.
fn terminal() -> io::Result<(File, File)> {
    let name;
    let ours = unsafe {
        let ours = posix_openpt(FLAGS);
        if ours < 0 || grantpt(ours) != 0 || unlockpt(ours) != 0 {
            return Err(io::Error::last_os_error());
        }
        name = CStr::from_ptr(ptsname(ours)).to_string_lossy().into_owned();
        File::from_raw_fd(ours)
    };
    let theirs = OpenOptions::new().read(true).write(true).open(&name)?;
    // As they come: without an echo, and not held back until a line's end.
    let raw = Command::new("stty")
        .args(["raw", "-echo", "-F", &name])
        .status()?;
    if !raw.success() {
        return Err(io::Error::other("stty failed"));
    }
    Ok((ours, theirs))
}

fn on_terminal(program: &str) -> io::Result<()> {
    let (mut ours, theirs) = terminal()?;
    let mut child = Command::new(program)
        .stdin(theirs)
        .stdout(Stdio::piped())
        .stderr(Stdio::piped())
        .spawn()?;
    let mut output = BufReader::new(child.stdout.take().expect("piped"));
    let mut written = String::new();
    ours.write_all(WHOLE)?;
    output.read_line(&mut written)?;
    ours.write_all(CUT)?;
    // Until the program has read it and waits for more.
    sleep(Duration::from_millis(300));
    drop(ours);
    output.read_to_string(&mut written)?;
    finish(child, &written)
}

fn nonblocking(program: &str) -> io::Result<()> {
    let (mut reader, writer) = io::pipe()?;
    if unsafe { fcntl(writer.as_raw_fd(), SET_FLAGS, NONBLOCKING) } != 0 {
        return Err(io::Error::last_os_error());
    }
    let mut child = Command::new(program)
        .stdin(Stdio::piped())
        .stdout(writer)
        .stderr(Stdio::piped())
        .spawn()?;
    let mut input = child.stdin.take().expect("piped");
    // The program may end before it has read all of them.
    let _ = input.write_all(&b"0600000000\n".repeat(MANY));
    drop(input);
    child.wait()?;
    let mut written = String::new();
    reader.read_to_string(&mut written)?;
    finish(child, &written)
}

/// Prints what was written, and what the program told.
fn finish(mut child: Child, written: &str) -> io::Result<()> {
    let mut errors = String::new();
    child
        .stderr
        .take()
        .expect("piped")
        .read_to_string(&mut errors)?;
    child.wait()?;
    print!("{written}");
    if !written.is_empty() && !written.ends_with('\n') {
        println!();
    }
    for line in errors.lines() {
        println!("error: {line}");
    }
    Ok(())
}

fn main() -> ExitCode {
    let arguments: Vec<String> = std::env::args().skip(1).collect();
    let words: Vec<&str> = arguments.iter().map(String::as_str).collect();
    let done = match words.as_slice() {
        ["terminal", program] => on_terminal(program),
        ["nonblocking", program] => nonblocking(program),
        _ => Err(io::Error::other("usage: edge terminal|nonblocking PROGRAM")),
    };
    match done {
        Ok(()) => ExitCode::SUCCESS,
        Err(error) => {
            eprintln!("edge: {error}");
            ExitCode::FAILURE
        }
    }
}

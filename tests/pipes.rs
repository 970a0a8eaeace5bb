//! pipes ROUTE INPUT EXPECTED: tests that the program ROUTE answers as it reads. Each answer is read before the next
//! record is sent, through a pipe, byte by byte, and over descriptors that do not block. The last run has the stream in
//! the file INPUT, for which the program must write the text in the file EXPECTED.

use std::io::{Read, Write};
use std::os::fd::OwnedFd;
use std::os::unix::net::UnixStream;
use std::process::{Child, Command, Stdio};
use std::sync::mpsc::{channel, Receiver, RecvTimeoutError};
use std::thread;
use std::time::{Duration, Instant};

/// How long an answer may take.
const LONG: Duration = Duration::from_secs(20);
/// How long to wait before it counts that no text comes.
const SHORT: Duration = Duration::from_millis(100);

/// One open cell.
const MAP: &[u8] = &[0x4D, 0x50, 1, 1, 0];

/// Jobs on the floor of one open cell, and their lines.
const JOBS: [(&[u8], &str); 3] = [
    (&[0x4A, 0x42, 4, 0, 0, 3, 0], "job 1: cost 816 routes 2 points 3 kept 2\nat 0 3\n"),
    (&[0x4A, 0x42, 5, 0, 0, 3, 0], "job 2: refused 4\n"),
    (&[0x4A, 0x42, 8, 0, 0, 3, 0], "job 3: cost 577 routes 1 points 2 kept 2\nat 0 3\n"),
];

/// A run of the program, whose input is open.
struct Run {
    name: String,
    child: Child,
    input: Option<Box<dyn Write>>,
    output: Receiver<u8>,
}

/// The bytes of `from` as they come, read after a while.
fn bytes_of(mut from: impl Read + Send + 'static, late: Duration) -> Receiver<u8> {
    let (sender, output) = channel();
    thread::spawn(move || {
        thread::sleep(late);
        let mut piece = [0; 4096];
        while let Ok(count @ 1..) = from.read(&mut piece) {
            if piece[..count].iter().any(|&byte| sender.send(byte).is_err()) {
                return;
            }
        }
    });
    output
}

impl Run {
    /// A run over pipes.
    fn piped(name: &str, route: &str) -> Run {
        let mut child =
            Command::new(route).stdin(Stdio::piped()).stdout(Stdio::piped()).spawn().expect("the program starts");
        let input = child.stdin.take().expect("a pipe");
        let output = bytes_of(child.stdout.take().expect("a pipe"), Duration::ZERO);
        Run { name: name.to_string(), child, input: Some(Box::new(input)), output }
    }

    /// A run over an input and an output that do not block; the output is read after a while.
    fn without_blocking(name: &str, route: &str, late: Duration) -> Run {
        let pair = || {
            let (here, there) = UnixStream::pair().expect("a pair of sockets");
            there.set_nonblocking(true).expect("a socket that does not block");
            (here, OwnedFd::from(there))
        };
        let (input, stdin) = pair();
        let (output, stdout) = pair();
        let child = Command::new(route).stdin(stdin).stdout(stdout).spawn().expect("the program starts");
        Run { name: name.to_string(), child, input: Some(Box::new(input)), output: bytes_of(output, late) }
    }

    fn send(&mut self, bytes: &[u8]) {
        let input = self.input.as_mut().expect("an open input");
        input.write_all(bytes).and_then(|()| input.flush()).expect("the program reads");
    }

    /// The text that comes next is `text`.
    fn answers(&mut self, text: &str) {
        let mut got = Vec::new();
        while got.len() < text.len() {
            match self.output.recv_timeout(LONG) {
                Ok(byte) => got.push(byte),
                Err(_) => panic!("{}: {:?} where {text:?} is due", self.name, String::from_utf8_lossy(&got)),
            }
        }
        assert_eq!(String::from_utf8_lossy(&got), text, "{}", self.name);
    }

    /// No text comes.
    fn says_nothing(&mut self) {
        assert_eq!(self.output.recv_timeout(SHORT), Err(RecvTimeoutError::Timeout), "{}", self.name);
    }

    /// The program ends, and no text is left.
    fn ends(mut self) {
        let began = Instant::now();
        while self.child.try_wait().expect("the program runs").is_none() {
            if began.elapsed() > LONG {
                self.child.kill().expect("the program runs");
                panic!("{}: the program does not end", self.name);
            }
            thread::sleep(Duration::from_millis(5));
        }
        assert_eq!(self.output.recv_timeout(LONG), Err(RecvTimeoutError::Disconnected), "{}", self.name);
    }

    /// The input ends, and so does the program.
    fn closes(mut self) {
        self.input = None;
        self.ends();
    }
}

/// A record at a time: each answer comes before the next record is sent.
fn by_records(mut run: Run) {
    run.send(MAP);
    run.says_nothing();
    for (record, lines) in JOBS {
        run.send(record);
        run.answers(lines);
    }
    run.says_nothing();
    run.closes();
}

/// A byte at a time: a job is answered at its last byte.
fn by_bytes(mut run: Run) {
    for (record, lines) in [(MAP, "")].iter().chain(&JOBS) {
        for byte in record.chunks(1) {
            run.says_nothing();
            run.send(byte);
        }
        run.answers(lines);
    }
    run.closes();
}

/// The last byte of `bytes` makes a bad record at `place`: its line comes and the program ends while the input is open.
fn bad_at_once(mut run: Run, bytes: &[u8], lines: &str, place: usize) {
    let (last, before) = bytes.split_last().expect("a byte");
    run.send(before);
    run.answers(lines);
    run.says_nothing();
    run.send(&[*last]);
    run.answers(&format!("bad record at {place}\n"));
    run.ends();
}

/// The input ends within a record.
fn cut_short(mut run: Run, bytes: &[u8], lines: &str, place: usize) {
    run.send(bytes);
    run.answers(lines);
    run.says_nothing();
    run.input = None;
    run.answers(&format!("bad record at {place}\n"));
    run.ends();
}

fn main() {
    let arguments: Vec<String> = std::env::args().collect();
    let [_, route, input, expected] = &arguments[..] else { panic!("usage: pipes ROUTE INPUT EXPECTED") };
    let pipe = |name: &str| Run::piped(name, route);
    by_records(pipe("records"));
    by_records(Run::without_blocking("records without blocking", route, Duration::ZERO));
    by_bytes(pipe("bytes"));
    by_bytes(Run::without_blocking("bytes without blocking", route, Duration::ZERO));

    let (job, lines) = JOBS[0];
    let with_job = |more: &[u8]| [MAP, job, more].concat();
    bad_at_once(pipe("no map mark"), &[0x4A], "", 0);
    bad_at_once(pipe("half a map mark"), &[0x4D, 0x4D], "", 0);
    bad_at_once(pipe("no width"), &[0x4D, 0x50, 0], "", 0);
    bad_at_once(pipe("high map"), &[0x4D, 0x50, 31, 32], "", 0);
    bad_at_once(pipe("no cell"), &[0x4D, 0x50, 31, 31, 0, 1, 0, 2], "", 0);
    bad_at_once(pipe("no job mark"), &with_job(&[0x4D]), lines, 12);
    bad_at_once(pipe("half a job mark"), &with_job(&[0x4A, 0x4A]), lines, 12);
    cut_short(pipe("no input"), &[], "", 0);
    cut_short(pipe("a map cut short"), &[0x4D, 0x50, 2, 2, 0, 0, 1], "", 0);
    cut_short(pipe("a job cut short"), &with_job(&job[..6]), lines, 12);

    // 1,000 refused jobs, and the first byte of one more.
    let refused = [0x4A, 0x42, 5, 0, 0, 3, 0].repeat(1000);
    let lines: String = (1..=1000).map(|number| format!("job {number}: refused 4\n")).collect();
    bad_at_once(pipe("a job too many"), &[MAP, &refused, &[0x4A]].concat(), &lines, 7005);
    let mut run = pipe("all jobs");
    run.send(&[MAP, &refused].concat());
    run.answers(&lines);
    run.closes();

    // More text than the output holds before it is read.
    let mut run = Run::without_blocking("a late reader", route, Duration::from_secs(1));
    run.send(&std::fs::read(input).expect("the input"));
    run.input = None;
    run.answers(&std::fs::read_to_string(expected).expect("the text"));
    run.ends();
    println!("pipes: each answer comes before the next record is sent");
}

//! The comparison of trip printers: texts made at random go to a command's standard input, a run for each, and what it prints is
//! held against what is right.

use std::io::{Read, Write};
use std::process::{Child, ChildStdin, ChildStdout, Command, ExitStatus, Stdio};
use std::sync::mpsc::{channel, Receiver};
use std::thread;
use std::time::{Duration, Instant};

use crate::cases::texts;
use crate::printer;

/// From as many texts on, each outcome has to be there.
const ENOUGH: u64 = 400;

/// One run of the command may take as long.
const LONGEST: Duration = Duration::from_secs(10);

/// No trip prints as much.
const MOST_PRINTED: u64 = 1 << 24;

/// What a trip can come to, by what its output begins with; a trip that is walked is told by its end line.
const OUTCOMES: [&str; 8] =
    ["end arrived", "end cut off", "end spent", "refused 1", "refused 3", "refused 4", "refused 8", "bad input"];

/// Compares as many texts, and answers the exit status: 0 no difference, 1 a difference or an outcome that was never there, 2 the
/// command can't be started.
pub fn run(seed: u64, count: u64, program: &str, arguments: &[&str]) -> i32 {
    let mut counts = [0u64; OUTCOMES.len()];
    for number in 0..count {
        let text = texts::text(seed, number);
        let right = printer::trip(&text);
        counts[outcome(&right)] += 1;
        let child = match started(program, arguments) {
            Ok(child) => child,
            Err(why) => {
                eprintln!("trips: {}: can't be started: {}", program, why);
                return 2;
            }
        };
        let came = printed(child, text.clone(), LONGEST);
        if let Some(what) = difference(&right, &came) {
            println!("text {} of seed {}: {}", number + 1, seed, what);
            println!("the text:\n{}", lines(&text));
            println!("expected:\n{}", lines(right.as_bytes()));
            println!("came:\n{}", lines(&came.unwrap_or_default().bytes));
            return 1;
        }
    }
    println!("{}", table(&counts));
    if count >= ENOUGH && counts.contains(&0) {
        println!("compared {} texts with seed {}: some outcome was never there", count, seed);
        return 1;
    }
    println!("compared {} texts with seed {}: no difference", count, seed);
    0
}

/// What a run printed, and how it ended.
#[derive(Default)]
struct Printed {
    bytes: Vec<u8>,
    status: Option<ExitStatus>,
}

fn started(program: &str, arguments: &[&str]) -> std::io::Result<Child> {
    Command::new(program).args(arguments).stdin(Stdio::piped()).stdout(Stdio::piped()).spawn()
}

/// What the command prints for a text; none if it doesn't end in time.
fn printed(mut child: Child, text: Vec<u8>, longest: Duration) -> Option<Printed> {
    let until = Instant::now() + longest;
    if let Some(to) = child.stdin.take() {
        send(to, text);
    }
    let output = receive(child.stdout.take()?);
    let bytes = output.recv_timeout(longest).ok();
    let status = ended(&mut child, until);
    Some(Printed { bytes: bytes?, status: Some(status?) })
}

/// Hands over the text beside the reading, since either side may wait for the other. A command that stops reading early is
/// judged by what it prints.
fn send(mut to: ChildStdin, text: Vec<u8>) {
    thread::spawn(move || to.write_all(&text));
}

fn receive(from: ChildStdout) -> Receiver<Vec<u8>> {
    let (done, output) = channel();
    thread::spawn(move || {
        let mut bytes = Vec::new();
        let read = from.take(MOST_PRINTED).read_to_end(&mut bytes);
        read.map(|_| done.send(bytes))
    });
    output
}

/// How the command ended; none, and it is ended, if it isn't in time.
fn ended(child: &mut Child, until: Instant) -> Option<ExitStatus> {
    loop {
        match child.try_wait() {
            Ok(None) if Instant::now() < until => thread::sleep(Duration::from_micros(200)),
            Ok(Some(status)) => return Some(status),
            _ => {
                let _ = child.kill().and_then(|()| child.wait());
                return None;
            }
        }
    }
}

/// In a few words how what came isn't right.
fn difference(right: &str, came: &Option<Printed>) -> Option<String> {
    let came = match came {
        Some(came) => came,
        None => return Some("the command didn't end in time".to_string()),
    };
    match came.status {
        Some(status) if !status.success() => Some(format!("the command ended with {}", status)),
        _ if came.bytes != right.as_bytes() => Some("other output".to_string()),
        _ => None,
    }
}

/// The place of a right output's outcome in `OUTCOMES`.
fn outcome(right: &str) -> usize {
    let told = |begins: &&str| right.lines().any(|line| line.starts_with(*begins));
    OUTCOMES.iter().position(told).unwrap_or(OUTCOMES.len() - 1)
}

fn table(counts: &[u64]) -> String {
    let counted: Vec<String> = OUTCOMES.iter().zip(counts).map(|(name, count)| format!("{} {}", name, count)).collect();
    counted.join(", ")
}

/// Bytes as they would be written in a program, a line for each line.
fn lines(bytes: &[u8]) -> String {
    let shown = |line: &[u8]| format!("    {}", line.escape_ascii());
    bytes.split_inclusive(|&byte| byte == b'\n').map(shown).collect::<Vec<String>>().join("\n")
}

#[cfg(test)]
mod tests {
    use super::*;

    fn run_of(script: &str, text: Vec<u8>, longest: Duration) -> Option<Printed> {
        printed(started("sh", &["-c", script]).expect("sh starts"), text, longest)
    }

    #[test]
    fn what_a_command_prints_and_how_it_ends() {
        let text = vec![b'x'; 1_000_000];
        let came = run_of("cat", text.clone(), LONGEST);
        assert_eq!(difference(&"x".repeat(1_000_000), &came), None);
        assert_eq!(difference("x", &came), Some("other output".to_string()));
        assert_eq!(difference("a\n", &run_of("exec <&-; echo a", text.clone(), LONGEST)), None);
        let failed = run_of("echo a; exit 3", text, LONGEST);
        assert_eq!(difference("a\n", &failed), Some("the command ended with exit status: 3".to_string()));
    }

    #[test]
    fn a_command_that_does_not_end() {
        let short = Duration::from_millis(100);
        assert!(run_of("exec sleep 60", Vec::new(), short).is_none());
        assert!(run_of("exec >&-; exec sleep 60", Vec::new(), short).is_none());
    }

    #[test]
    fn text_faults_and_refusals_are_told_by_their_line() {
        let found = |output: &str| OUTCOMES[outcome(output)];
        assert_eq!(found("bad input\n"), "bad input");
        assert_eq!(found("refused 4\n"), "refused 4");
        assert_eq!(found("leg 1 opened 1 moves 1 cell 1\nend spent moves 1 legs 1 opened 1\nestimates 1\n"), "end spent");
    }
}

//! The driver as a child process, and the protocol between the two: driver.c is its other side.
//!
//! All numbers have the low byte first. When it starts the driver says `wexlund driver\n`. Then, for each case:
//!
//! - to the driver: the entry's place in `ENTRIES` (1 byte); edges (1 byte: bit i set, slice i ends where a guard page begins;
//!   clear, it starts where one ends); how many numbers (1) and each (8); how many slices (1) and for each whether it may be
//!   written (1), its length in bytes (4) and its bytes. Numbers and slices stand in the order of the C declaration, and the
//!   result array is the last slice.
//! - from the driver: how it went (1). 0, answered: then what the entry returned (1) and each slice whole, as it is after the
//!   call. 1, a guard page or a slice lent for reading was touched, or 2, bytes beside a slice changed: then which slice (1; 255:
//!   none) and where (1: 0 before it, 1 behind it, 2 within). 3, no answer in time. After 1 to 3 the driver ends.
//!
//! The driver ends when its input does.

use std::io::{BufReader, BufWriter, Read, Write};
use std::process::{Child, ChildStdin, ChildStdout, Command, Stdio};

use crate::entries::Call;

const GREETING: &[u8] = b"wexlund driver\n";

pub struct Driver {
    child: Child,
    to: Option<BufWriter<ChildStdin>>,
    from: BufReader<ChildStdout>,
}

/// What came back: the returned number, and every lent slice whole.
pub struct Reply {
    pub returned: u8,
    pub lent: Vec<Vec<u8>>,
}

impl Driver {
    /// Starts the driver and waits for its greeting.
    pub fn start(program: &str, arguments: &[&str]) -> Result<Driver, String> {
        let started = Command::new(program).args(arguments).stdin(Stdio::piped()).stdout(Stdio::piped()).spawn();
        let mut child = started.map_err(|error| format!("can't be started: {}", error))?;
        let to = child.stdin.take().map(BufWriter::new);
        let from = child.stdout.take().map(BufReader::new).ok_or("has no output")?;
        let mut driver = Driver { child, to, from };
        match driver.take(GREETING.len()) {
            Ok(said) if said == GREETING => Ok(driver),
            _ => Err("isn't a driver: its greeting didn't come".to_string()),
        }
    }

    /// Sends a call. That the driver can't take it any more is seen when its reply doesn't come.
    pub fn send(&mut self, call: &Call, edges: u8) {
        let mut bytes = vec![call.entry() as u8, edges];
        let numbers = call.numbers();
        bytes.push(numbers.len() as u8);
        for (_, number) in numbers {
            bytes.extend(number.to_le_bytes());
        }
        let slices = call.lent();
        bytes.push(slices.len() as u8);
        for slice in slices {
            bytes.push(u8::from(slice.writable));
            bytes.extend((slice.bytes.len() as u32).to_le_bytes());
            bytes.extend(slice.bytes);
        }
        if let Some(to) = &mut self.to {
            let _ = to.write_all(&bytes).and_then(|()| to.flush());
        }
    }

    /// The reply to a call, or what went wrong instead.
    pub fn reply(&mut self, call: &Call) -> Result<Reply, String> {
        let slices = call.lent();
        match self.byte()? {
            0 => {
                let returned = self.byte()?;
                let lent = slices.iter().map(|slice| self.take(slice.bytes.len())).collect::<Result<_, _>>()?;
                Ok(Reply { returned, lent })
            }
            how @ (1 | 2) => {
                let (which, place) = (self.byte()?, self.byte()?);
                let slice = slices.get(usize::from(which)).map(|slice| slice.name);
                Err(touched(how, slice, place))
            }
            3 => Err("no answer in time".to_string()),
            other => Err(format!("an unknown reply, {}", other)),
        }
    }

    /// Ends the driver's input, and expects it to end in order.
    pub fn end(mut self) -> Result<(), String> {
        self.to = None;
        match self.child.wait() {
            Ok(status) if status.success() => Ok(()),
            Ok(status) => Err(format!("the driver ended with {}", status)),
            Err(error) => Err(format!("the driver didn't end: {}", error)),
        }
    }

    fn byte(&mut self) -> Result<u8, String> {
        Ok(self.take(1)?[0])
    }

    fn take(&mut self, length: usize) -> Result<Vec<u8>, String> {
        let mut bytes = vec![0; length];
        match self.from.read_exact(&mut bytes) {
            Ok(()) => Ok(bytes),
            Err(_) => Err("the driver died".to_string()),
        }
    }
}

/// What a reply of 1 or 2 means.
fn touched(how: u8, slice: Option<&str>, place: u8) -> String {
    let name = match slice {
        Some(name) => name,
        None => return "memory was touched that isn't near any slice".to_string(),
    };
    match (how, place) {
        (1, 0) => format!("the guard before {} was touched", name),
        (1, 1) => format!("the guard behind {} was touched", name),
        (1, _) => format!("{}, lent for reading, was written", name),
        (_, 0) => format!("bytes before {} changed", name),
        _ => format!("bytes behind {} changed", name),
    }
}

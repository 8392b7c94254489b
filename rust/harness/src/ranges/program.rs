//! The program `test_line_num` behind the interface: insert and query over range structs, which no C call has (SPEC 8.1).

use super::cases::{self, Call};
use super::List;
use crate::expected::Answer;
use crate::interface::{Ranges, WORDS};
use std::cell::RefCell;
use std::io::{self, BufRead, BufReader, Write};
use std::path::Path;
use std::process::{ChildStdin, ChildStdout, Command, Stdio};

/// It runs as long as its input is open, so that a call costs no start.
pub struct Program {
    input: RefCell<ChildStdin>,
    output: RefCell<BufReader<ChildStdout>>,
}

impl Program {
    /// `rt run` in crates/test_line_num writes it.
    pub fn start() -> io::Result<Self> {
        let path = Path::new(env!("CARGO_MANIFEST_DIR"))
            .join("../../crates/test_line_num/out/test_line_num");
        let mut command = Command::new(path);
        let mut child = command
            .stdin(Stdio::piped())
            .stdout(Stdio::piped())
            .spawn()?;
        let (input, output) = (child.stdin.take(), child.stdout.take());
        Ok(Program {
            input: RefCell::new(input.expect("it is piped")),
            output: RefCell::new(BufReader::new(output.expect("it is piped"))),
        })
    }

    fn ask(&self, call: Call, list: &List, start: u32, end: u32) -> (Answer, Vec<[u32; 2]>) {
        let case = cases::encoded(call, list, start, end);
        let mut line = String::new();
        let mut input = self.input.borrow_mut();
        let asked = input.write_all(&case).and_then(|()| input.flush());
        asked.expect("the program reads");
        let mut output = self.output.borrow_mut();
        output.read_line(&mut line).expect("the program answers");
        cases::decoded(&line).unwrap_or_else(|| panic!("test_line_num answers {line:?}"))
    }
}

fn tell(answer: &Answer, words: &mut [u64]) -> u32 {
    words[..WORDS].copy_from_slice(&answer.words);
    answer.number
}

impl Ranges for Program {
    fn insert_range(&self, list: &mut List, start: u32, end: u32, words: &mut [u64]) -> u32 {
        let (answer, pairs) = self.ask(Call::Insert, list, start, end);
        if answer.number == 0 {
            list.pairs = pairs;
        }
        tell(&answer, words)
    }

    fn query_range(&self, list: &List, start: u32, end: u32, words: &mut [u64]) -> u32 {
        tell(&self.ask(Call::Query, list, start, end).0, words)
    }
}

//! Gives lines to a program and compares its replies with those of the Rust crate.

use std::collections::BTreeMap;
use std::io::{self, Read, Write};
use std::process::{Child, Command, Stdio};
use std::thread;

const CHUNK: u64 = 100_000;

// The most disagreements that are printed.
const PRINTED: u64 = 1000;

/// A program that answers lines, and what the Rust crate says of its replies.
pub trait Subject: Sync {
    /// A line without its end, and what is known of it.
    type Line: AsRef<[u8]> + Sync;

    /// The commands, which are counted by name.
    const COMMANDS: &'static [&'static str];

    /// The line of a run that has this number.
    fn line(&self, seed: u64, number: u64) -> Self::Line;

    /// What is found of the reply to a line.
    fn judge(&self, line: &Self::Line, reply: &[u8]) -> Finding;
}

/// What is found of a reply.
#[derive(Default)]
pub struct Finding {
    /// The means by which it was checked beside the comparison with the Rust crate.
    pub means: Vec<&'static str>,
    /// What explains that the Rust crate's reply is another one.
    pub explained: Option<&'static str>,
    /// What is wrong with it.
    pub fault: Option<String>,
}

/// What a run is made of.
pub struct Run {
    pub program: String,
    pub seed: u64,
    pub lines: u64,
}

/// What a run has met.
#[derive(Default)]
pub struct Met {
    commands: BTreeMap<String, u64>,
    replies: BTreeMap<String, u64>,
    refusals: BTreeMap<u32, u64>,
    means: BTreeMap<&'static str, u64>,
    explained: BTreeMap<&'static str, u64>,
    lines: u64,
    /// Replies with a fault, and runs of the program that failed.
    pub disagreements: u64,
}

impl Run {
    /// Goes through all lines, as many at a time as fit in memory.
    pub fn of<S: Subject>(&self, subject: &S) -> io::Result<Met> {
        let mut met = Met::default();
        while met.lines < self.lines {
            let count = CHUNK.min(self.lines - met.lines);
            self.chunk(subject, met.lines, count, &mut met)?;
            met.lines += count;
            if met.lines % 1_000_000 == 0 {
                eprintln!("{} lines, {} disagreements", met.lines, met.disagreements);
            }
        }
        Ok(met)
    }

    fn chunk<S: Subject>(
        &self,
        subject: &S,
        first: u64,
        count: u64,
        met: &mut Met,
    ) -> io::Result<()> {
        let lines: Vec<S::Line> = (first..first + count)
            .map(|number| subject.line(self.seed, number))
            .collect();
        let bytes: Vec<&[u8]> = lines.iter().map(AsRef::as_ref).collect();
        let mut input = bytes.join(&b'\n');
        // Every other input ends without the end of a line, unless its last line is empty.
        if first / CHUNK % 2 == 0 || bytes.last().is_some_and(|line| line.is_empty()) {
            input.push(b'\n');
        }
        let mut child = Command::new(&self.program)
            .stdin(Stdio::piped())
            .stdout(Stdio::piped())
            .spawn()?;
        let output = talk(&mut child, &input)?;
        if !child.wait()?.success() {
            met.disagree(format_args!("the program failed on the lines from {first}"));
        }
        met.compare(subject, first, &lines, &output);
        Ok(())
    }
}

// Writes the input of a program while its output is read.
fn talk(child: &mut Child, input: &[u8]) -> io::Result<Vec<u8>> {
    let (mut to, mut from) = (child.stdin.take(), child.stdout.take());
    let mut output = vec![];
    thread::scope(|scope| {
        let written = scope.spawn(move || match to.as_mut() {
            Some(to) => to.write_all(input),
            None => Ok(()),
        });
        if let Some(from) = from.as_mut() {
            from.read_to_end(&mut output)?;
        }
        written.join().expect("the thread that writes")
    })?;
    Ok(output)
}

// What is found of each reply, in as many threads as the machine has for this program.
fn findings<S: Subject>(subject: &S, lines: &[S::Line], replies: &[&[u8]]) -> Vec<Finding> {
    let threads = thread::available_parallelism().map_or(1, usize::from);
    let size = lines.len().div_ceil(threads).max(1);
    let judge = |lines: &[S::Line], replies: &[&[u8]]| -> Vec<Finding> {
        let pairs = lines.iter().zip(replies);
        pairs
            .map(|(line, reply)| subject.judge(line, reply))
            .collect()
    };
    thread::scope(|scope| {
        let parts = lines.chunks(size).zip(replies.chunks(size));
        let parts: Vec<_> = parts
            .map(|(lines, replies)| scope.spawn(move || judge(lines, replies)))
            .collect();
        parts
            .into_iter()
            .flat_map(|part| part.join().expect("a thread that judges replies"))
            .collect()
    })
}

impl Met {
    fn disagree(&mut self, what: std::fmt::Arguments) {
        self.disagreements += 1;
        if self.disagreements <= PRINTED {
            println!("disagreement: {what}");
        }
    }

    fn compare<S: Subject>(&mut self, subject: &S, first: u64, lines: &[S::Line], output: &[u8]) {
        let Some(output) = output.strip_suffix(b"\n") else {
            self.disagree(format_args!(
                "the last reply to the lines from {first} has no end"
            ));
            return;
        };
        let replies: Vec<&[u8]> = output.split(|b| *b == b'\n').collect();
        if replies.len() != lines.len() {
            let (replies, lines) = (replies.len(), lines.len());
            self.disagree(format_args!(
                "{replies} replies to {lines} lines from {first}"
            ));
        }
        let findings = findings(subject, lines, &replies);
        for (at, ((line, reply), finding)) in lines.iter().zip(replies).zip(findings).enumerate() {
            self.count(S::COMMANDS, line.as_ref(), reply);
            for means in finding.means {
                *self.means.entry(means).or_default() += 1;
            }
            if let Some(place) = finding.explained {
                *self.explained.entry(place).or_default() += 1;
            }
            if let Some(fault) = finding.fault {
                let (number, line) = (first + at as u64, line.as_ref().escape_ascii());
                let reply = reply.escape_ascii();
                self.disagree(format_args!(
                    "line {number} \"{line}\": \"{reply}\", {fault}"
                ));
            }
        }
    }

    fn count(&mut self, commands: &[&str], line: &[u8], reply: &[u8]) {
        let word = |of: &[u8]| {
            let word = of.split(|b| *b == b' ').next().unwrap_or_default();
            String::from_utf8_lossy(word).into_owned()
        };
        let mut command = word(line);
        if !commands.contains(&command.as_str()) {
            command = "others".to_string();
        }
        *self.commands.entry(command).or_default() += 1;
        let number = std::str::from_utf8(reply)
            .ok()
            .and_then(|reply| reply.strip_prefix("err "))
            .and_then(|number| number.parse().ok());
        match number {
            Some(number) => *self.refusals.entry(number).or_default() += 1,
            None => *self.replies.entry(word(reply)).or_default() += 1,
        }
    }

    /// Prints what was met.
    pub fn print(&self) {
        println!("{} lines: {}", self.lines, listed(&self.commands));
        println!("replies: {}", listed(&self.replies));
        println!("refusals: {}", listed(&self.refusals));
        for (means, count) in &self.means {
            println!("checked, {means}: {count}");
        }
        println!(
            "different as docs/rust/DIFFERENCES.md says: {}",
            listed(&self.explained)
        );
        println!("disagreements: {}", self.disagreements);
    }
}

fn listed<T: std::fmt::Display>(counts: &BTreeMap<T, u64>) -> String {
    let each: Vec<String> = counts
        .iter()
        .map(|(what, count)| format!("{what} {count}"))
        .collect();
    match each.is_empty() {
        true => "none".to_string(),
        false => each.join(", "),
    }
}

//! A program of ours: what it prints for a text on standard input, to the octet.

use super::comparison::Comparison;
use second::answer::Outcome;
use std::io::{ErrorKind, Write};
use std::path::PathBuf;
use std::process::{ChildStdin, Command, Output, Stdio};
use std::time::{Duration, Instant};

pub struct Program {
    name: &'static str,
    path: PathBuf,
}

impl Program {
    /// Named by the variable, or else where the repository builds it; a failure if it is at
    /// neither.
    pub fn found(
        comparison: &mut Comparison,
        name: &'static str,
        variable: &str,
        built: &str,
    ) -> Option<Program> {
        let path = std::env::var_os(variable).map_or(PathBuf::from(built), PathBuf::from);
        if !path.exists() {
            comparison.fail(&format!("{name} is not at {}", path.display()));
            return None;
        }
        Some(Program { name, path })
    }

    /// Runs it twice and answers how long the longer run took. The outcome is what the print
    /// ought to tell of.
    pub fn compare(
        &self,
        comparison: &mut Comparison,
        case: &str,
        text: &[u8],
        outcome: &Outcome,
        print: &str,
    ) -> Duration {
        comparison.cases += 1;
        comparison.tally.count_program(self.name, outcome);
        // In one piece, and in pieces so that one read doesn't see it all.
        let pieces = [text.len().max(1), text.len() / 3 + 1];
        let took = pieces.map(|piece| self.run(comparison, case, text, piece, print));
        took[0].max(took[1])
    }

    fn run(
        &self,
        comparison: &mut Comparison,
        case: &str,
        text: &[u8],
        piece: usize,
        print: &str,
    ) -> Duration {
        let started = Instant::now();
        let output = output_of(&self.path, text, piece);
        let took = started.elapsed();
        match output {
            Ok(output) => self.judge(comparison, case, text, &output, print),
            Err(error) => comparison.fail(&format!("{case}: {} does not run: {error}", self.name)),
        }
        took
    }

    /// Our programs end with status 0 whatever they print; another, or a signal, is a crash.
    fn judge(&self, comparison: &mut Comparison, case: &str, text: &[u8], output: &Output, print: &str) {
        let printed = String::from_utf8_lossy(&output.stdout);
        if printed != print || !output.stderr.is_empty() || !output.status.success() {
            let fault = format!("prints {printed:?}, expected {print:?}; {}", output.status);
            comparison.differs(case, self.name, &[text], &fault);
        }
    }
}

/// Document 01: programs print a refused list so.
pub fn refused_line(number: u16, place: u32) -> String {
    format!("refused {number} {place}\n")
}

fn output_of(program: &PathBuf, text: &[u8], piece: usize) -> std::io::Result<Output> {
    let mut command = Command::new(program);
    let mut child = command.stdin(Stdio::piped()).stdout(Stdio::piped()).stderr(Stdio::piped()).spawn()?;
    let input = child.stdin.take().expect("standard input was asked for");
    // Beside the reading, so that a program that prints before it has read all can't stop both.
    std::thread::scope(|scope| {
        let feeding = scope.spawn(|| feed(input, text, piece));
        let output = child.wait_with_output();
        feeding.join().expect("feeding doesn't panic")?;
        output
    })
}

fn feed(mut input: ChildStdin, text: &[u8], piece: usize) -> std::io::Result<()> {
    for part in text.chunks(piece) {
        match input.write_all(part) {
            // It may stop reading once it has seen 65,536 octets.
            Err(error) if error.kind() == ErrorKind::BrokenPipe => break,
            other => other?,
        }
        if part.len() < text.len() {
            std::thread::sleep(Duration::from_millis(2));
        }
    }
    Ok(())
}

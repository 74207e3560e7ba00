//! Counts calls by name and answer, and prints every difference with its input.
use crate::due::Answer;
use crate::stream::Stream;

pub const CALLS: [&str; 4] = ["check_tree", "chunks", "format", "join_chunks"];

/// One call, what was due, and what came.
pub struct Trial<'a> {
    pub call: usize,
    pub options: &'a [u8],
    pub input: &'a [u8],
    /// The lengths of the work room and of the text buffer, 0 where the call takes none.
    pub lengths: [usize; 2],
    pub due: Answer,
    /// The text or the chunks that are due; none after a refusal.
    pub text: &'a [u8],
    pub got: Answer,
    /// Whether all buffers and guards are as they have to be.
    pub buffers: bool,
}

#[derive(Default)]
pub struct Tally {
    counts: [[u64; 10]; 4],
    pub differences: u64,
    /// Where the calls are written to, if anywhere.
    pub stream: Option<Stream>,
}

fn hex(bytes: &[u8]) -> String {
    bytes.iter().map(|byte| format!("{byte:02x}")).collect()
}

impl Tally {
    pub fn hold(&mut self, trial: Trial) {
        self.counts[trial.call][trial.due.0 as usize] += 1;
        if let Some(stream) = &mut self.stream {
            stream.write(&trial);
        }
        if trial.due == trial.got && trial.buffers {
            return;
        }
        self.differences += 1;
        println!(
            "DIFFERENCE {} due {:?} got {:?} buffers right: {}, of lengths {:?}\n  options {}\n  input {}",
            CALLS[trial.call],
            trial.due,
            trial.got,
            trial.buffers,
            trial.lengths,
            hex(trial.options),
            hex(trial.input)
        );
    }

    pub fn print(&self) {
        println!("| call | calls | 0 | 1 | 2 | 3 | 4 | 5 | 6 | 7 | 8 | 9 |");
        println!("|---|---|---|---|---|---|---|---|---|---|---|---|");
        for (name, counts) in CALLS.iter().zip(&self.counts) {
            let cells: Vec<String> = counts.iter().map(u64::to_string).collect();
            let calls: u64 = counts.iter().sum();
            println!("| `{name}` | {calls} | {} |", cells.join(" | "));
        }
        let calls: u64 = self.counts.iter().flatten().sum();
        println!("{calls} calls, {} differences", self.differences);
        if let Some(stream) = &self.stream {
            println!("{} of them written for replay", stream.calls);
        }
    }
}

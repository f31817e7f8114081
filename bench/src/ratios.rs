//! The library and the anchors measured in turn.

use crate::calls::{Buffers, Call, CALLS};
use crate::codec::{Codec, ANCHORS, LIBRARY};
use crate::corpora::Corpus;
use crate::timing::Timer;
use std::hint::black_box;

/// How often each is timed.
const ROUNDS: usize = 60;

/// The library, then the anchors.
pub const CODECS: [Codec; 1 + ANCHORS.len()] = [LIBRARY, ANCHORS[0], ANCHORS[1]];

/// All that one run measured: a row for each corpus.
pub type Run = Vec<Row>;

/// What was measured on a corpus, for each of [`CALLS`].
pub struct Row {
    pub corpus: String,
    pub calls: Vec<Measured>,
}

/// Nanoseconds for a message, of each of [`CODECS`].
pub struct Measured {
    pub times: [f64; CODECS.len()],
}

impl Measured {
    pub fn library(&self) -> f64 {
        self.times[0]
    }

    /// The library's time to that of an anchor.
    pub fn ratio(&self, anchor: usize) -> f64 {
        self.library() / self.times[1 + anchor]
    }
}

/// Measures each call on each corpus. In every round the library and the anchors take turns.
pub fn run(corpora: &[Corpus]) -> Run {
    let buffers = &mut Buffers::untouched();
    let mut jobs: Vec<Job> = corpora
        .iter()
        .flat_map(|corpus| Job::all(corpus, buffers))
        .collect();
    for round in 0..ROUNDS {
        for job in &mut jobs {
            job.round(round, buffers);
        }
    }
    let row = |jobs: &[Job]| Row {
        corpus: jobs[0].corpus.name.to_string(),
        calls: jobs.iter().map(Job::measured).collect(),
    };
    jobs.chunks(CALLS.len()).map(row).collect()
}

/// A call on the messages of a corpus.
struct Job<'a> {
    corpus: &'a Corpus,
    call: Call,
    timers: [Timer; CODECS.len()],
}

impl<'a> Job<'a> {
    fn all(corpus: &'a Corpus, buffers: &mut Buffers) -> [Job<'a>; CALLS.len()] {
        CALLS.map(|(call, _)| Job {
            corpus,
            call,
            timers: CODECS.map(|codec| Timer::new(&mut || pass(&codec, call, corpus, buffers))),
        })
    }

    /// Times each codec once; another begins in every round.
    fn round(&mut self, round: usize, buffers: &mut Buffers) {
        for turn in 0..CODECS.len() {
            let next = (round + turn) % CODECS.len();
            let pass = &mut || pass(&CODECS[next], self.call, self.corpus, buffers);
            self.timers[next].round(pass);
        }
    }

    fn measured(&self) -> Measured {
        let messages = self.corpus.messages.len() as f64;
        let times = self.timers.each_ref().map(Timer::nanoseconds);
        Measured {
            times: times.map(|time| time / messages),
        }
    }
}

/// Makes a call on each message of a corpus.
fn pass(codec: &Codec, call: Call, corpus: &Corpus, buffers: &mut Buffers) {
    for message in &corpus.messages {
        black_box(
            call.make(black_box(codec), black_box(message), buffers)
                .count,
        );
    }
}

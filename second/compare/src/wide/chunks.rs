//! The cases of a run in chunks. Threads take them, one after the other. Each chunk has
//! numbers of its own from the seed, and what they found is added up in their order,
//! so that the same is found by any number of threads.

use std::collections::BTreeMap;
use std::io::Write;
use std::num::NonZero;
use std::sync::{Mutex, MutexGuard};
use std::thread;
use std::time::{Duration, Instant};

use super::hold::{Difference, Library};
use super::tally::Tally;
use super::{inputs, Run};
use crate::random::Random;

/// How many cases a chunk has.
pub const CHUNK: usize = 1_000;

/// How often a long run says how far it is.
const PROGRESS: Duration = Duration::from_secs(5);

/// How many differences are kept with their text; all are counted.
const KEPT: usize = 500;

/// How far a run goes.
#[derive(Clone, Copy, Debug, PartialEq, Eq)]
pub enum Until {
    /// So many cases are drawn.
    Drawn(usize),
    /// So many calls are held: whole chunks, and at least the cases that are given.
    Calls(u64),
}

/// What a run is made of.
pub struct Plan<'a> {
    pub seed: u64,
    /// The messages that are always tried.
    pub given: &'a [Vec<u8>],
    /// Those that are changed for drawn cases.
    pub captured: &'a [Vec<u8>],
    pub until: Until,
    /// How many cases a chunk has; the last of those that are given, and of those that
    /// are drawn, may have fewer.
    pub chunk: usize,
    pub threads: NonZero<usize>,
}

/// What some cases found.
#[derive(Clone, Debug, Default)]
pub struct Found {
    pub cases: usize,
    pub failed: usize,
    pub tally: Tally,
    /// The shortest, each by how many bytes its call was given, its chunk and its place
    /// there.
    texts: BTreeMap<(usize, usize, usize), String>,
    pub different: usize,
}

impl Found {
    /// The differences that were kept, the shortest first.
    pub fn differences(&self) -> impl Iterator<Item = (usize, &str)> {
        let texts = self.texts.iter();
        texts.map(|(&(size, ..), text)| (size, text.as_str()))
    }

    fn add(&mut self, other: Self) {
        self.cases += other.cases;
        self.failed += other.failed;
        self.tally.add_all(&other.tally);
        self.different += other.different;
        self.texts.extend(other.texts);
        while self.texts.len() > KEPT {
            self.texts.pop_last();
        }
    }
}

impl Plan<'_> {
    /// Runs it. How far it is goes to `progress`.
    pub fn run(&self, library: impl Library + Sync, progress: &mut (impl Write + Send)) -> Found {
        let library = &library;
        self.with(progress, |shared| {
            thread::scope(|scope| {
                for _ in 0..self.threads.get() {
                    scope.spawn(|| self.work(library, shared));
                }
            });
        })
    }

    /// The same by this thread alone, for a library that others can't call.
    #[cfg(test)]
    pub fn run_alone(&self, library: impl Library, progress: &mut impl Write) -> Found {
        self.with(progress, |shared| self.work(&library, shared))
    }

    /// What is found by `work`.
    fn with<W: Write>(&self, progress: &mut W, work: impl Fn(&Mutex<Shared<'_, W>>)) -> Found {
        let shared = Mutex::new(Shared {
            taken: 0,
            added: 0,
            waiting: BTreeMap::new(),
            found: Found::default(),
            start: Instant::now(),
            said: Instant::now(),
            progress,
        });
        work(&shared);
        let mut shared = shared.into_inner().expect("no thread broke off");
        let Found { cases, tally, .. } = &shared.found;
        let all = format!("{cases} cases, {} calls held", tally.calls());
        let threads = match self.threads.get() {
            1 => "one thread".to_owned(),
            threads => format!("{threads} threads"),
        };
        shared.say(&format!("{all} by {threads}"));
        shared.found
    }

    /// How far a run is.
    fn far(&self, Found { cases, tally, .. }: &Found) -> String {
        let held = tally.calls();
        match self.until {
            Until::Drawn(drawn) => {
                let all = self.given.len() + drawn;
                format!("{cases} of {all} cases, {held} calls held")
            }
            Until::Calls(calls) => format!("{cases} cases, {held} of {calls} calls held"),
        }
    }

    /// How many chunks are given.
    fn given_chunks(&self) -> usize {
        self.given.len().div_ceil(self.chunk)
    }

    /// How many cases a chunk has, none where there is no such chunk.
    fn size(&self, chunk: usize) -> usize {
        let rest =
            |all: usize, chunk: usize| all.saturating_sub(chunk * self.chunk).min(self.chunk);
        match (chunk.checked_sub(self.given_chunks()), self.until) {
            (None, _) => rest(self.given.len(), chunk),
            (Some(chunk), Until::Drawn(all)) => rest(all, chunk),
            (Some(_), Until::Calls(_)) => self.chunk,
        }
    }

    /// Takes chunks until there are no more.
    fn work<L: Library, W: Write>(&self, library: &L, shared: &Mutex<Shared<'_, W>>) {
        let lock =
            || -> MutexGuard<'_, Shared<'_, W>> { shared.lock().expect("no thread broke off") };
        let mut run = Run::new(library, !self.seed);
        loop {
            let Some(chunk) = lock().take(self) else {
                return;
            };
            let found = self.chunk(&mut run, chunk);
            lock().put(self, chunk, found);
        }
    }

    /// The cases of one chunk.
    fn chunk<L: Library>(&self, run: &mut Run<L>, chunk: usize) -> Found {
        let of_chunk = (chunk as u64).wrapping_mul(0xD1B5_4A32_D192_ED03);
        run.random = Random::new(Random::new(!self.seed ^ of_chunk).bits());
        let (cases, mut failed) = (self.size(chunk), 0);
        for nth in 0..cases {
            let held = if let Some(message) = self.given.get(chunk * self.chunk + nth) {
                run.held(message)
            } else {
                let message = inputs::message(&mut run.random, self.captured);
                run.held(&message)
            };
            failed += usize::from(!held);
        }
        let (tally, differences, different) = run.holder.take();
        let texts = differences.into_iter().enumerate();
        let texts = texts.map(|(nth, Difference { size, text, .. })| ((size, chunk, nth), text));
        Found {
            cases,
            failed,
            tally,
            texts: texts.collect(),
            different,
        }
    }
}

/// Where the threads meet: which chunk is next, and what was found.
struct Shared<'a, W> {
    /// How many chunks were taken.
    taken: usize,
    /// How many were added up.
    added: usize,
    /// What later chunks found, until those before them are added.
    waiting: BTreeMap<usize, Found>,
    found: Found,
    start: Instant,
    said: Instant,
    progress: &'a mut W,
}

impl<W: Write> Shared<'_, W> {
    /// The next chunk, none where there is no more to do.
    fn take(&mut self, plan: &Plan<'_>) -> Option<usize> {
        if self.ended(plan) || plan.size(self.taken) == 0 {
            return None;
        }
        self.taken += 1;
        Some(self.taken - 1)
    }

    /// Whether no chunk that isn't added yet counts.
    fn ended(&self, plan: &Plan<'_>) -> bool {
        match plan.until {
            Until::Drawn(_) => false,
            Until::Calls(calls) => {
                self.added >= plan.given_chunks() && self.found.tally.calls() >= calls
            }
        }
    }

    /// Adds what a chunk found when all before it are added.
    fn put(&mut self, plan: &Plan<'_>, chunk: usize, found: Found) {
        self.waiting.insert(chunk, found);
        while !self.ended(plan) {
            let Some(found) = self.waiting.remove(&self.added) else {
                break;
            };
            self.found.add(found);
            self.added += 1;
        }
        if self.said.elapsed() >= PROGRESS {
            self.said = Instant::now();
            self.say(&plan.far(&self.found));
        }
    }

    /// How far it is, and how many calls are held in a second.
    fn say(&mut self, far: &str) {
        let calls = self.found.tally.calls();
        let seconds = self.start.elapsed().as_secs_f64();
        let rate = calls as f64 / seconds;
        // Where it can't be printed, the run goes on.
        let _ = writeln!(
            self.progress,
            "{far} in {seconds:.0} s, {rate:.0} a second, {} differ",
            self.found.different
        );
    }
}

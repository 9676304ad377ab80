//! What the Rust says at 32 bits: the crate `oracle` of a driver that is no program for 32 bits itself.
//!
//! A call over a pipe would cost more than all else, and most are asked one by one, each for what the last one gave. So
//! a call is answered at once by the extract on this machine, in which usize has 32 bits (lib.rs, bits32), and goes
//! with that answer into a batch. A program for a machine of 32 bits (serve.rs) answers whole batches, and every answer
//! must be the one that was given: the first that is another ends the run. So what a run compared is what that program
//! says.

#[macro_use]
mod calls;

use calls::{receive, send, Call, Caught, Crosses, NAMES};
pub use extract::{said, AtPlace, Cause, Layout, Params, Says, Trailing};
use std::cell::RefCell;
use std::io;
use std::ops::Range;
use std::process::{Child, ChildStdin, ChildStdout, Command, Stdio};
use std::sync::mpsc::{sync_channel, Receiver, SyncSender};
use std::thread::JoinHandle;

/// The program, which tools/build.sh has built.
const PROGRAM: &str = env!("ORACLE32");

/// A batch goes out when it has so many words, and so many may be on their way.
const FULL: usize = 1 << 15;
const ON_THE_WAY: usize = 8;

/// Calls, the answers that were given, and where each call and its answer end.
struct Batch {
    asked: Vec<u32>,
    given: Vec<u32>,
    ends: Vec<(usize, usize)>,
    /// Where calls stand, by their sums: many are made several times for one input, and asked once.
    seen: Vec<Range<usize>>,
}

const SEEN: usize = 1 << 12;

/// A sum of the words, that few have in common.
fn sum(words: &[u32]) -> usize {
    let mixed = words
        .iter()
        .fold(0u64, |sum, word| (sum.rotate_left(5) ^ u64::from(*word)).wrapping_mul(0x51_7c_c1_b7_27_22_0a_95));
    (mixed >> 32) as usize % SEEN
}

impl Batch {
    fn new() -> Batch {
        Batch { asked: Vec::new(), given: Vec::new(), ends: Vec::new(), seen: vec![0..0; SEEN] }
    }

    /// A call and what was given.
    fn add(&mut self, call: Call, handed: impl FnOnce(&mut Vec<u32>), says: &impl Crosses) {
        let start = self.asked.len();
        self.asked.push(call as u32);
        handed(&mut self.asked);
        let seen = &mut self.seen[sum(&self.asked[start..])];
        if self.asked[seen.clone()] == self.asked[start..] {
            self.asked.truncate(start);
            return;
        }
        *seen = start..self.asked.len();
        says.put(&mut self.given);
        self.ends.push((self.asked.len(), self.given.len()));
    }

    /// The first answer that is another, in words.
    fn differs(&self, answers: &[u32]) -> Option<String> {
        if answers == self.given {
            return None;
        }
        let (mut asked_from, mut given_from) = (0, 0);
        for (asked, given) in &self.ends {
            let there = answers.get(given_from..*given);
            if there != Some(&self.given[given_from..*given]) {
                let [number, ref handed @ ..] = self.asked[asked_from..*asked] else { unreachable!() };
                let (name, here) = (NAMES[number as usize], &self.given[given_from..*given]);
                // Where another answer is longer or shorter, what follows it is shown with it.
                let there = answers.iter().skip(given_from).take(8).collect::<Vec<_>>();
                let of = format!("DIFFERENCE in the Rust's {name} itself, of {handed:?}");
                return Some(format!("{of}\n32 bits, and what follows: {there:?}\nhere: {here:?}"));
            }
            (asked_from, given_from) = (*asked, *given);
        }
        Some(format!("{PROGRAM} answers more than it was asked"))
    }
}

struct Pipe {
    child: Child,
    asks: ChildStdin,
    batch: Batch,
    /// To the thread that reads the answers: how many there were, or what differs.
    sent: SyncSender<Batch>,
    read: JoinHandle<Result<u64, String>>,
}

thread_local! {
    static PIPE: RefCell<Option<Pipe>> = const { RefCell::new(None) };
    /// Whether a comparison is made: what is asked to draw inputs by needs no other answer.
    static COMPARES: std::cell::Cell<bool> = const { std::cell::Cell::new(false) };
}

/// The answers to a batch that was sent.
fn answers(from: &mut ChildStdout) -> io::Result<Vec<u32>> {
    receive(from)?.ok_or(io::ErrorKind::UnexpectedEof.into())
}

fn failed(error: io::Error) -> String {
    format!("{PROGRAM}: {error}")
}

/// Compares the answers of each batch as they come.
fn read(mut from: ChildStdout, sent: Receiver<Batch>) -> Result<u64, String> {
    let mut count = 0;
    for batch in sent {
        let answers = answers(&mut from).map_err(failed)?;
        if let Some(difference) = batch.differs(&answers) {
            return Err(difference);
        }
        count += batch.ends.len() as u64;
    }
    Ok(count)
}

impl Pipe {
    /// Starts the program. The scalars are asked for first, and waited for: they are the target's alone.
    fn start() -> io::Result<Pipe> {
        let mut child = Command::new(PROGRAM).stdin(Stdio::piped()).stdout(Stdio::piped()).spawn()?;
        let (mut asks, mut from) = (child.stdin.take().unwrap(), child.stdout.take().unwrap());
        let codes: Vec<u32> = (0..9).flat_map(|code| [Call::scalar as u32, code]).collect();
        send(&mut asks, &codes)?;
        let scalars = answers(&mut from)?;
        // Each is 0, and then alignment, kind, size and three zeros.
        let scalars = scalars.chunks_exact(7).map(|says| [says[3], says[1]].map(u64::from)).collect();
        extract::SCALARS.set(scalars).expect("it is started once");
        let (sent, received) = sync_channel(ON_THE_WAY);
        let read = std::thread::spawn(|| read(from, received));
        Ok(Pipe { child, asks, batch: Batch::new(), sent, read })
    }

    /// Where the program or the thread has ended the batch does not go out.
    fn flush(&mut self) -> bool {
        let batch = std::mem::replace(&mut self.batch, Batch::new());
        send(&mut self.asks, &batch.asked).is_ok() && self.sent.send(batch).is_ok()
    }

    /// A call and what was given; a batch that is full goes out.
    fn add(&mut self, call: Call, handed: impl FnOnce(&mut Vec<u32>), says: &impl Crosses) -> bool {
        self.batch.add(call, handed, says);
        self.batch.asked.len() < FULL || self.flush()
    }

    /// A batch that did not go out was not answered.
    fn end(mut self) -> Result<u64, String> {
        let went_out = self.flush();
        drop((self.asks, self.sent));
        let count = self.read.join().map_err(|_| "the thread that reads answers panicked".to_string())?;
        let status = self.child.wait().map_err(failed)?;
        if count.is_ok() && !(went_out && status.success()) {
            return Err(format!("{PROGRAM}: it has ended too early, {status}"));
        }
        count
    }
}

/// Whatever is asked within goes to the program too.
pub fn compared<T>(compare: impl FnOnce() -> T) -> T {
    COMPARES.set(true);
    let made = compare();
    COMPARES.set(false);
    made
}

/// Waits for all answers: how many there were, all of them as they were given here; or what was answered otherwise.
pub fn settled() -> Result<u64, String> {
    PIPE.take().map_or(Ok(0), Pipe::end)
}

/// The pipe to the program, which is started where it has not been.
fn piped<T>(then: impl FnOnce(&mut Pipe) -> T) -> T {
    let start = || Pipe::start().unwrap_or_else(|error| panic!("{}", failed(error)));
    PIPE.with_borrow_mut(|pipe| then(pipe.get_or_insert_with(start)))
}

/// What the extract says; where a comparison is made it goes into the batch.
fn asked<S: Caught + Crosses>(call: Call, handed: impl FnOnce(&mut Vec<u32>), says: impl FnOnce() -> S) -> S {
    if extract::SCALARS.get().is_none() {
        piped(|_| ());
    }
    let says = S::caught(says);
    if COMPARES.get() && !piped(|pipe| pipe.add(call, handed, &says)) {
        // The first difference ends the run.
        let why = settled().err().unwrap_or_else(|| format!("{PROGRAM} has ended"));
        eprintln!("{why}");
        std::process::exit(1);
    }
    says
}

macro_rules! ask {
    ($($name:ident($($arg:ident: $type:ty),* $(; $list:ident)?) -> $says:ty;)*) => {
        $(pub fn $name($($arg: $type,)* $($list: &[Layout])?) -> $says {
            let handed = |words: &mut Vec<u32>| {
                $($arg.put(words);)*
                $($list.put(words);)?
            };
            asked(Call::$name, handed, || extract::$name($($arg,)* $($list)?))
        })*
    };
}
calls!(ask);

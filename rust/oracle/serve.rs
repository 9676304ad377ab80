//! A program for a machine of 32 bits that answers the calls of calls.rs by the Rust: batches from standard input,
//! answers to standard output, until there are no more.

#[macro_use]
mod calls;

use calls::{receive, send, Call, Caught, Crosses, PANICKED};
use extract::{AtPlace, Layout, Params, Says, Trailing};
use std::io;

// What the program is for.
const _: () = assert!(usize::BITS == 32);

/// What a batch holds, in its order.
struct Words<'a>(std::slice::Iter<'a, u32>);

impl Words<'_> {
    fn next(&mut self) -> u64 {
        u64::from(*self.0.next().expect("a batch ends with a call"))
    }
}

trait Taken {
    fn take(words: &mut Words) -> Self;
}

impl Taken for u64 {
    fn take(words: &mut Words) -> u64 {
        words.next()
    }
}

impl Taken for bool {
    fn take(words: &mut Words) -> bool {
        words.next() != 0
    }
}

impl<const N: usize> Taken for [u64; N] {
    fn take(words: &mut Words) -> [u64; N] {
        std::array::from_fn(|_| words.next())
    }
}

impl Taken for Vec<Layout> {
    fn take(words: &mut Words) -> Vec<Layout> {
        (0..words.next()).map(|_| Layout::take(words)).collect()
    }
}

fn answer<S: Caught + Crosses>(call: impl FnOnce() -> S, answers: &mut Vec<u32>) {
    match std::panic::catch_unwind(std::panic::AssertUnwindSafe(|| S::caught(call))) {
        Ok(says) => says.put(answers),
        Err(_) => answers.push(PANICKED),
    }
}

macro_rules! dispatch {
    ($($name:ident($($arg:ident: $type:ty),* $(; $list:ident)?) -> $says:ty;)*) => {
        /// Answers the next call.
        fn next(words: &mut Words, answers: &mut Vec<u32>) {
            let number = words.next();
            $(if number == Call::$name as u64 {
                $(let $arg = <$type>::take(words);)*
                $(let $list = <Vec<Layout>>::take(words);)?
                return answer::<$says>(|| extract::$name($($arg,)* $(&$list)?), answers);
            })*
            panic!("no call has the number {number}");
        }
    };
}
calls!(dispatch);

fn main() -> io::Result<()> {
    let (mut input, mut output) = (io::stdin().lock(), io::stdout().lock());
    let mut answers = Vec::new();
    while let Some(asked) = receive(&mut input)? {
        let mut words = Words(asked.iter());
        answers.clear();
        while words.0.len() > 0 {
            next(&mut words, &mut answers);
        }
        send(&mut output, &answers)?;
    }
    Ok(())
}

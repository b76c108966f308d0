//! Calls that write bytes into a buffer and their number into an answer: each is held to independent code, with buffers of every
//! kind. Every buffer is compared whole after every call, what is read too.

use std::collections::BTreeMap;

use crate::ffi::SHORT_ANSWER;
use crate::lent::Lent;
use crate::rng::Rng;
use crate::seen::Seen;

/// A call with so many inputs, and the independent code for it: what comes of them and so many places.
pub struct Way<const N: usize> {
    pub call: fn([&[u8]; N], &mut [u8], &mut [u32]) -> u32,
    pub outcome: fn([&[u8]; N], usize) -> Result<Vec<u8>, u32>,
}

fn told<const N: usize>(inputs: [&[u8]; N]) -> String {
    inputs
        .map(|input| format!("\"{}\"", input.escape_ascii()))
        .join(", ")
}

impl<const N: usize> Way<N> {
    /// Makes the call with so many places of the buffer and of the answer, and holds it to the independent code; returns what it
    /// must come to.
    pub fn hold(
        &self,
        inputs: [&[u8]; N],
        places: usize,
        answer_places: usize,
        rng: &mut Rng,
    ) -> Result<Vec<u8>, u32> {
        // what stands behind an input may not be read: a line feed there would end a text's last line
        let mut lent = inputs.map(|input| Lent::holding(input, || rng.pick(b"\n\n 0")));
        let mut buffer = Lent::new(places, || rng.byte());
        let mut answer = Lent::new(answer_places, || rng.word() as u32);
        let parts = lent.each_mut().map(|lent| &*lent.part());
        let code = (self.call)(parts, buffer.part(), answer.part());
        let expected = match answer_places {
            0 => Err(SHORT_ANSWER),
            _ => (self.outcome)(inputs, places),
        };
        let told = || {
            let inputs = told(inputs);
            format!("{inputs}, {places} and {answer_places} places")
        };
        assert_eq!(code, *expected.as_ref().err().unwrap_or(&0), "{}", told());
        lent.iter().for_each(|lent| lent.expect(&[], told));
        match &expected {
            Ok(written) => {
                buffer.expect(written, told);
                answer.expect(&[written.len() as u32], told);
            }
            Err(_) => {
                buffer.expect(&[], told);
                answer.expect(&[], told);
            }
        }
        expected
    }

    /// Holds the call to an outcome that is known, with buffers of every kind, and so the independent code too.
    pub fn expect(&self, inputs: [&[u8]; N], outcome: Result<&[u8], u32>) {
        let rng = &mut Rng::new(inputs.concat().len() as u64);
        let needed = outcome.map_or(5_000, <[u8]>::len);
        for answer_places in [1, 2, 7] {
            for places in [needed, needed + 1, needed + 100] {
                let came = self.hold(inputs, places, answer_places, rng);
                assert_eq!(
                    came.as_deref().map_err(|&number| number),
                    outcome,
                    "{}",
                    told(inputs)
                );
            }
            for places in [0, needed - 1] {
                let number = *outcome.as_ref().err().unwrap_or(&11);
                let came = self.hold(inputs, places, answer_places, rng);
                assert_eq!(came, Err(number), "{}", told(inputs));
            }
        }
        for places in [0, needed] {
            assert_eq!(self.hold(inputs, places, 0, rng), Err(SHORT_ANSWER));
        }
    }
}

/// The calls of one kind: how many of each code, and with which buffers.
#[derive(Default)]
pub struct Calls {
    codes: BTreeMap<u32, usize>,
    seen: Seen,
}

impl Calls {
    /// Makes the call with buffers of every kind; returns what comes of it where there are places enough.
    pub fn hold<const N: usize>(
        &mut self,
        way: &Way<N>,
        inputs: [&[u8]; N],
        rng: &mut Rng,
    ) -> Result<Vec<u8>, u32> {
        let outcome = (way.outcome)(inputs, usize::MAX);
        let any = rng.between(1, 100);
        let needed = outcome.as_ref().map_or(any, Vec::len);
        let longer = needed + rng.between(1, 20);
        let shorter = rng.between(0, needed - 1);
        for places in [needed, longer, needed - 1, rng.pick(&[0, shorter])] {
            let answer_places = rng.pick(&[1, 1, 1, 2, 5, 0]);
            let came = way.hold(inputs, places, answer_places, rng);
            if answer_places > 0 {
                match outcome {
                    Ok(_) if places < needed => assert_eq!(came, Err(11)),
                    _ => assert_eq!(came, outcome),
                }
            }
            *self.codes.entry(came.err().unwrap_or(0)).or_default() += 1;
            let seen = &mut self.seen;
            seen.note("an answer with no place", answer_places == 0);
            seen.note("an answer of several places", answer_places > 1);
            if answer_places > 0 && outcome.is_ok() {
                seen.note("a buffer exactly long enough", places == needed);
                seen.note("a longer buffer", places > needed);
                seen.note("a buffer one byte short", places == needed - 1);
                seen.note("an empty buffer", places == 0);
            }
            if answer_places > 0 && outcome.is_err() {
                seen.note("a refusal over an empty buffer", places == 0);
                seen.note("a refusal over a buffer with bytes", places > 0);
            }
        }
        outcome
    }

    /// These codes came, each so often, and no others; buffers of every kind too.
    pub fn enough(&self, codes: &[u32], enough: usize) {
        println!("calls by code: {:?}", self.codes);
        self.seen.enough(enough);
        assert!(self.codes.keys().eq(codes));
        assert!(self.codes.values().all(|&count| count >= enough));
    }
}

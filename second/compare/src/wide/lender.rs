//! Everything that the library is lent for a call, each buffer in memory of its own.

use super::call::Call;
use super::fault::{during, Made};
use super::given::MOST_INPUTS;
use super::hold::{Lent, Library, LONGEST, MOST_NUMBERS};
use super::memory::{guards, same, Bits, Paged, Side};
use crate::random::Random;

/// How many bytes are other ones for each case.
const STIRRED: usize = 512;

/// Room for an input at first. It grows where a longer one comes.
const INPUT: usize = 140_000;

/// Which bit of [`Bits`] is whose: the inputs come first.
const OUT: usize = MOST_INPUTS;
const NUMBERS: usize = MOST_INPUTS + 1;

/// What stands in lent memory, and in the guards, before a call.
pub struct Before {
    bytes: Vec<u8>,
    pub numbers: [u64; MOST_NUMBERS],
    guard: [u8; guards::<u8>()],
    guard_numbers: [u64; guards::<u64>()],
}

impl Before {
    pub fn new(random: &mut Random) -> Self {
        let mut bytes = vec![0; LONGEST];
        bytes.fill_with(|| random.byte());
        Self {
            bytes,
            numbers: std::array::from_fn(|_| random.bits()),
            guard: random.array(),
            guard_numbers: std::array::from_fn(|_| random.bits()),
        }
    }

    pub fn lent(&self) -> (&[u8], &[u64]) {
        (&self.bytes, &self.numbers)
    }

    /// Other bytes and numbers from now on.
    pub fn stir(&mut self, random: &mut Random) {
        for bytes in self.bytes[..STIRRED].chunks_exact_mut(8) {
            bytes.copy_from_slice(&random.bits().to_le_bytes());
        }
        for bytes in self.guard.chunks_exact_mut(8) {
            bytes.copy_from_slice(&random.bits().to_le_bytes());
        }
        self.numbers = std::array::from_fn(|_| random.bits());
        self.guard_numbers = std::array::from_fn(|_| random.bits());
    }
}

/// Lends a call its inputs and its outputs.
pub struct Lender {
    inputs: [Paged<u8>; MOST_INPUTS],
    out: Paged<u8>,
    numbers: Paged<u64>,
}

impl Lender {
    pub fn new() -> Self {
        Self {
            inputs: std::array::from_fn(|_| Paged::new(INPUT)),
            out: Paged::new(LONGEST),
            numbers: Paged::new(MOST_NUMBERS),
        }
    }

    /// Makes a call of the library on copies of its inputs.
    pub fn call(
        &mut self,
        library: &impl Library,
        call: &Call<'_>,
        lent: Lent,
        sides: Bits,
        before: &Before,
    ) -> u64 {
        let (out, guard) = self.out.parts_mut(lent.room, sides.of(OUT));
        out.copy_from_slice(&before.bytes[..lent.room]);
        guard.copy_from_slice(&before.guard);
        let (numbers, guard) = self.numbers.parts_mut(lent.numbers, sides.of(NUMBERS));
        numbers.copy_from_slice(&before.numbers[..lent.numbers]);
        guard.copy_from_slice(&before.guard_numbers);
        let mut memory = self.inputs.iter_mut().enumerate();
        let call = &call.with_inputs(|bytes| {
            let (at, memory) = memory.next().expect("memory for each input");
            lend(memory, bytes, sides.of(at), &before.guard)
        });
        let made = Made {
            call,
            out: out.as_ptr_range(),
            numbers: numbers.as_ptr_range(),
        };
        during(&made, || library(call, out, numbers))
    }

    /// The lent bytes and numbers, as a call left them.
    pub fn lent(&self, lent: Lent, sides: Bits) -> (&[u8], &[u64]) {
        let (out, _) = self.out.parts(lent.room, sides.of(OUT));
        let (numbers, _) = self.numbers.parts(lent.numbers, sides.of(NUMBERS));
        (out, numbers)
    }

    /// Whether a call kept the guards of its outputs.
    pub fn kept_guards(&self, lent: Lent, sides: Bits, before: &Before) -> bool {
        let (_, guard) = self.out.parts(lent.room, sides.of(OUT));
        let (_, numbers) = self.numbers.parts(lent.numbers, sides.of(NUMBERS));
        *guard == before.guard && *numbers == before.guard_numbers
    }

    /// Whether a call kept its inputs and their guards.
    pub fn kept_inputs(&self, call: &Call<'_>, sides: Bits, before: &Before) -> bool {
        let mut memory = self.inputs.iter().enumerate();
        let mut kept = true;
        let mut call = *call;
        call.each_input(&mut |_, bytes| {
            let (at, memory) = memory.next().expect("memory for each input");
            let (lent, guard) = memory.parts(bytes.len(), sides.of(at));
            kept &= same(lent, bytes) && *guard == before.guard;
        });
        kept
    }
}

/// Lends a copy of an input.
fn lend<'a>(memory: &'a mut Paged<u8>, bytes: &[u8], side: Side, with: &[u8]) -> &'a [u8] {
    if bytes.len() > memory.room() {
        *memory = Paged::new(2 * bytes.len());
    }
    let (lent, guard) = memory.parts_mut(bytes.len(), side);
    guard.copy_from_slice(with);
    lent.copy_from_slice(bytes);
    lent
}

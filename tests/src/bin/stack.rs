//! `stack [--seed SEED] [--count COUNT]`: how much stack each call needs at most, in bytes, on the
//! deepest inputs and on random ones. A call gets a painted stack of its own; how far down it has
//! overwritten the paint is what it needed, with the address to return to and the few bytes of the
//! closure that makes the call.

use std::arch::asm;
use std::process::ExitCode;

use checker::raw;
use checker_tests::arguments::seed_and_count;
use checker_tests::generate::{deepest, Input, Source};
use checker_tests::tables::Call;

const DEFAULT_COUNT: u64 = 20_000;

/// More than any call needs.
const ROOM: usize = 1024 * 1024;

const PAINT: u128 = 0xA5A5_A5A5_5A5A_5A5A_C3C3_C3C3_3C3C_3C3C;
const PAINT_SIZE: usize = size_of::<u128>();

fn main() -> ExitCode {
    let (seed, count) = match seed_and_count("stack", DEFAULT_COUNT) {
        Ok(arguments) => arguments,
        Err(message) => {
            eprintln!("{message}");
            return ExitCode::FAILURE;
        }
    };
    let mut stack = Stack::painted();
    print_most("deepest inputs", &mut stack, deepest().into_iter());
    let mut source = Source::new(seed);
    let random = (0..count).map(|number| (format!("input {number}"), source.next_input()));
    print_most(&format!("{count} inputs from seed {seed}"), &mut stack, random);
    ExitCode::SUCCESS
}

/// Prints what each call needs at most on these inputs, and on which of them.
fn print_most(group: &str, stack: &mut Stack, inputs: impl Iterator<Item = (String, Input)>) {
    let mut most = Call::ALL.map(|_| (0, String::new()));
    for (title, input) in inputs {
        for (most, need) in most.iter_mut().zip(needs(stack, &input)) {
            if need > most.0 {
                *most = (need, title.clone());
            }
        }
    }
    println!("{group}");
    for (call, (bytes, title)) in Call::ALL.into_iter().zip(most) {
        println!("{:>11}{bytes:>9} bytes  {title}", call.word());
    }
}

/// What each of the calls needs at most on this input.
fn needs(stack: &mut Stack, input: &Input) -> [usize; Call::ALL.len()] {
    Call::ALL.map(|call| match call {
        Call::Check => {
            let mut page = input.page.clone();
            stack.used_by(|| raw::check(&input.submission, &mut page))
        }
        Call::Deducible => {
            most(&input.asked, |term| stack.used_by(|| raw::deducible(&input.submission, *term)))
        }
        Call::Run => most(&input.runs, |(name, program)| {
            stack.used_by(|| raw::run(&input.submission, *name, program))
        }),
        Call::Write => most(&input.forms, |form| {
            let [terms, knowledge, derivation, claim] = form.bodies();
            let mut page = form.page.clone();
            stack.used_by(|| raw::write(terms, knowledge, derivation, claim, &mut page))
        }),
        Call::Inverses => most(&input.inverse_pages, |page| {
            let mut page = page.clone();
            stack.used_by(|| raw::inverses(&input.submission, &mut page))
        }),
        Call::ReadBack => most(&input.sent, |sent| {
            let mut page = sent.page.clone();
            stack.used_by(|| raw::read_back(&input.submission, &sent.program, &mut page))
        }),
        Call::Deduction => most(&input.sheets, |sheet| {
            let mut page = sheet.page.clone();
            stack.used_by(|| raw::deduction(&input.submission, sheet.term, &mut page))
        }),
        Call::Join => most(&input.pairs, |pair| {
            let mut page = pair.page.clone();
            stack.used_by(|| raw::join(&pair.first, &pair.second, &mut page))
        }),
    })
}

fn most<T>(inputs: &[T], need: impl FnMut(&T) -> usize) -> usize {
    inputs.iter().map(need).max().unwrap_or(0)
}

struct Stack(Vec<u128>);

impl Stack {
    fn painted() -> Stack {
        Stack(vec![PAINT; ROOM / PAINT_SIZE])
    }

    /// How many bytes of this stack the call uses. Paints them again.
    fn used_by<F: FnMut() -> u32>(&mut self, mut call: F) -> usize {
        let top = self.0.as_mut_ptr_range().end;
        // SAFETY: the stack is this value's own, and ends at a multiple of 16. The call returns to
        // the old stack, whose pointer waits in a register that a C function keeps.
        unsafe {
            asm!(
                "xchg rsp, r12",
                "call {enter}",
                "mov rsp, r12",
                enter = in(reg) enter::<F> as extern "C" fn(*mut F) -> u32,
                inout("r12") top => _,
                in("rdi") &raw mut call,
                clobber_abi("C"),
            );
        }
        let untouched = self.0.iter().take_while(|&&word| word == PAINT).count();
        assert_ne!(untouched, 0, "the call needs more than {ROOM} bytes");
        let used = &mut self.0[untouched..];
        used.fill(PAINT);
        size_of_val(used)
    }
}

extern "C" fn enter<F: FnMut() -> u32>(call: *mut F) -> u32 {
    // SAFETY: the pointer is to the closure that `used_by` was handed.
    unsafe { (*call)() }
}

//! A run, step by step.

use crate::boundary::{self, Step, ridgeoven_new, ridgeoven_new_number, ridgeoven_reparented, ridgeoven_resolve, ridgeoven_take, ridgeoven_write};
use crate::refusal::{Refusal, accepted, length};
use crate::{CLEANED_MAX, in_vec, on_stack};

/// A cleaning run: archives are taken into it one after the other, then it is resolved once; from then on it is asked and written as often
/// as wanted. A call out of turn is refused with 40, and a refused call leaves the run as it was.
///
/// ```
/// let mut run = ridgeoven::Run::new();
/// assert_eq!(run.reparented(), Err(ridgeoven::Refusal(40)));
/// assert_eq!(run.resolve(), Err(ridgeoven::Refusal(24)));
/// ```
#[derive(Clone)]
pub struct Run(Box<boundary::Run>);

impl Default for Run {
    fn default() -> Self {
        Self::new()
    }
}

impl Run {
    /// A run that has taken nothing.
    pub fn new() -> Self {
        Self(on_stack(|| Box::new(unsafe { ridgeoven_new() })))
    }

    /// Takes the files of an archive, after those taken before.
    pub fn take(&mut self, bytes: &[u8]) -> Result<(), Refusal> {
        let run = &mut *self.0;
        on_stack(|| {
            let step = unsafe { ridgeoven_take(*run, bytes.as_ptr(), bytes.len()) };
            stepped(run, &step)
        })
    }

    /// Ends the taking: the survivors get their new numbers and parents.
    pub fn resolve(&mut self) -> Result<(), Refusal> {
        let run = &mut *self.0;
        on_stack(|| {
            let step = unsafe { ridgeoven_resolve(*run) };
            stepped(run, &step)
        })
    }

    /// Writes the cleaned archive of a resolved run into `out`: how long it is.
    pub fn write(&self, out: &mut [u8]) -> Result<usize, Refusal> {
        length(on_stack(|| unsafe { ridgeoven_write(*self.0, out.as_mut_ptr(), out.len()) }))
    }

    /// The cleaned archive of a resolved run.
    pub fn write_to_vec(&self) -> Result<Vec<u8>, Refusal> {
        in_vec(CLEANED_MAX, |out| self.write(out))
    }

    /// The new number of an event of a resolved run; nothing where it is erased or no event has the number.
    pub fn new_number(&self, old: u64) -> Result<Option<u64>, Refusal> {
        let answer = on_stack(|| unsafe { ridgeoven_new_number(*self.0, old) });
        accepted(answer.refusal, (answer.known != 0).then_some(answer.number))
    }

    /// How many survivors of a resolved run name an erased parent.
    pub fn reparented(&self) -> Result<usize, Refusal> {
        length(on_stack(|| unsafe { ridgeoven_reparented(*self.0) }))
    }
}

/// The run after a step, in its place; a refused step leaves it as it was.
fn stepped(run: &mut boundary::Run, step: &Step) -> Result<(), Refusal> {
    accepted(step.refusal, ())?;
    *run = step.run;
    Ok(())
}

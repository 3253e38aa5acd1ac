//! One call on states of its own: the second implementation, the proved library, a plain copy of the state.

use crate::measure::{time, Times};
use std::cell::RefCell;
use std::hint::black_box;

/// What a turn works on: this implementation's ends, and the states' bytes.
pub struct Desk<E> {
    end: E,
    state: Vec<u8>,
    ends: Vec<E>,
    states: Vec<Vec<u8>>,
    copy: Vec<u8>,
}

impl<E: Clone> Desk<E> {
    /// For turns of so many calls.
    pub fn new(end: &E, state: &[u8], calls: usize) -> Desk<E> {
        Desk {
            end: end.clone(),
            state: state.to_vec(),
            ends: vec![end.clone(); calls],
            states: vec![state.to_vec(); calls],
            copy: state.to_vec(),
        }
    }

    /// The second implementation gets the bytes to check and the end to call.
    pub fn time(
        self,
        rounds: usize,
        second: impl Fn(&[u8], &mut E),
        mut proved: impl FnMut(&mut [u8]),
    ) -> Times {
        let desk = RefCell::new(self);
        time(
            rounds,
            &|| desk.borrow_mut().settle(),
            [
                &mut || desk.borrow_mut().second(&second),
                &mut || desk.borrow_mut().proved(&mut proved),
                &mut || desk.borrow_mut().copy(),
            ],
        )
    }

    /// Sets the states up anew, on both sides; not timed.
    fn settle(&mut self) {
        for end in &mut self.ends {
            end.clone_from(&self.end);
        }
        for state in &mut self.states {
            state.copy_from_slice(&self.state);
        }
    }

    #[inline(never)]
    fn second(&mut self, call: &impl Fn(&[u8], &mut E)) {
        for (bytes, end) in self.states.iter().zip(&mut self.ends) {
            call(black_box(bytes), end);
        }
    }

    #[inline(never)]
    fn proved(&mut self, call: &mut impl FnMut(&mut [u8])) {
        for state in &mut self.states {
            call(state);
        }
    }

    #[inline(never)]
    fn copy(&mut self) {
        for state in &self.states {
            self.copy.copy_from_slice(black_box(state));
            black_box(&mut self.copy);
        }
    }
}

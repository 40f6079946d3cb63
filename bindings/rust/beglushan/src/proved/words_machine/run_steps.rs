// Erased by bindings/rust/erase from crates/words_machine/src/run_steps.rt, sha256 4ff678f2b658a0500b4fca7c369f03ddb62a99cdee58791bf2215fe63995803f.
//! The rule of a table of words, and the kinds of step that keep it.

use crate::kit::atomic_table::{Play, Split, TableRule};
use crate::proved::words_machine::program::WordProgram;
use crate::proved::words_machine::seat_view::SeatView;
use core::marker::PhantomData;

/// The rule: some list of calls leads to a state whose memory is the words, and whose participants the views tell.
pub struct Running<P> {
    of: PhantomData<P>,
}

impl<S, P: WordProgram> TableRule<S, SeatView<P, P::Output>, u64> for Running<P> {}

/// The load of the word of a register: the participant's read.
pub struct GetWord<P> {
    of: PhantomData<P>,
}

impl<S, P: WordProgram> Play<S, SeatView<P, P::Output>> for GetWord<P> {}

/// The store of the word of a register: the participant's write.
pub struct PutWord<P> {
    of: PhantomData<P>,
}

impl<S, P: WordProgram> Play<S, SeatView<P, P::Output>> for PutWord<P> {}

/// The first participant goes to a new seat: where a seat is dealt out, and where two that met part again.
pub struct DealRun;

impl<P, O> Split<SeatView<P, O>> for DealRun {}

//! Stand-in: a view of the backend's private state.

use super::*;

impl SequencerBackend {
    pub(crate) fn sequencer(&self) -> &Sequencer {
        &self.sequencer
    }

    pub(crate) fn sequencer_mut(&mut self) -> &mut Sequencer {
        &mut self.sequencer
    }
}

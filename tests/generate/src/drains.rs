//! Requests that are finished before their data has all come (E8): their slots drain.

use crate::client::{Client, Phase, Step};
use crate::random::Random;
use crate::sizes::LONGEST_SENT;

impl Client {
    /// The place of a request in this phase, with good steps before it until there is
    /// one.
    pub fn wait_for(&mut self, random: &mut Random, phase: Phase) -> usize {
        loop {
            if let Some(place) = self.some(random, Some(phase)) {
                return place;
            }
            let drained = phase == Phase::Draining && self.finish_early(random);
            if !drained {
                self.act(random);
            }
        }
    }

    /// A finish of an id that waits for data.
    pub fn finish_early(&mut self, random: &mut Random) -> bool {
        let place = self.some(random, Some(Phase::Waiting));
        if let Some(place) = place {
            self.drain(place);
        }
        place.is_some()
    }

    fn drain(&mut self, place: usize) {
        let request = &mut self.requests[place];
        request.phase = Phase::Draining;
        self.steps.push(Step::Finish(request.id));
    }

    /// A request waits, before its data or between two frames of it; it is finished,
    /// often twice, and its data goes on to the end. Often all slots are in use then, or
    /// another command comes in between, and often the id is used again.
    pub fn drain_whole(&mut self, random: &mut Random) {
        let place = self.wait_for(random, Phase::Waiting);
        self.some_data(place, random);
        if random.percent(40) {
            while self.begin(random) {}
        }
        self.drain(place);
        if random.percent(40) {
            self.steps.push(Step::Finish(self.requests[place].id));
        }
        self.some_data(place, random);
        if random.percent(60) {
            self.begin(random);
        }
        let id = self.end_drain(place, random);
        if random.percent(60) {
            self.begin_as(id, random);
        }
    }

    /// Data, of which more follows, or none.
    fn some_data(&mut self, place: usize, random: &mut Random) {
        for _ in 0..random.pick(&[0, 0, 1, 2]) {
            self.send_data(place, data_length(random), false, random);
        }
    }

    /// The last data frame of a request that drains, and its id, which is idle then.
    pub fn end_drain(&mut self, place: usize, random: &mut Random) -> u16 {
        let id = self.requests[place].id;
        self.send_data(place, data_length(random), true, random);
        id
    }
}

fn data_length(random: &mut Random) -> usize {
    let any = random.between(1, 40);
    random.pick(&[0, 0, any, any, any, LONGEST_SENT])
}

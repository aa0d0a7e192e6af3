//! Shares cores evenly over time among clients of the same priority. A *turn* moves a core from one of them to another.

use super::{Arbiter, Client};
use std::collections::BTreeMap;
use std::time::{Duration, Instant};

/// The most tries to begin a turn in a row. A try fails if the client that would get the core has no thread for it.
const TRIED: usize = 8;

pub(super) struct Turns {
    /// The time between two turns; zero if there are none.
    every: Duration,
    looked: Instant,
    pub(super) count: u64,
    current: Option<Turn>,
}

struct Turn {
    priority: u32,
    from: u32,
    to: u32,
    /// For each client of the turn's priority, the number of cores that it will have after the turn.
    most: BTreeMap<u32, u32>,
}

impl Turns {
    pub(super) fn new(every: Duration) -> Turns {
        Turns { every, looked: Instant::now(), count: 0, current: None }
    }
}

impl Arbiter {
    /// Passes the number of cores that a client asks for to the proved library. During a turn (a move of a core) among
    /// clients of this client's priority, the number is limited to what the client will have after the turn, or to its
    /// reserved cores if they are more.
    pub(super) fn tell(&mut self, id: u32) {
        if let Some(client) = self.clients.get(&id) {
            let turn = self.turns.current.as_ref().filter(|turn| turn.priority == client.priority);
            let most = turn.map_or(client.asked, |turn| turn.most.get(&id).copied().unwrap_or(0).max(client.least));
            self.state.ask(client.number, most.min(client.asked));
        }
    }

    fn set_turn(&mut self, turn: Option<Turn>) {
        self.turns.current = turn;
        let ids: Vec<u32> = self.clients.keys().copied().collect();
        ids.into_iter().for_each(|id| self.tell(id));
    }

    /// Returns the time at which the next turn may begin, or `None` if one is in progress or none is possible.
    pub(super) fn next_turn(&self) -> Option<Instant> {
        let Turns { every, looked, current, .. } = &self.turns;
        let may = self.clients.len() > 1 && current.is_none() && !every.is_zero();
        may.then_some(*looked + *every)
    }

    /// Decides how many cores each client is allowed. Ends the turn in progress if a client is then allowed fewer cores
    /// than the turn would give it, so that other clients may have these cores.
    pub(super) fn decide(&mut self) {
        self.state.decide();
        let most = self.turns.current.as_ref().map_or(BTreeMap::new(), |turn| turn.most.clone());
        if most.into_iter().any(|(id, most)| self.share(id).allowed < most) {
            self.set_turn(None);
            self.state.decide();
        }
    }

    /// Begins a turn (a move of a core from one client to another), if one is possible, and returns true. Before this
    /// call, all threads must have been moved as decided.
    pub(super) fn begin_turn(&mut self) -> bool {
        if !self.next_turn().map_or(false, |at| at <= Instant::now()) {
            return false;
        }
        self.turns.looked = Instant::now();
        for _ in 0..TRIED {
            let turn = match self.find_turn() {
                Some(turn) => turn,
                None => return false,
            };
            let to = turn.to;
            self.set_turn(Some(turn));
            self.decide();
            if self.turns.current.is_some() {
                return true;
            }
            self.count_turn(&[to]);
        }
        false
    }

    /// Returns the next turn, if one is possible. The core goes to a client that asks for more cores than it is
    /// allowed. The core comes from a client that is allowed more cores than the first, and more than are reserved for
    /// itself. Of several such clients, the one whose last turn is the longest ago is chosen.
    fn find_turn(&self) -> Option<Turn> {
        let alike = |priority| self.clients.iter().filter(move |(_, it)| it.priority == priority);
        let giver = |to: &Client| {
            let givers = alike(to.priority).filter(|(_, it)| it.allowed > to.allowed.max(it.least.min(it.asked)));
            givers.min_by_key(|(_, it)| it.turned)
        };
        let waits = self.clients.iter().filter(|(_, it)| it.asked > it.allowed && giver(it).is_some());
        let (&to, client) = waits.min_by_key(|(_, it)| it.turned)?;
        let (&from, _) = giver(client)?;
        let mut most: BTreeMap<u32, u32> = alike(client.priority).map(|(&id, it)| (id, it.allowed)).collect();
        most.insert(to, client.allowed + 1);
        most.entry(from).and_modify(|most| *most -= 1);
        Some(Turn { priority: client.priority, from, to, most })
    }

    pub(super) fn end_turn(&mut self) -> bool {
        let (from, to, most) = match &self.turns.current {
            Some(turn) => (turn.from, turn.to, turn.most[&turn.to]),
            None => return false,
        };
        let ends = self.share(to).held >= most;
        if ends {
            self.count_turn(&[from, to]);
            self.set_turn(None);
        }
        ends
    }

    fn count_turn(&mut self, ids: &[u32]) {
        self.turns.count += 1;
        for id in ids {
            if let Some(client) = self.clients.get_mut(id) {
                client.turned = self.turns.count;
            }
        }
    }
}

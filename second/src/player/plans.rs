//! What the player plans: runs of calls towards a deep state.

use super::{Goal, Player, Step};
use crate::bench::Bench;
use crate::call::Call;
use crate::connection::{is_dynamic, CONN_IDS, FIRST_DYNAMIC, LAST_DYNAMIC, STATIC_RF};
use crate::controller::{Pair, Phase, Rf};
use crate::layout::*;

/// Of a hundred plans, how many are sets and gets.
const CONFIGURING: usize = 26;
/// And how many of those on open connections are messages that presses move.
const PRESSING: usize = 4;

impl Player {
    pub(super) fn then(&mut self, call: Call) {
        self.plan.push_back(Step::Call(call));
    }

    fn then_times(&mut self, call: Call, times: usize) {
        for _ in 0..times {
            self.then(call.clone());
        }
    }

    fn then_perhaps(&mut self, call: Call) {
        if self.random.chance(50) {
            self.then(call);
        }
    }

    /// A command that is answered at once, most of the time.
    pub(super) fn then_command(&mut self, call: Call) {
        self.then(call);
        if self.random.chance(90) {
            self.plan.push_back(Step::Settle);
        }
    }

    pub(super) fn choose_plan(&mut self, bench: &Bench) {
        if bench.controller().phase() != Phase::Initialised && self.random.chance(92) {
            return self.plan_bring_up();
        }
        if let Some(goal) = self.goal {
            return self.plan_goal(bench, goal);
        }
        if self.configs && self.random.chance(CONFIGURING) {
            return self.plan_configure(bench);
        }
        if !any_open(bench) && self.random.chance(85) {
            return if self.random.chance(55) { self.plan_create() } else { self.plan_way_to_active(bench) };
        }
        if self.runs && self.random.chance(PRESSING) {
            return self.plan_presses(bench);
        }
        if self.long_profiles && self.random.chance(15) {
            return self.plan_side_by_side(bench);
        }
        match self.random.below(113) {
            0..=11 => self.plan_create(),
            12..=35 => self.plan_traffic(bench),
            36..=42 => self.plan_flood_down(bench),
            43..=49 => self.plan_flood_store(bench),
            50..=57 => self.plan_flood_up(bench),
            58..=65 => self.plan_way_to_active(bench),
            66..=85 => self.plan_rf(bench),
            86..=88 => self.plan_close(bench),
            89..=90 => self.plan_reset_under_way(bench),
            91..=93 => self.plan_odd_command(bench),
            94..=95 => self.plan.push_back(Step::Settle),
            96 => {
                let conn = self.random.pick(&[0, 2, 1, 6, 15, 255]);
                self.then(Call::Report(conn));
            }
            97..=99 => self.plan_rest(),
            _ => self.plan_send_during_close(bench),
        }
    }

    fn plan_goal(&mut self, bench: &Bench, goal: Goal) {
        if !any_open(bench) {
            return self.plan_create();
        }
        self.goal = None;
        match goal {
            Goal::FullStore => self.plan_flood_store(bench),
            Goal::FullDownWire => self.plan_flood_down(bench),
            Goal::FullUpWire => self.plan_flood_up(bench),
            Goal::ArgumentsOutside => self.plan_arguments_outside(),
        }
    }

    /// Each call with an argument outside its limit.
    fn plan_arguments_outside(&mut self) {
        let conn = self.random.pick(&[1, 6, 15, 16, 255]);
        let mut profile = self.profile();
        let place = self.random.below(profile.len());
        profile[place] = 0;
        for call in [
            Call::Fresh(profile),
            self.command(16, 0, &[]),
            self.command(0, 64, &[]),
            self.command(0, 0, &[0; 256]),
            Call::Send { conn, message: vec![1] },
            Call::Send { conn: 2, message: vec![1; 1025] },
            Call::Push(conn),
            Call::Consume(conn),
            Call::Report(conn),
            Call::Air(vec![0]),
            Call::Air(vec![2, 0, 4, 0]),
        ] {
            self.then(call);
        }
    }

    pub(super) fn plan_bring_up(&mut self) {
        self.plan.push_back(Step::Settle);
        let reset = self.reset();
        self.then_command(reset);
        self.plan_init();
    }

    pub(super) fn plan_init(&mut self) {
        let mut payload = vec![0, 0];
        self.trail(&mut payload);
        let init = self.command(CORE, CORE_INIT, &payload);
        self.then_command(init);
    }

    fn plan_create(&mut self) {
        let mut payload = vec![1, 0];
        self.trail(&mut payload);
        let create = self.command(CORE, CORE_CONN_CREATE, &payload);
        self.then_command(create);
    }

    /// Sends and moves a message some way. A loopback's packets bring its credits
    /// back, so that a notice is asked for only now and then.
    fn plan_traffic(&mut self, bench: &Bench) {
        let conn = self.open_conn(bench);
        if conn == STATIC_RF && self.random.chance(70) {
            return self.plan_dialogue(bench);
        }
        let message = self.message();
        self.then(Call::Send { conn, message });
        for _ in 0..1 + self.random.below(12) {
            let moves = [Call::Push(conn), Call::Down, Call::Consume(conn), Call::Up];
            for call in moves {
                if self.random.chance(85) {
                    self.then(call);
                }
            }
            if self.random.chance(10) {
                self.then(Call::Credit);
            }
        }
    }

    /// Messages on two loopbacks at once, a second one opened first where there is but one:
    /// where their terms are unlike, one waits for credits while the other goes on.
    fn plan_side_by_side(&mut self, bench: &Bench) {
        let Some(pair) = self.two_loopbacks(bench) else {
            return self.plan_create();
        };
        if self.random.chance(50) {
            self.plan_go_round(pair[0]);
        }
        for conn in pair {
            let segments = 1 + self.random.below(6);
            let message = self.message_of_segments(bench, conn, segments);
            self.then(Call::Send { conn, message });
        }
        for _ in 0..2 + self.random.below(10) {
            let conn = self.random.pick(&pair);
            let pushes = 1 + self.random.below(3);
            self.then_times(Call::Push(conn), pushes);
            for call in [Call::Down, Call::Consume(conn), Call::Up] {
                if self.random.chance(70) {
                    self.then(call);
                }
            }
        }
        for conn in pair {
            self.then_perhaps(Call::Report(conn));
        }
    }

    /// Closes a loopback, and opens others until its ID is given again.
    fn plan_go_round(&mut self, conn: u8) {
        let close = self.command(CORE, CORE_CONN_CLOSE, &[conn]);
        self.then_command(close);
        self.plan_more_loopbacks();
    }

    /// As many as there can be.
    fn plan_more_loopbacks(&mut self) {
        for _ in FIRST_DYNAMIC..=LAST_DYNAMIC {
            self.plan_create();
        }
    }

    /// Two loopbacks that are open at the host.
    fn two_loopbacks(&mut self, bench: &Bench) -> Option<[u8; 2]> {
        let is_open = |conn: &u8| is_dynamic(*conn) && bench.host().connection(*conn).is_some();
        let open: Vec<u8> = CONN_IDS.into_iter().filter(is_open).collect();
        if open.len() < 2 {
            return None;
        }
        let first = self.random.below(open.len());
        let second = (first + 1 + self.random.below(open.len() - 1)) % open.len();
        Some([open[first], open[second]])
    }

    /// Host and endpoint speak in turn on connection 0: what is owed for the packets
    /// consumed comes back inside the replies, mostly.
    fn plan_dialogue(&mut self, bench: &Bench) {
        let segments = 1 + self.random.below(8);
        let message = self.message_of_segments(bench, STATIC_RF, segments);
        self.then(Call::Send { conn: STATIC_RF, message });
        for call in [Call::Push(STATIC_RF), Call::Down, Call::Consume(STATIC_RF)] {
            self.then_times(call, segments);
        }
        if self.random.chance(15) {
            self.then(Call::Credit);
        }
        let replies = self.random.pick(&[1, 2, 3, 5]);
        let answer = self.random.octets(255 * (replies - 1) + 4);
        self.then(Call::Air([&[8][..], &answer].concat()));
        for _ in 0..replies {
            self.then(Call::Reply);
            self.then_perhaps(Call::Up);
        }
    }

    /// A message of so many segments, as far as messages go.
    fn message_of_segments(&mut self, bench: &Bench, conn: u8, segments: usize) -> Vec<u8> {
        let payload = bench.controller().connection(conn).map_or(1, |open| open.payload());
        self.random.octets((segments * payload).min(1024))
    }

    /// Pushes until the down wire is full, and past it.
    fn plan_flood_down(&mut self, bench: &Bench) {
        let conn = self.open_conn(bench);
        for _ in 0..1 + self.random.below(3) {
            let message = self.message_of_segments(bench, conn, 17);
            let pushes = message.len().min(18);
            self.then(Call::Send { conn, message });
            self.then_times(Call::Push(conn), pushes);
        }
        let call = self.any_command(bench);
        self.then(call);
        self.then(Call::Push(conn));
    }

    /// Stores until the store is full, and past it.
    fn plan_flood_store(&mut self, bench: &Bench) {
        let conn = self.open_conn(bench);
        self.plan.push_back(Step::Settle);
        let message = self.message_of_segments(bench, conn, 10);
        self.then(Call::Send { conn, message });
        for _ in 0..10 {
            self.then(Call::Push(conn));
            self.then(Call::Down);
        }
        let consumes = self.random.below(12);
        self.then_times(Call::Consume(conn), consumes);
    }

    /// Fills the up wire without reading it, and tries what needs a slot there.
    fn plan_flood_up(&mut self, bench: &Bench) {
        let conn = self.open_conn(bench);
        match bench.controller().rf() {
            Rf::PollActive(_) | Rf::ListenActive(_) => self.plan_many_replies(),
            _ => self.plan_many_returns(bench, conn),
        }
        let command = self.any_command(bench);
        let air = self.any_air();
        for call in [command, Call::Down, Call::Down, Call::Consume(conn), Call::Credit, Call::Reply, air] {
            self.then(call);
        }
        if self.random.chance(50) {
            self.then(Call::Up);
            self.then_times(Call::Down, 2);
        }
    }

    fn plan_many_replies(&mut self) {
        let segments = self.random.pick(&[1, 2, 4, 5]);
        let length = 255 * (segments - 1) + self.random.below(4);
        for _ in 0..18 / segments {
            let message = self.random.octets(length);
            self.then(Call::Air([&[8][..], &message].concat()));
            self.then_times(Call::Reply, segments);
        }
    }

    fn plan_many_returns(&mut self, bench: &Bench, conn: u8) {
        let message = self.message_of_segments(bench, conn, 17);
        self.then(Call::Send { conn, message });
        for _ in 0..17 {
            for call in [Call::Push(conn), Call::Down, Call::Consume(conn)] {
                self.then(call);
            }
        }
    }

    /// A close with pushes before and after it, most of the time of a connection
    /// that is open.
    fn plan_close(&mut self, bench: &Bench) {
        let conn = self.open_conn(bench);
        let message = self.message();
        self.then(Call::Send { conn, message });
        self.then_times(Call::Push(conn), 2);
        let high_bits = self.random.pick(&[0, 0, 0x10, 0xF0]);
        let close = self.command(CORE, CORE_CONN_CLOSE, &[conn | high_bits]);
        self.then(close);
        self.then(Call::Push(conn));
        if self.random.chance(80) {
            self.plan.push_back(Step::Settle);
        }
    }

    /// A reset in the middle of traffic.
    fn plan_reset_under_way(&mut self, bench: &Bench) {
        self.plan_traffic(bench);
        let conn = self.open_conn(bench);
        let message = self.message();
        self.then(Call::Send { conn, message });
        let reset = self.reset();
        self.then(reset);
        self.then(Call::Push(conn));
        self.then_times(Call::Down, 2);
        self.then_times(Call::Up, 2);
    }

    /// A close or a reset with messages in hand, one of them pushed in part perhaps;
    /// sends before its down, before its up, and after.
    fn plan_send_during_close(&mut self, bench: &Bench) {
        let conn = self.open_conn(bench);
        let pushes = self.random.below(3);
        let segments = pushes + 1 + self.random.below(3);
        let message = self.message_of_segments(bench, conn, segments);
        self.plan.push_back(Step::Settle);
        self.then(Call::Send { conn, message });
        self.then_times(Call::Push(conn), pushes);
        self.then_sends(bench, conn);
        let command = self.close_or_reset(bench, conn);
        self.then(command);
        self.then_perhaps(Call::Push(conn));
        self.then_sends(bench, conn);
        self.then_times(Call::Down, pushes + 1);
        self.then_sends(bench, conn);
        self.then(Call::Up);
        self.then_sends(bench, conn);
    }

    /// One or two sends: on this connection, on an open one, on any.
    fn then_sends(&mut self, bench: &Bench, conn: u8) {
        for _ in 0..1 + self.random.below(2) {
            let (open, any) = (self.open_conn(bench), self.conn());
            let conn = self.random.pick(&[conn, conn, open, open, any]);
            let message = self.message();
            self.then(Call::Send { conn, message });
        }
    }

    /// All moves, each a call of its own or by presses; then perhaps a press that makes none.
    fn plan_rest(&mut self) {
        if !self.runs || self.random.chance(30) {
            return self.plan.push_back(Step::Rest);
        }
        self.plan.push_back(Step::Press);
        self.then_perhaps(Call::Run);
    }

    /// Messages on the connections open at the host, or on all where more are opened first, and
    /// one of the endpoint perhaps: presses move them all.
    fn plan_presses(&mut self, bench: &Bench) {
        let more = self.random.chance(30);
        if more {
            self.plan_more_loopbacks();
        }
        for conn in CONN_IDS {
            if more || bench.host().connection(conn).is_some() {
                let segments = self.random.below(4);
                let message = self.message_of_segments(bench, conn, segments);
                self.then_perhaps(Call::Send { conn, message });
            }
        }
        let spoken = self.endpoint_message();
        self.then_perhaps(spoken);
        self.plan.push_back(Step::Press);
        self.then_perhaps(Call::Run);
    }

    /// The endpoint is released while data is on its way to it: a press drops what is late.
    fn plan_press_at_release(&mut self, bench: &Bench) {
        let message = self.message_of_segments(bench, STATIC_RF, 2);
        let release = self.command(RF, RF_DEACTIVATE, &[0]);
        self.then(release);
        self.then(Call::Send { conn: STATIC_RF, message });
        self.then(Call::Push(STATIC_RF));
        self.then(Call::Run);
    }

    fn plan_odd_command(&mut self, bench: &Bench) {
        let call = self.any_command(bench);
        self.then_command(call);
    }

    /// The next step from the RF state, or one that it does not take.
    fn plan_rf(&mut self, bench: &Bench) {
        match bench.controller().rf() {
            Rf::Idle => {
                let call = if self.random.chance(80) { self.discover() } else { self.bad_discover() };
                self.then_command(call);
            }
            Rf::Discovery => self.plan_discovery(),
            Rf::W4AllDiscoveries => self.plan_more_found(),
            Rf::W4HostSelect(selection) => self.plan_selection(bench, selection),
            Rf::PollActive(_) => self.plan_active(bench, &[8, 8, 8, 8, 5, 6]),
            Rf::ListenActive(_) => self.plan_active(bench, &[8, 8, 8, 8, 5, 6, 7]),
            Rf::ListenSleep => match self.random.below(6) {
                0..=2 => self.plan_activation(3, None),
                3 => self.then(Call::Air(vec![6])),
                _ => {
                    let call = self.deactivate();
                    self.then_command(call);
                }
            },
        }
    }

    /// Discovery and an activation in one go, from IDLE.
    fn plan_way_to_active(&mut self, bench: &Bench) {
        if bench.controller().rf() != Rf::Idle {
            return self.plan_rf(bench);
        }
        let discover = self.discover();
        self.then(discover);
        self.plan.push_back(Step::Settle);
        let kind = self.random.pick(&[2, 3]);
        self.plan_activation(kind, None);
    }

    fn plan_discovery(&mut self) {
        match self.random.below(10) {
            0..=2 => self.plan_found_series(),
            3..=5 => self.plan_activation(2, None),
            6..=8 => self.plan_activation(3, None),
            _ => {
                let call = self.deactivate();
                self.then_command(call);
            }
        }
    }

    /// From one to eight endpoints, and now and then an eighth with more to
    /// follow, which is not taken.
    fn plan_found_series(&mut self) {
        let first = 1 + self.random.below(200) as u8;
        let count = self.random.pick(&[1, 2, 3, 6, 7]);
        for place in 0..count {
            let pair = Pair { id: first + place, protocol: 4 };
            let octets = vec![1, pair.id, pair.protocol, 0, 2];
            self.then(Call::Air(octets));
            self.then_perhaps(Call::Up);
        }
        // a bench is in W4_ALL_DISCOVERIES for a short time, and is to meet sets and gets there
        if self.configs && self.random.chance(15) {
            let call = if self.random.chance(50) { self.set_config() } else { self.get_config() };
            self.then_command(call);
        }
        if count == 7 && self.random.chance(50) {
            self.then(Call::Air(vec![1, first + count, 4, 0, 2]));
        }
        let last_type = self.random.pick(&[0, 1]);
        self.then(Call::Air(vec![1, first + count, 4, 0, last_type]));
        self.plan.push_back(Step::Settle);
    }

    fn plan_more_found(&mut self) {
        let pair = if self.random.chance(60) { self.good_pair() } else { self.pair() };
        let notification_type = self.random.pick(&[0, 1, 2, 2, 2]);
        let call = self.found(pair, notification_type);
        self.then(call);
        if self.random.chance(10) {
            let call = self.deactivate();
            self.then_command(call);
        }
    }

    fn plan_selection(&mut self, bench: &Bench, selection: Option<Pair>) {
        match (self.random.below(10), selection) {
            (0..=5, Some(pair)) => self.plan_activation(2, Some(pair)),
            (6, Some(_)) => self.then(Call::Air(vec![4])),
            (7, _) => {
                let call = self.deactivate();
                self.then_command(call);
            }
            _ => {
                let call = self.select(bench);
                self.then_command(call);
            }
        }
    }

    /// Now and then first with a packet on a wire, which an activation does not
    /// allow.
    fn plan_activation(&mut self, kind: u8, pair: Option<Pair>) {
        let pair = match pair {
            Some(pair) if self.random.chance(90) => pair,
            _ => self.good_pair(),
        };
        let call = self.activation(kind, pair);
        if self.random.chance(20) {
            let close = self.command(CORE, CORE_CONN_CLOSE, &[15]);
            self.then(close);
            self.then_perhaps(Call::Down);
            self.then(call.clone());
        }
        self.plan.push_back(Step::Settle);
        self.then(call);
        if self.random.chance(85) {
            self.then(Call::Up);
        }
    }

    fn plan_active(&mut self, bench: &Bench, kinds: &[u8]) {
        if self.runs && self.random.chance(4) {
            return self.plan_press_at_release(bench);
        }
        let kind = self.random.pick(kinds);
        if self.random.chance(25) {
            let call = self.deactivate();
            return self.then_command(call);
        }
        if kind != 8 {
            return self.then(Call::Air(vec![kind]));
        }
        let call = self.endpoint_message();
        self.then(call);
        for _ in 0..1 + self.random.below(6) {
            self.then(Call::Reply);
            self.then_perhaps(Call::Up);
        }
        if self.random.chance(50) {
            self.plan_traffic(bench);
        }
    }
}

fn any_open(bench: &Bench) -> bool {
    CONN_IDS.iter().any(|conn| bench.controller().connection(*conn).is_some())
}

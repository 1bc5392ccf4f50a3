//! Steps by chance, from a seed.

use reference::{Action, GroupIndex, ProcessId, Step, System, View};

/// A small generator (xorshift).
pub struct Dice(u64);

/// How steps are mixed: how many of a hundred are reports, who hardly ever takes a message (process 0:
/// nobody), and one of how many steps is cut (0: none).
#[derive(Clone, Copy)]
pub struct Mix {
    pub reports: usize,
    pub slow: ProcessId,
    pub cuts: usize,
}

impl Dice {
    pub fn new(seed: u64) -> Dice {
        let mut dice = Dice(seed.wrapping_mul(0x9e37_79b9_7f4a_7c15) | 1);
        for _ in 0..8 {
            dice.roll(2);
        }
        dice
    }

    /// A number below `sides`.
    pub fn roll(&mut self, sides: usize) -> usize {
        self.0 ^= self.0 << 13;
        self.0 ^= self.0 >> 7;
        self.0 ^= self.0 << 17;
        ((self.0 >> 11) % sides as u64) as usize
    }

    pub fn byte(&mut self) -> u8 {
        self.roll(256) as u8
    }

    pub fn one_in(&mut self, sides: usize) -> bool {
        self.roll(sides) == 0
    }

    pub fn pick<T: Copy>(&mut self, from: &[T]) -> T {
        from[self.roll(from.len())]
    }

    /// One of n.
    pub fn one_of(&mut self, n: u8) -> ProcessId {
        ProcessId(1 + self.roll(n.into()) as u8)
    }

    /// Mostly one of n, now and then a stranger of one digit.
    fn process(&mut self, n: u8) -> ProcessId {
        match self.one_in(40) {
            true => ProcessId(self.roll(10) as u8),
            false => self.one_of(n),
        }
    }

    /// An index that can be proposed at.
    pub fn index(&mut self) -> GroupIndex {
        GroupIndex(2 + self.roll(31) as u8)
    }

    /// Some of n.
    pub fn some_of(&mut self, n: u8) -> View {
        View(self.byte() & View::first(n).0)
    }

    fn view(&mut self, n: u8, p: ProcessId) -> View {
        match self.roll(24) {
            0 => View(self.byte()),
            1..=8 => View::only(p),
            9..=16 => View::first(n),
            _ => self.some_of(n).with(p),
        }
    }

    pub fn mix(&mut self, n: u8) -> Mix {
        let slow = if self.one_in(2) { self.one_of(n) } else { ProcessId(0) };
        Mix { reports: self.pick(&[2, 8, 30]), slow, cuts: self.pick(&[0, 60, 12]) }
    }

    /// The action, whole, or now and then cut after a count that may be too high.
    pub fn cut(&mut self, action: Action, cuts: usize) -> Step {
        match cuts > 0 && self.one_in(cuts) {
            true => action.cut(self.pick(&[0, 0, 0, 1, 1, 2, 3, 4, 5, 6, 7, 8, 9])),
            false => action.into(),
        }
    }

    /// A step of any kind, all four alike often, some of them cut.
    pub fn any_step(&mut self, n: u8) -> Step {
        let action = self.any_action(n);
        self.cut(action, 4)
    }

    fn any_action(&mut self, n: u8) -> Action {
        let (p, q) = (self.process(n), self.process(n));
        match self.roll(4) {
            0 => Action::Report { p, view: self.view(n, p) },
            1 => Action::Receive { from: q, at: p },
            2 => Action::Respond { p, to: q },
            _ => Action::Crash { p },
        }
    }

    fn action(&mut self, n: u8, mix: Mix) -> Action {
        let (p, q) = (self.process(n), self.process(n));
        let roll = self.roll(100);
        if roll < mix.reports {
            Action::Report { p, view: self.view(n, p) }
        } else if roll < 70 && (p != mix.slow || self.one_in(12)) {
            Action::Receive { from: q, at: p }
        } else if self.one_in(150) {
            Action::Crash { p }
        } else if self.one_in(300) {
            Action::Crash { p: ProcessId(9 * self.roll(2) as u8) }
        } else {
            Action::Respond { p, to: q }
        }
    }

    /// A step that is likelier to be done: rolled again a few times while there is nothing for it.
    pub fn likely_step(&mut self, system: &System, mix: Mix) -> Step {
        let mut action = self.action(system.n, mix);
        for _ in 0..self.roll(8) {
            if something_there(system, action) {
                break;
            }
            action = self.action(system.n, mix);
        }
        self.cut(action, mix.cuts)
    }

    /// Steps from a fresh system that chance hardly ever makes. First q goes ahead alone. Then it
    /// fills its own line; or p, of a lower number, proposes a view of both again and again, and q
    /// answers at the end, with a Retry that may find the lines from p full; or q answers each, and
    /// the answers wait until their line is full.
    pub fn opening(&mut self, n: u8) -> Vec<Step> {
        let mut steps: Vec<Step> = self.opened(n).into_iter().map(Step::from).collect();
        // The last one may be cut: often it takes a Retry.
        if let Some(last) = steps.last_mut() {
            *last = self.cut(last.action, 3);
        }
        steps
    }

    fn opened(&mut self, n: u8) -> Vec<Action> {
        let q = self.one_of(n);
        let own = Action::Receive { from: q, at: q };
        let report = Action::Report { p: q, view: View::only(q) };
        let alone = [report, own, Action::Respond { p: q, to: q }, own, own];
        if q.0 == 1 || self.one_in(4) {
            return [alone.repeat(23), vec![report; 9]].concat();
        }
        let p = self.one_of(q.0 - 1);
        let others = if self.one_in(2) { self.some_of(n).0 >> p.0 << p.0 } else { 0 };
        let view = View(others).with(p).with(q);
        let propose = Action::Report { p, view };
        let take = Action::Receive { from: p, at: q };
        let answer = Action::Respond { p: q, to: p };
        let ahead = if self.one_in(4) { 31 } else { self.roll(31) };
        let mut steps = alone.repeat(ahead);
        // The others of the view doubt first, each alone, so that all of them may be trusted again.
        for r in view.without(q).members() {
            steps.push(Action::Report { p: r, view: View::only(r) });
            steps.push(Action::Receive { from: r, at: r });
        }
        steps.push(Action::Report { p: q, view });
        if self.one_in(2) {
            let times = self.pick(&[1, 2, 4, 8, 8]);
            steps.extend(vec![propose; times]);
            steps.extend(vec![take; times]);
            steps.extend([answer, Action::Receive { from: q, at: p }]);
        } else {
            steps.extend([propose, Action::Receive { from: p, at: p }, take, answer].repeat(9));
        }
        steps
    }
}

/// Is there a message to take, or a record to answer?
fn something_there(system: &System, action: Action) -> bool {
    let known = |p: ProcessId| (1..=system.n).contains(&p.0);
    match action {
        Action::Receive { from, at } => {
            known(from) && known(at) && !system.channel(from, at).is_empty()
        }
        Action::Respond { p, to } => {
            known(p) && known(to) && {
                let process = system.process(p);
                process.recorded(to).is_some_and(|proposal| proposal.view == process.view)
            }
        }
        _ => true,
    }
}

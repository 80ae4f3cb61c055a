//! One call made to a console and to the second implementation: result and every byte compared.

use std::fmt;

use crate::console::{Console, Places, SECOND};
use crate::framed::{salted, Framed, FramedParts, FramedPlaces};
use crate::refusal::{describe, Refusal};
use crate::replay::Loss;
use crate::sentences::Parts;
use crate::tally::Tally;

#[derive(Clone, Copy, Debug, PartialEq, Eq)]
pub enum Function<'a> {
    Judge,
    Plan,
    Replay(Option<Loss>),
    /// With the list of actual times.
    ReplayTimes(Option<Loss>, &'a [u8]),
    /// With the description.
    Ask(&'a [u8]),
    /// With the booking, and the length of the plan's output buffer.
    Commit(&'a [u8], usize),
    FaultSets,
    Trial,
    /// With the log.
    RunTimes(&'a [u8]),
    RenewJob(&'a [u8]),
    /// With number, first place and second place.
    Sentence(u32, u64, u64),
    /// With the text.
    ReadSentence(&'a [u8]),
}

impl<'a> Function<'a> {
    /// The description or the booking.
    fn entry(self) -> &'a [u8] {
        match self {
            Function::Ask(entry) | Function::Commit(entry, _) => entry,
            _ => &[],
        }
    }

    /// The list of actual times.
    fn times(self) -> &'a [u8] {
        if let Function::ReplayTimes(_, times) = self {
            times
        } else {
            &[]
        }
    }

    fn log(self) -> &'a [u8] {
        match self {
            Function::RunTimes(log) | Function::RenewJob(log) => log,
            _ => &[],
        }
    }

    /// What is read as a sentence.
    fn text(self) -> &'a [u8] {
        if let Function::ReadSentence(text) = self {
            text
        } else {
            &[]
        }
    }

    /// What is read beside job and plan.
    fn third(self) -> &'a [u8] {
        match self {
            Function::Ask(_) | Function::Commit(..) => self.entry(),
            Function::ReplayTimes(..) => self.times(),
            Function::ReadSentence(_) => self.text(),
            _ => self.log(),
        }
    }

    fn plan_room(self) -> usize {
        if let Function::Commit(_, room) = self {
            room
        } else {
            0
        }
    }
}

/// A call of the console; `room` is the length of the output buffer, in a commit the job's. Job and
/// plan are empty where the call has none.
#[derive(Clone, Copy)]
pub struct Call<'a> {
    pub function: Function<'a>,
    pub job: &'a [u8],
    pub plan: &'a [u8],
    pub room: usize,
}

impl fmt::Display for Call<'_> {
    fn fmt(&self, f: &mut fmt::Formatter) -> fmt::Result {
        let job = format!("job of {} bytes", self.job.len());
        let plan = format!("plan of {} bytes", self.plan.len());
        let entry = self.function.entry().len();
        let times = format!("list of {} bytes", self.function.times().len());
        let log = format!("log of {} bytes", self.function.log().len());
        let room = format!("buffer of {} bytes", self.room);
        match self.function {
            Function::Judge => write!(f, "judge({job}, {plan})"),
            Function::Plan => write!(f, "plan({job}, {room})"),
            Function::Replay(None) => write!(f, "replay({job}, {plan}, {room})"),
            Function::Replay(Some(Loss { group, moment })) => {
                write!(f, "replay_loss({job}, {plan}, group {group}, moment {moment}, {room})")
            }
            Function::ReplayTimes(None, _) => {
                write!(f, "replay_times({job}, {plan}, {times}, {room})")
            }
            Function::ReplayTimes(Some(Loss { group, moment }), _) => {
                write!(f, "replay_times_loss({job}, {plan}, group {group}, moment {moment}, ")?;
                write!(f, "{times}, {room})")
            }
            Function::Ask(_) => write!(f, "ask({job}, {plan}, task of {entry} bytes)"),
            Function::Commit(_, plan_room) => {
                write!(f, "commit({job}, {plan}, booking of {entry} bytes, {room}, ")?;
                write!(f, "buffer of {plan_room} bytes)")
            }
            Function::FaultSets => write!(f, "fault_sets({job}, {plan}, {room})"),
            Function::Trial => write!(f, "trial({job}, {plan})"),
            Function::RunTimes(_) => write!(f, "run_times({job}, {log}, {room})"),
            Function::RenewJob(_) => write!(f, "renew_job({job}, {log}, {room})"),
            Function::Sentence(number, first, second) => {
                write!(f, "sentence({number}, {first}, {second}, {room})")
            }
            Function::ReadSentence(text) => {
                write!(f, "read_sentence(\"{}\", {} bytes)", text.escape_ascii(), text.len())
            }
        }
    }
}

/// What went wrong, with the files that show it again.
#[derive(Debug)]
pub struct Mismatch {
    pub text: String,
    pub job: Vec<u8>,
    pub plan: Vec<u8>,
    /// The description or the booking; empty if the call has none.
    pub entry: Vec<u8>,
    /// The list of actual times; empty if the call has none.
    pub times: Vec<u8>,
    /// The log; empty if the call has none.
    pub log: Vec<u8>,
    /// What was read as a sentence; empty if nothing was.
    pub sentence: Vec<u8>,
}

impl Mismatch {
    pub fn new(call: &Call, text: String) -> Mismatch {
        Mismatch {
            text: format!("{call}: {text}"),
            job: call.job.to_vec(),
            plan: call.plan.to_vec(),
            entry: call.function.entry().to_vec(),
            times: call.function.times().to_vec(),
            log: call.function.log().to_vec(),
            sentence: call.function.text().to_vec(),
        }
    }
}

/// The console under test and what came of it so far.
pub struct Trial {
    pub console: Console,
    pub tally: Tally,
    calls: usize,
    job: Framed,
    plan: Framed,
    third: Framed,
    out: Framed,
    out_plan: Framed,
    places: FramedPlaces,
    parts: FramedParts,
    expected: Vec<u8>,
    expected_plan: Vec<u8>,
    expected_places: FramedPlaces,
    expected_parts: FramedParts,
}

impl Trial {
    pub fn new(console: Console) -> Trial {
        Trial {
            console,
            tally: Tally::default(),
            calls: 0,
            job: Framed::default(),
            plan: Framed::default(),
            third: Framed::default(),
            out: Framed::default(),
            out_plan: Framed::default(),
            places: FramedPlaces::new(0),
            parts: FramedParts::new(0),
            expected: Vec::new(),
            expected_plan: Vec::new(),
            expected_places: FramedPlaces::new(0),
            expected_parts: FramedParts::new(0),
        }
    }

    /// Makes the call on both sides. Answers the common result, or the first difference.
    pub fn compare(&mut self, call: &Call) -> Result<u64, Mismatch> {
        self.lay(call);
        let got = self.call(call.function);
        let expected = self.expect(call);
        if got != expected {
            let (got, expected) = (describe(got), describe(expected));
            return Err(Mismatch::new(call, format!("answered {got}, expected {expected}")));
        }
        if let Some(text) = self.buffer_fault(call) {
            return Err(Mismatch::new(call, text));
        }
        self.tally.count(call.function, got);
        Ok(got)
    }

    /// Makes a call that has to be refused so, on both sides.
    pub fn refuse(&mut self, call: &Call, refusal: Refusal) -> Result<(), Mismatch> {
        if self.compare(call)? != refusal.code() {
            let text = format!("not refused as it should be, {}", describe(refusal.code()));
            return Err(Mismatch::new(call, text));
        }
        Ok(())
    }

    /// What the last call left in the output buffer, in a commit the job's.
    pub fn written(&self) -> &[u8] {
        &self.expected
    }

    /// What the last commit left in the plan's output buffer.
    pub fn written_plan(&self) -> &[u8] {
        &self.expected_plan
    }

    /// What the last ask left in its four numbers.
    pub fn written_places(&mut self) -> Places {
        *self.expected_places.inside()
    }

    /// What the last reading of a sentence left in its three numbers.
    pub fn written_parts(&mut self) -> Parts {
        *self.expected_parts.inside()
    }

    /// Lays the inputs out, and the same pattern in the output buffers of both sides: another at
    /// each call, so that no byte written is missed for good.
    fn lay(&mut self, call: &Call) {
        self.calls += 1;
        let salt = self.calls.wrapping_mul(89);
        let pattern = |room: usize| (0..room).map(|at| (at.wrapping_mul(37) ^ salt) as u8);
        self.expected.clear();
        self.expected.extend(pattern(call.room));
        self.expected_plan.clear();
        self.expected_plan.extend(pattern(call.function.plan_room()));
        let (place, part) = (salted(salt) as u32, salted(salt));
        self.expected_places = FramedPlaces::new(place);
        self.expected_parts = FramedParts::new(part);
        self.job.lay(call.job, self.calls);
        self.plan.lay(call.plan, self.calls / 8);
        self.third.lay(call.function.third(), self.calls / 16);
        self.out.lay(&self.expected, self.calls / 64);
        self.out_plan.lay(&self.expected_plan, self.calls / 32);
        self.places = FramedPlaces::new(place);
        self.parts = FramedParts::new(part);
    }

    fn call(&mut self, function: Function) -> u64 {
        let inputs = [self.job.inside(), self.plan.inside(), self.third.inside()];
        let outputs = Outputs {
            first: self.out.inside(),
            second: self.out_plan.inside(),
            places: self.places.inside(),
            parts: self.parts.inside(),
        };
        make(&self.console, function, inputs.map(|input| &*input), outputs)
    }

    fn expect(&mut self, call: &Call) -> u64 {
        let outputs = Outputs {
            first: &mut self.expected,
            second: &mut self.expected_plan,
            places: self.expected_places.inside(),
            parts: self.expected_parts.inside(),
        };
        make(&SECOND, call.function, [call.job, call.plan, call.function.third()], outputs)
    }

    fn buffer_fault(&self, call: &Call) -> Option<String> {
        let inputs = [
            (&self.job, call.job, "job"),
            (&self.plan, call.plan, "plan"),
            (&self.third, call.function.third(), "description, booking, list, log or text"),
        ];
        if let Some((.., name)) = inputs.iter().find(|(frame, content, _)| !frame.holds(content)) {
            return Some(format!("changed the {name} or bytes beside it"));
        }
        let first = self.out.fault(&self.expected, "output buffer");
        let second = || self.out_plan.fault(&self.expected_plan, "plan's output buffer");
        let third = || self.places.fault(&self.expected_places, "places");
        let fourth = || self.parts.fault(&self.expected_parts, "parts");
        first.or_else(second).or_else(third).or_else(fourth)
    }
}

/// What a call may write to.
struct Outputs<'a> {
    first: &'a mut [u8],
    second: &'a mut [u8],
    places: &'a mut Places,
    parts: &'a mut Parts,
}

fn make(console: &Console, function: Function, inputs: [&[u8]; 3], outputs: Outputs) -> u64 {
    let [job, plan, third] = inputs;
    let Outputs { first, second, places, parts } = outputs;
    match function {
        Function::Judge => (console.judge)(job, plan),
        Function::Plan => (console.plan)(job, first),
        Function::Replay(loss) => (console.replay)(job, plan, loss, first),
        Function::ReplayTimes(loss, _) => (console.replay_times)(job, plan, loss, third, first),
        Function::Ask(_) => (console.ask)(job, plan, third, places),
        Function::Commit(..) => (console.commit)(job, plan, third, first, second),
        Function::FaultSets => (console.fault_sets)(job, plan, first),
        Function::Trial => (console.trial)(job, plan),
        Function::RunTimes(_) => (console.run_times)(job, third, first),
        Function::RenewJob(_) => (console.renew_job)(job, third, first),
        Function::Sentence(number, one, two) => (console.sentence)(number, one, two, first),
        Function::ReadSentence(_) => (console.read_sentence)(third, parts),
    }
}

//! A system, and what can be done with it.

use crate::layout::{ENTRIES, HISTORY, PROCESS, PROCESSES};
use crate::message::Channel;
use crate::process::Process;
use crate::raw;
use crate::refusal::{Answer, Refusal};
use crate::settling::{Ending, Settling};
use crate::step::Step;
use crate::view::{GroupIndex, ProcessId, View};
use crate::IMAGE;
#[cfg(feature = "alloc")]
use alloc::vec::Vec;
use core::error::Error;
use core::fmt::{self, Debug, Display, Formatter};
use core::hash::{Hash, Hasher};

/// Up to eight processes and the channels between them (the papers: table).
///
/// Two systems are equal, and have the same hash, if [`n`](System::n), [`processes`](System::processes)
/// and [`channels`](System::channels) tell the same of both. Bytes of an image that mean nothing, such
/// as those past a channel's length or past process n, may differ: docs/IMAGE.md. To compare all bytes,
/// compare the images.
///
/// ```
/// use lobstercreel::System;
///
/// let system = System::fresh(2).unwrap();
/// let mut image = *system.image();
/// // A slot of the channel from 1 to 1, in which nothing waits.
/// image[497] = 77;
/// assert_eq!(System::from_image(image), system);
/// // How many messages wait there.
/// image[497 + 24] = 1;
/// assert_ne!(System::from_image(image), system);
/// ```
#[derive(Clone)]
pub struct System {
    image: [u8; IMAGE],
}

impl System {
    /// The fresh system of n processes, 1 to 8. For another n the error has the refusal, and the system
    /// of no processes.
    ///
    /// ```
    /// use lobstercreel::{Action, ProcessId, Refusal, System};
    ///
    /// assert_eq!(System::fresh(8).map(|system| system.n()), Ok(8));
    ///
    /// let wrong = System::fresh(9).unwrap_err();
    /// assert_eq!(wrong.refusal(), Refusal::Stranger);
    /// let mut none = wrong.system();
    /// assert_eq!(none.n(), 0);
    /// assert_eq!(none.perform(Action::Crash { p: ProcessId(1) }), Err(Refusal::Unsound));
    /// ```
    pub fn fresh(n: u8) -> Result<System, WrongSize> {
        let mut system = System { image: [0; IMAGE] };
        match system.renew(n) {
            Ok(()) => Ok(system),
            Err(_) => Err(WrongSize { n }),
        }
    }

    /// Makes it the fresh system of n processes. For an n that is not 1 to 8 it becomes the system of
    /// no processes, and the answer is [`Refusal::Stranger`].
    pub fn renew(&mut self, n: u8) -> Answer {
        Refusal::answer(raw::fresh(&mut self.image, n))
    }

    /// The system that an image holds, which may be any bytes.
    pub const fn from_image(image: [u8; IMAGE]) -> System {
        System { image }
    }

    /// Its image.
    pub const fn image(&self) -> &[u8; IMAGE] {
        &self.image
    }

    /// Does a step, or refuses it and changes nothing.
    pub fn perform(&mut self, step: impl Into<Step>) -> Answer {
        Refusal::answer(raw::perform(&mut self.image, step))
    }

    /// Does steps one after the other, each of them refused or not, and writes their answers: as many
    /// steps as there are answers. Tells how many.
    pub fn perform_into(&mut self, steps: &[Step], answers: &mut [Answer]) -> usize {
        const AT_ONCE: usize = 32;
        let count = steps.len().min(answers.len());
        let parts = steps[..count].chunks(AT_ONCE);
        for (steps, answers) in parts.zip(answers[..count].chunks_mut(AT_ONCE)) {
            let (mut list, mut numbers) = ([[0; 4]; AT_ONCE], [0; AT_ONCE]);
            list.iter_mut().zip(steps).for_each(|(bytes, step)| *bytes = step.to_bytes());
            // As many steps are done as there are places.
            raw::steps(&mut self.image, list.as_flattened(), &mut numbers[..steps.len()]);
            answers.iter_mut().zip(numbers).for_each(|(a, number)| *a = Refusal::answer(number));
        }
        count
    }

    /// The same, with an answer for each step.
    ///
    /// ```
    /// use lobstercreel::{Action, ProcessId, Refusal, System};
    ///
    /// let crash = Action::Crash { p: ProcessId(1) }.whole();
    /// let mut system = System::fresh(2).unwrap();
    /// assert_eq!(system.perform_all(&[crash, crash]), [Ok(()), Err(Refusal::Crashed)]);
    /// ```
    #[cfg(feature = "alloc")]
    pub fn perform_all(&mut self, steps: &[Step]) -> Vec<Answer> {
        // One call for all of them: soundness is tested once.
        let list: Vec<u8> = steps.iter().flat_map(|step| step.to_bytes()).collect();
        let mut numbers = alloc::vec![0; steps.len()];
        raw::steps(&mut self.image, &list, &mut numbers);
        numbers.into_iter().map(Refusal::answer).collect()
    }

    /// The settling run: receives and responses in rounds, until a whole round does nothing.
    pub fn settle(&mut self) -> Result<Settling, Refusal> {
        let mut told = [0; 2];
        Refusal::answer(raw::settle(&mut self.image, &mut told))?;
        let [steps, ending] = told;
        Ok(Settling { steps, ending: Ending::of_number(ending) })
    }

    /// Is it sound? If it is not, each step is refused with [`Refusal::Unsound`]. The library is asked
    /// with a copy of the image.
    pub fn is_sound(&self) -> bool {
        // Soundness is tested first, and process 0 is a stranger, so that nothing is done.
        raw::crash(&mut self.image.clone(), 0) == Refusal::Stranger.number()
    }

    /// How many processes it says it has. In a damaged image it may be any number.
    pub const fn n(&self) -> u8 {
        self.image[0]
    }

    /// Its processes: 1 to n, and all eight if n is more.
    pub const fn everyone(&self) -> View {
        View::first(self.n())
    }

    /// Process p, if it is one of the system's.
    pub fn process(&self, p: ProcessId) -> Option<Process> {
        self.everyone().contains(p).then(|| Process::read(&self.image, p, self.everyone()))
    }

    /// The processes, rising.
    pub fn processes(&self) -> impl ExactSizeIterator<Item = Process> + DoubleEndedIterator + '_ {
        self.everyone().iter().map(|p| Process::read(&self.image, p, self.everyone()))
    }

    /// The entry of process p at index i, if it is written.
    pub fn entry(&self, p: ProcessId, i: GroupIndex) -> Option<View> {
        let there = (1..=self.n().min(8)).contains(&p.0) && (1..=HISTORY as u8).contains(&i.0);
        let at = || PROCESSES + PROCESS * (usize::from(p.0) - 1) + ENTRIES + usize::from(i.0) - 1;
        there.then(|| View::from_bits(self.image[at()])).filter(|view| !view.is_empty())
    }

    /// The channel from one process to another or to itself, if both are the system's.
    pub fn channel(&self, from: ProcessId, at: ProcessId) -> Option<Channel> {
        let known = self.everyone().contains(from) && self.everyone().contains(at);
        known.then(|| Channel::read(&self.image, from, at))
    }

    /// The channels, by rising sender and then receiver.
    pub fn channels(&self) -> impl DoubleEndedIterator<Item = Channel> + '_ {
        let everyone = self.everyone();
        let from = move |q| everyone.iter().map(move |p| Channel::read(&self.image, q, p));
        everyone.iter().flat_map(from)
    }
}

impl PartialEq for System {
    fn eq(&self, other: &System) -> bool {
        self.image == other.image
            || (self.n() == other.n()
                && self.processes().eq(other.processes())
                && self.channels().eq(other.channels()))
    }
}

impl Eq for System {}

impl Hash for System {
    fn hash<H: Hasher>(&self, state: &mut H) {
        self.n().hash(state);
        self.processes().for_each(|process| process.hash(state));
        self.channels().for_each(|channel| channel.hash(state));
    }
}

/// Channels in which nothing waits are left out.
impl Debug for System {
    fn fmt(&self, f: &mut Formatter<'_>) -> fmt::Result {
        f.debug_struct("System")
            .field("n", &self.n())
            .field("processes", &Processes(self))
            .field("channels", &Waiting(self))
            .finish()
    }
}

struct Processes<'a>(&'a System);

impl Debug for Processes<'_> {
    fn fmt(&self, f: &mut Formatter<'_>) -> fmt::Result {
        f.debug_list().entries(self.0.processes()).finish()
    }
}

struct Waiting<'a>(&'a System);

impl Debug for Waiting<'_> {
    fn fmt(&self, f: &mut Formatter<'_>) -> fmt::Result {
        f.debug_list().entries(self.0.channels().filter(|channel| channel.length() > 0)).finish()
    }
}

impl From<[u8; IMAGE]> for System {
    fn from(image: [u8; IMAGE]) -> System {
        System::from_image(image)
    }
}

impl From<System> for [u8; IMAGE] {
    fn from(system: System) -> [u8; IMAGE] {
        system.image
    }
}

/// Bytes of another length than [`IMAGE`] hold no system: [`Refusal::Unsound`].
impl TryFrom<&[u8]> for System {
    type Error = Refusal;

    fn try_from(bytes: &[u8]) -> Result<System, Refusal> {
        bytes.try_into().map(System::from_image).map_err(|_| Refusal::Unsound)
    }
}

/// There is no fresh system of this size ([`System::fresh`]).
#[derive(Clone, Copy, Debug, PartialEq, Eq, Hash)]
pub struct WrongSize {
    n: u8,
}

impl WrongSize {
    /// The size that was wanted.
    pub const fn n(self) -> u8 {
        self.n
    }

    /// [`Refusal::Stranger`].
    pub const fn refusal(self) -> Refusal {
        Refusal::Stranger
    }

    /// What is given instead: the system of no processes.
    pub fn system(self) -> System {
        let mut system = System { image: [0; IMAGE] };
        let _ = system.renew(self.n);
        system
    }
}

impl Display for WrongSize {
    fn fmt(&self, f: &mut Formatter<'_>) -> fmt::Result {
        write!(f, "a fresh system has 1 to 8 processes, not {}", self.n)
    }
}

impl Error for WrongSize {
    fn source(&self) -> Option<&(dyn Error + 'static)> {
        Some(&Refusal::Stranger)
    }
}

impl From<WrongSize> for Refusal {
    fn from(wrong: WrongSize) -> Refusal {
        wrong.refusal()
    }
}

//! Two threads on two cores, each driving half of the processes on one shared
//! table under a lock for each call; one of them withdraws in a race with the
//! other's commits. The recorded history is then checked against model and book,
//! every collected message against what was sent, and every offer for its end.

use crate::draw;
use crate::follow::{told, Follow};
use crate::ledger::{self, Ends, History};
use crate::library::{Library, Start};
use crate::naps::{Naps, WITHIN};
use crate::part::{Budget, Finding, Verdict};
use crate::random::Random;
use crate::wire::Table;
use model::{Action, Call, Given, Guard, Message, Withdrawal};
use std::sync::atomic::{AtomicBool, Ordering};
use std::sync::{Mutex, MutexGuard, TryLockError};
use std::thread;
use std::time::{Duration, Instant};

/// How long the threads run before a history is checked.
const ROUND: Duration = Duration::from_millis(400);

/// The thread that withdraws.
const WITHDRAWING: usize = 1;

/// The numbers of processes and the nap lengths of one round after the other.
const NUMBERS: [usize; 5] = [2, 3, 4, 8, 32];
const NAPS: [u8; 4] = [1, 2, draw::LONGEST_NAP, 3];

/// With more processes than these, it would take long to sleep the longest naps
/// through.
const MOST_WITH_LONGEST_NAPS: usize = 4;

struct Shared {
    table: Table,
    history: History,
    /// How often the thread that called was another than the time before.
    switches: u64,
    last: usize,
}

/// The lock that a thread holds for each of its calls.
struct Lock {
    shared: Mutex<Shared>,
    /// Which thread waits for the lock, or is about to.
    waiting: [AtomicBool; 2],
}

impl Lock {
    /// Waits for the lock without sleeping, so that the threads take turns
    /// often. A poisoned lock still has the history that shows why.
    fn enter(&self, thread: usize) -> MutexGuard<'_, Shared> {
        self.waiting[thread].store(true, Ordering::Relaxed);
        let shared = loop {
            match self.shared.try_lock() {
                Ok(shared) => break shared,
                Err(TryLockError::Poisoned(poisoned)) => break poisoned.into_inner(),
                Err(TryLockError::WouldBlock) => thread::yield_now(),
            }
        };
        self.waiting[thread].store(false, Ordering::Relaxed);
        shared
    }

    /// Lets the other thread go first if it waits: a lock alone is mostly taken
    /// again by the one who had it.
    fn make_way(&self, thread: usize) {
        for _ in 0..100 {
            if !self.waiting[1 - thread].load(Ordering::Relaxed) {
                return;
            }
            thread::yield_now();
        }
    }
}

impl Shared {
    fn call(&mut self, library: &dyn Library, call: Call, thread: usize) -> Result<Given, u8> {
        let reply = library.call(&self.table, &call);
        self.table = reply.table;
        self.history.push((call, reply.answer));
        self.switches += u64::from(self.last != thread);
        self.last = thread;
        reply.answer
    }
}

#[derive(Default)]
struct Sums {
    calls: usize,
    switches: u64,
    messages: usize,
    withdrawn: usize,
    late: usize,
    open: usize,
    /// Whether some naps had more than one step.
    long_naps: bool,
    naps: Naps,
}

pub fn run(library: &dyn Library, budget: Budget) -> Verdict {
    let mut sums = Sums::default();
    for seed in budget.seeds() {
        let start = start(seed);
        let found = |text| Finding::new(seed, text);
        let mut shared = round(library, start, seed).map_err(found)?;
        finish(library, start.n, &mut shared).map_err(found)?;
        let ends = check(library, start, &shared, &mut sums.naps).map_err(found)?;
        sums.note(&shared, &ends);
        sums.long_naps |= start.nap > 1;
    }
    match sums.missed() {
        Some(text) => Err(Finding::new(budget.seed, text)),
        None => Ok(sums.told()),
    }
}

fn start(seed: u64) -> Start {
    let n = NUMBERS[(seed % NUMBERS.len() as u64) as usize];
    let nap = NAPS[(seed % NAPS.len() as u64) as usize];
    match n > MOST_WITH_LONGEST_NAPS && nap == draw::LONGEST_NAP {
        true => Start { n, nap: 4 },
        false => Start { n, nap },
    }
}

impl Sums {
    fn note(&mut self, shared: &Shared, ends: &Ends) {
        self.calls += shared.history.len();
        self.switches += shared.switches;
        self.messages += ends.messages;
        self.withdrawn += ends.withdrawn;
        self.late += ends.late;
        self.open += ends.open.len();
    }

    /// What has to happen in a race, and did not. How many withdrawals come too
    /// late is the scheduler's: few, where one thread keeps its core for long.
    fn missed(&self) -> Option<String> {
        match self {
            Sums { switches: 0, .. } => Some("the two threads never took turns".to_string()),
            Sums { withdrawn: 0, .. } => Some("no offer was withdrawn".to_string()),
            _ if self.long_naps => self.naps.missed(&[WITHIN]),
            _ => None,
        }
    }

    fn told(&self) -> String {
        format!(
            "stress: {} calls of two threads, {} turns between them, {} messages, none lost and none twice; \
             of {} offers each one met, was withdrawn ({}) or stayed open ({}), {} withdrawals too late; {}",
            self.calls,
            self.switches,
            self.messages,
            2 * self.messages + self.withdrawn + self.open,
            self.withdrawn,
            self.open,
            self.late,
            self.naps.told()
        )
    }
}

/// Two threads for a while.
fn round(library: &dyn Library, start: Start, seed: u64) -> Result<Shared, String> {
    let lock = Lock {
        shared: Mutex::new(Shared {
            table: start.table(library)?,
            history: Vec::new(),
            switches: 0,
            last: 0,
        }),
        waiting: [AtomicBool::new(false), AtomicBool::new(false)],
    };
    let end = Instant::now() + ROUND;
    thread::scope(|scope| {
        for thread in 0..2 {
            let mut half = Half::new(thread, start.n, seed);
            let lock = &lock;
            scope.spawn(move || half.drive(library, lock, end));
        }
    });
    lock.shared
        .into_inner()
        .map_err(|_| "a thread ended in the middle of a call".to_string())
}

/// The processes of one thread: the even or the odd ones.
struct Half {
    thread: usize,
    n: usize,
    /// Whether guards have other ranks than 0.
    ranked: bool,
    random: Random,
    /// The letter of each process's place, as far as its own calls told it.
    letters: Vec<char>,
    messages: u32,
}

impl Half {
    fn new(thread: usize, n: usize, seed: u64) -> Half {
        Half {
            thread,
            n,
            ranked: !seed.is_multiple_of(3),
            random: Random::new(seed.wrapping_mul(2).wrapping_add(thread as u64)),
            letters: vec!['I'; n],
            messages: thread as u32,
        }
    }

    fn drive(&mut self, library: &dyn Library, lock: &Lock, end: Instant) {
        while Instant::now() < end {
            let (party, call) = self.next_call();
            let answer = lock.enter(self.thread).call(library, call, self.thread);
            match answer {
                Ok(Given::Ticket(_)) => self.letters[party] = 'E',
                Ok(Given::Place(Some(place))) => self.letters[party] = place.letter,
                Ok(Given::Outcome(_) | Given::Withdrawal(Withdrawal::Withdrawn)) => {
                    self.letters[party] = 'I'
                }
                _ => {}
            }
            if self.random.one_in(2) {
                lock.make_way(self.thread);
            }
        }
    }

    fn next_call(&mut self) -> (usize, Call) {
        let half = (self.n - self.thread).div_ceil(2);
        let party = self.thread + 2 * self.random.below(half);
        let call = match (self.letters[party], self.random.below(10)) {
            ('I', 0..=8) | (_, 0) => self.offer(party),
            ('M', 1..=7) | (_, 1) => Call::Collect { party },
            ('W', 2..=4) | (_, 2) if self.thread == WITHDRAWING => Call::Withdraw { party },
            _ => Call::Step { party },
        };
        (party, call)
    }

    /// An offer whose messages are all different from all others.
    fn offer(&mut self, party: usize) -> Call {
        let mut guards = draw::sociable_list(&mut self.random, party, self.n);
        for guard in &mut guards {
            self.mark(guard);
        }
        let mut call = Call::Offer { party, guards };
        if !self.ranked {
            draw::forget_ranks(&mut call);
        }
        call
    }

    fn mark(&mut self, guard: &mut Guard) {
        if !guard.sends() {
            return;
        }
        // One thread has the even numbers and the other the odd ones.
        self.messages += 2;
        let bits = self.messages;
        let float = f32::from_bits(bits);
        guard.action = Action::Send(match self.random.below(3) {
            0 => Message::Whole(bits as i32),
            1 => Message::Reading(float),
            _ => Message::Limit {
                low: -float,
                high: float,
            },
        });
    }
}

/// Steps and collects in rounds, in number order, until nothing is left to do, so
/// that whatever met is also collected. Such rounds come to rest.
fn finish(library: &dyn Library, n: usize, shared: &mut Shared) -> Result<(), String> {
    for _ in 0..100_000 {
        let mut busy = false;
        for party in 0..n {
            let stepped = shared.call(library, Call::Step { party }, 0);
            busy |= matches!(stepped, Ok(Given::Place(Some(_))));
            busy |= shared.call(library, Call::Collect { party }, 0).is_ok();
        }
        if !busy {
            return Ok(());
        }
    }
    Err("the table does not come to rest".to_string())
}

/// Goes through the history again beside model and book, then by its answers
/// alone. What the answers leave open is what the book has open.
fn check(
    library: &dyn Library,
    start: Start,
    shared: &Shared,
    naps: &mut Naps,
) -> Result<Ends, String> {
    let mut follow = Follow::new(library, start)?;
    for (at, (call, answer)) in shared.history.iter().enumerate() {
        naps.note(&follow.desk, call);
        let again = follow.call(library, call);
        if again.as_ref() != Ok(answer) {
            let calls: Vec<Call> = shared.history[..=at]
                .iter()
                .map(|(call, _)| call.clone())
                .collect();
            let text = format!("call {at} answered {answer:?} to a thread, and now {again:?}");
            return Err(told(library, start, &calls, &text));
        }
    }
    if follow.table != shared.table {
        return Err("the shared table is not the one that its history makes".to_string());
    }
    follow.run_is_whole()?;
    let ends = ledger::check(&shared.history)?;
    let open = follow.book.open_offers();
    match ends.open.iter().eq(open.iter().map(|offer| &offer.party)) {
        true => Ok(ends),
        false => Err("an offer ended that is open, or the reverse".to_string()),
    }
}

#[cfg(test)]
mod tests {
    use super::*;
    use crate::library::Modelled;

    #[test]
    fn the_model_stands_the_stress() {
        let budget = Budget {
            seed: 1,
            time: Duration::from_secs(3),
        };
        let summary = run(&Modelled, budget).map_err(|finding| finding.text);
        assert!(summary.is_ok_and(|line| !line.contains(" 0 messages")));
    }
}

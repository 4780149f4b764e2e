//! The comparisons: random texts through the built desk, random calls through the static libraries, each beside this
//! program's own answer.

pub mod caller;
pub mod calls;
pub mod helps;
pub mod listings;
pub mod months;
pub mod openings;
pub mod plans;
pub mod questions;
pub mod random;
pub mod readings;
pub mod reductions;
pub mod serving;
pub mod solutions;
pub mod spacing;
pub mod tables;
pub mod texts;
pub mod walks;

use self::caller::{difference, expected, sent, Call, Numbers};
use self::random::Random;
use self::texts::random_text;
use crate::desk::{desk, is_printed, longest_with_any_flow};
use crate::refusal::Name;
use std::collections::BTreeMap;
use std::io::{Read, Write};
use std::process::{Child, ChildStdin, ChildStdout, Command, Stdio};
use std::thread;

/// How many cases, from which seed, and the words of the command that is compared with.
#[derive(Clone)]
pub struct Comparison {
    pub count: u64,
    pub seed: u64,
    pub command: Vec<String>,
}

/// From so many cases on, a comparison must have seen all that it is for.
pub const ENOUGH: u64 = 3_000;

/// Every so many texts, one is compared with its twin of other separators.
const TWINS_EVERY: u64 = 8;

/// What was seen: how often each thing came, and the cases that differed.
#[derive(Default)]
pub struct Seen {
    pub times: BTreeMap<String, u64>,
    pub differing: Vec<u64>,
}

impl Seen {
    /// Counts a thing that was seen.
    fn count(&mut self, thing: String) {
        *self.times.entry(thing).or_insert(0) += 1;
    }

    /// Counts things that were seen.
    fn count_all(&mut self, things: impl IntoIterator<Item = String>) {
        for thing in things {
            self.count(thing);
        }
    }

    /// Takes over what another part of the comparison saw.
    fn join(&mut self, other: Seen) {
        for (thing, times) in other.times {
            *self.times.entry(thing).or_insert(0) += times;
        }
        self.differing.extend(other.differing);
    }
}

/// Starts the command with its input and output held by us.
fn started(command: &[String]) -> Child {
    Command::new(&command[0])
        .args(&command[1..])
        .stdin(Stdio::piped())
        .stdout(Stdio::piped())
        .spawn()
        .unwrap_or_else(|error| panic!("{}: {error}", command[0]))
}

/// What the command prints for this standard input, or that it ended badly. It may end before it has read all.
fn printed(command: &[String], input: &[u8]) -> Vec<u8> {
    let mut child = started(command);
    let mut stdin = child.stdin.take().expect("its input is ours");
    let _ = stdin.write_all(input);
    drop(stdin);
    let output = child.wait_with_output().expect("its output is ours");
    if !output.status.success() {
        return format!("ended by {}", output.status).into_bytes();
    }
    output.stdout
}

/// How an answer ended: `solved` or, of a refusal, its name.
pub fn outcome(answer: &[u8]) -> String {
    let line = answer.split(|byte| *byte == b'\n').next().unwrap_or_default();
    let line = String::from_utf8_lossy(line);
    match line.strip_prefix("refusal=") {
        Some(name) => name.to_string(),
        None => "solved".to_string(),
    }
}

/// Tells that what the desk prints for a text differs from what it must print.
fn tell_difference(what: &str, ours: &[u8], theirs: &[u8]) {
    println!("{what} differs:");
    println!("-- the judge:\n{}", String::from_utf8_lossy(ours));
    println!("-- the desk:\n{}", String::from_utf8_lossy(theirs));
}

/// Compares one text.
fn compare_text(comparison: &Comparison, index: u64, seen: &mut Seen) {
    let (text, brought) = random_text(comparison.seed, index);
    let ours = desk(&text);
    let theirs = printed(&comparison.command, &text);
    if !is_printed(&theirs, &text) {
        seen.differing.push(index);
        tell_difference(&format!("text {index} at seed {}", comparison.seed), &ours, &theirs);
    }
    let outcome = outcome(&ours);
    if outcome == "solved" {
        seen.count_all(spacing::runs_met(&text));
        seen.count_all(brought_by_minimums(&text, &ours));
    }
    seen.count(outcome);
    seen.count(format!("of {} bytes", length_class(text.len())));
    seen.count_all(brought);
    if index % TWINS_EVERY == 0 {
        compare_twin(comparison, index, &text, &theirs, seen);
    }
}

/// What the minimums of a solved text bring.
fn brought_by_minimums(text: &[u8], ours: &[u8]) -> Vec<String> {
    let mut things = Vec::new();
    if longest_with_any_flow(text).is_some() {
        things.push("solved with minimums".to_string());
    }
    if ours.windows(7).any(|bytes| bytes == b"value=-") {
        things.push("value below 0".to_string());
    }
    things
}

/// Compares what the desk printed for a text with what it prints for the text with other separators.
fn compare_twin(comparison: &Comparison, index: u64, text: &[u8], theirs: &[u8], seen: &mut Seen) {
    let random = &mut Random::of_case(!comparison.seed, index);
    let Some(twin) = spacing::twin(random, text) else {
        return;
    };
    let of_twin = printed(&comparison.command, &twin);
    if of_twin != theirs || !is_printed(&of_twin, &twin) {
        seen.differing.push(index);
        tell_difference(
            &format!("the twin of text {index} at seed {}", comparison.seed),
            theirs,
            &of_twin,
        );
    }
    let form = if spacing::is_old_form(text) { "old" } else { "new" };
    seen.count(format!("twin of the {form} form: {}", outcome(theirs)));
}

/// Compares every `step`-th text from `first` on.
fn compare_some_texts(comparison: &Comparison, first: u64, step: u64) -> Seen {
    let mut seen = Seen::default();
    for index in (first..comparison.count).step_by(step as usize) {
        compare_text(comparison, index, &mut seen);
    }
    seen
}

/// A text's length where it is at the desk's bound.
fn length_class(length: usize) -> &'static str {
    match length {
        0 => "0",
        65_536 => "65536",
        65_537 => "65537",
        65_538.. => "more",
        _ => "fewer",
    }
}

/// Compares texts on all processors.
pub fn compare_texts(comparison: &Comparison) -> Seen {
    let parts = thread::available_parallelism().map_or(1, |parts| parts.get() as u64);
    let mut seen = Seen::default();
    thread::scope(|scope| {
        let running: Vec<_> = (0..parts)
            .map(|part| scope.spawn(move || compare_some_texts(comparison, part, parts)))
            .collect();
        for part in running {
            seen.join(part.join().expect("a part of the comparison"));
        }
    });
    seen
}

/// What every comparison of texts must have seen: each damage and bound, each refusal of a text, each length at the
/// desk's bound, each run of separators in a solved text, and twins of solved and refused texts.
pub fn wanted_of_texts() -> Vec<String> {
    use Name::*;
    let names = [
        Nodes, Arcs, Ends, Node, Loop, Capacity, Line, Count, Long, Minimum, Impossible,
    ];
    let mut wanted = ["solved", "solved with minimums", "value below 0"]
        .map(str::to_string)
        .to_vec();
    wanted.extend(names.map(|name| name.word().to_string()));
    wanted.extend(["0", "65536", "65537", "more"].map(|length| format!("of {length} bytes")));
    wanted.extend(texts::wanted());
    wanted.extend(spacing::wanted_runs());
    let twins = "old form: solved,old form: LINE,old form: COUNT,new form: solved,new form: LINE";
    wanted.extend(twins.split(',').map(|twin| format!("twin of the {twin}")));
    wanted
}

/// A comparison of calls: how a call is made from a seed and an index, what each brings, and what must have been seen
/// from so many calls on.
pub struct Calls {
    pub what: &'static str,
    pub random: fn(u64, u64) -> Call,
    pub brought: fn(&Call, &Numbers) -> Vec<String>,
    pub wanted: fn() -> Vec<String>,
    pub enough: u64,
}

/// Solving and reading by place.
pub const CALLS: Calls = Calls {
    what: "calls",
    random: calls::random_call,
    brought: calls::brought,
    wanted: calls::wanted,
    enough: 20_000,
};

/// Reading and serving texts.
pub const READINGS: Calls = Calls {
    what: "readings of text",
    random: readings::random_reading,
    brought: readings::brought,
    wanted: readings::wanted,
    enough: 2_000,
};

/// Opening a place.
pub const OPENINGS: Calls = Calls {
    what: "openings",
    random: openings::random_opening,
    brought: openings::brought,
    wanted: openings::wanted,
    enough: ENOUGH,
};

/// The booking server's calls.
pub const SERVER: Calls = Calls {
    what: "calls of the server",
    random: serving::random_server_call,
    brought: serving::brought,
    wanted: serving::wanted,
    enough: 10_000,
};

/// Writing solution texts, and reading them back.
pub const SOLUTIONS: Calls = Calls {
    what: "solution texts",
    random: solutions::random_solution,
    brought: solutions::brought,
    wanted: solutions::wanted,
    enough: 10_000,
};

/// Checking plans.
pub const PLANS: Calls = Calls {
    what: "plans",
    random: plans::random_plan,
    brought: plans::brought,
    wanted: plans::wanted,
    enough: 10_000,
};

/// Listing chains.
pub const LISTINGS: Calls = Calls {
    what: "listings of chains",
    random: listings::random_listing,
    brought: listings::brought,
    wanted: listings::wanted,
    enough: 5_000,
};

/// Asking whether there is room.
pub const QUESTIONS: Calls = Calls {
    what: "questions for room",
    random: questions::random_question,
    brought: questions::brought,
    wanted: questions::wanted,
    enough: 5_000,
};

/// Finding which opening would help.
pub const HELPS: Calls = Calls {
    what: "searches for openings that help",
    random: helps::random_help,
    brought: helps::brought,
    wanted: helps::wanted,
    enough: 5_000,
};

/// Making tables smaller.
pub const REDUCTIONS: Calls = Calls {
    what: "tables made smaller",
    random: reductions::random_reduction,
    brought: reductions::brought,
    wanted: reductions::wanted,
    enough: 5_000,
};

/// Solving months.
pub const MONTHS: Calls = Calls {
    what: "months",
    random: months::random_month,
    brought: months::brought,
    wanted: months::wanted,
    enough: 4_000,
};

/// A caller that runs, its input and output held by us.
struct Running {
    caller: Child,
    to: ChildStdin,
    from: ChildStdout,
}

impl Running {
    /// Starts the caller.
    fn start(command: &[String]) -> Running {
        let mut caller = started(command);
        let to = caller.stdin.take().expect("its input is ours");
        let from = caller.stdout.take().expect("its output is ours");
        Running { caller, to, from }
    }

    /// Makes a call: the numbers that must come back, and where what came back differs first, if it does.
    fn compare(&mut self, call: &Call) -> (Numbers, Option<usize>) {
        self.to.write_all(&sent(call)).expect("the caller takes the call");
        let (numbers, ours) = expected(call);
        let mut theirs = vec![0; ours.len()];
        self.from.read_exact(&mut theirs).expect("the caller answers");
        (numbers, difference(call, &ours, &theirs))
    }

    /// Waits for the caller's good end.
    fn end(mut self) {
        drop(self.to);
        let ended = self.caller.wait().expect("the caller ends");
        assert!(ended.success(), "the caller ends well");
    }
}

/// Makes each call through the caller, and compares all that comes back.
pub fn compare_calls(calls: &Calls, comparison: &Comparison) -> Seen {
    let mut caller = Running::start(&comparison.command);
    let mut seen = Seen::default();
    for index in 0..comparison.count {
        let call = (calls.random)(comparison.seed, index);
        let (numbers, difference) = caller.compare(&call);
        if let Some(at) = difference {
            seen.differing.push(index);
            let seed = comparison.seed;
            println!("call {index} at seed {seed} differs, first at byte {at} of the answer");
        }
        seen.count_all((calls.brought)(&call, &numbers));
    }
    caller.end();
    seen
}

/// Makes calls that have names through the caller, and compares all that comes back: how each must end, after its name,
/// and how many differed.
pub fn compare_named(calls: &[(String, Call)], command: &[String]) -> (Vec<String>, usize) {
    let mut caller = Running::start(command);
    let mut ends = Vec::new();
    let mut differing = 0;
    for (name, call) in calls {
        let (numbers, difference) = caller.compare(call);
        if let Some(at) = difference {
            differing += 1;
            println!("{name}: differs, first at byte {at} of the answer");
        }
        ends.push(format!("{name}: refusal={} place={} ", numbers[0], numbers[1]));
    }
    caller.end();
    (ends, differing)
}

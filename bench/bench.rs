//! CPU milliseconds of the proved solver, of the yardstick and of the independent program on the families of docs/FAMILIES.md, in one run.

use judge::compare::tables::OwnTable;
use judge::families::{Family, FAMILIES};
use judge::solve::{solve, work_need, Answer};
use std::time::Instant;

/// What took so many seconds is not run again.
const ENOUGH: u64 = 5;

/// The lent rows of one solver, cleared.
struct Rows {
    flow: Vec<u32>,
    side: Vec<u8>,
    work: Vec<u32>,
}

impl Rows {
    /// Rows for a table.
    fn of(table: &OwnTable) -> Rows {
        Rows {
            flow: vec![0; table.arcs()],
            side: vec![0; table.n as usize],
            work: vec![0; work_need(&table.lent()) as usize],
        }
    }
}

/// The proved solver, a static library for x86-64.
#[cfg(target_arch = "x86_64")]
mod proved {
    use super::{Answer, OwnTable, Rows};

    /// What the proved solver returns; include/jorrabide.h says what the fields are.
    #[repr(C)]
    struct ProvedAnswer {
        refusal: u32,
        place: u32,
        stamp: u32,
        value: i64,
        scale: u64,
        phases: u32,
        saturating: u64,
        nonsaturating: u64,
        relabels: u64,
    }

    #[link(name = "calls", kind = "static")]
    extern "C" {
        #[rustfmt::skip]
        fn jorrabide_solve(
            n: u32,
            s: u32,
            t: u32,
            stamp: u32,
            tails: *const u32,
            tails_length: usize,
            heads: *const u32,
            heads_length: usize,
            capacities: *const u32,
            capacities_length: usize,
            minimums: *const u32,
            minimums_length: usize,
            flow: *mut u32,
            flow_length: usize,
            side: *mut u8,
            side_length: usize,
            work: *mut u32,
            work_length: usize,
        ) -> ProvedAnswer;
    }

    /// Solves by the proved solver.
    #[rustfmt::skip]
    pub fn solve(table: &OwnTable, rows: &mut Rows) -> Option<Answer> {
        let OwnTable { n, s, t, tails, heads, capacities, minimums } = table;
        let answer = unsafe {
            jorrabide_solve(
                *n, *s, *t, 0,
                tails.as_ptr(), tails.len(),
                heads.as_ptr(), heads.len(),
                capacities.as_ptr(), capacities.len(),
                minimums.as_ptr(), minimums.len(),
                rows.flow.as_mut_ptr(), rows.flow.len(),
                rows.side.as_mut_ptr(), rows.side.len(),
                rows.work.as_mut_ptr(), rows.work.len(),
            )
        };
        let ProvedAnswer { refusal, place, stamp, value, scale, phases, saturating, nonsaturating, relabels } = answer;
        Some(Answer { refusal, place, stamp, value, scale, phases, saturating, nonsaturating, relabels })
    }
}

/// No proved solver on another processor.
#[cfg(not(target_arch = "x86_64"))]
mod proved {
    use super::{Answer, OwnTable, Rows};

    /// There is none to solve by.
    pub fn solve(_: &OwnTable, _: &mut Rows) -> Option<Answer> {
        None
    }
}

/// Solves by the independent program.
fn solve_independent(table: &OwnTable, rows: &mut Rows) -> Answer {
    solve(&table.lent(), 0, &mut rows.flow, &mut rows.side, &mut rows.work)
}

#[link(name = "yardstick", kind = "static")]
extern "C" {
    #[rustfmt::skip]
    fn yardstick(
        n: u32,
        s: u32,
        t: u32,
        m: u32,
        tails: *const u32,
        heads: *const u32,
        capacities: *const u32,
        flow: *mut u32,
        counts: *mut u64,
    );
}

/// Solves by the yardstick: fills the flow row, and gives the three counts.
#[rustfmt::skip]
fn solve_yardstick(table: &OwnTable, flow: &mut [u32]) -> [u64; 3] {
    let OwnTable { n, s, t, tails, heads, capacities, .. } = table;
    let mut counts = [0; 3];
    unsafe {
        yardstick(
            *n, *s, *t, tails.len() as u32,
            tails.as_ptr(), heads.as_ptr(), capacities.as_ptr(),
            flow.as_mut_ptr(), counts.as_mut_ptr(),
        )
    };
    counts
}

extern "C" {
    /// C's: microseconds of this process on a processor, so that other work on the machine does not count.
    fn clock() -> std::ffi::c_long;
}

/// What one call gives; `least` is the least of the milliseconds so far and those that it takes.
fn timed<T>(least: &mut f64, call: impl FnOnce() -> T) -> T {
    let began = unsafe { clock() };
    let given = call();
    *least = least.min((unsafe { clock() } - began) as f64 / 1000.0);
    given
}

/// Times the solvers, the yardstick and the proved one in turn, shows that they answer the same, and prints the least times.
fn measure(family: Family, n: u32, m: u32, times: u32) {
    let table = family.table(n, m);
    let (mut ours, mut theirs) = (Rows::of(&table), Rows::of(&table));
    let [mut least, mut least_yardstick, mut least_proved] = [f64::INFINITY; 3];
    let began = Instant::now();
    let mut answer = timed(&mut least, || solve_independent(&table, &mut theirs));
    for _ in 1..times {
        if began.elapsed().as_secs() < ENOUGH {
            answer = timed(&mut least, || solve_independent(&table, &mut theirs));
        }
    }
    for _ in 0..times {
        let counts = timed(&mut least_yardstick, || solve_yardstick(&table, &mut ours.flow));
        assert_eq!(
            counts,
            [answer.saturating, answer.nonsaturating, answer.relabels],
            "{family:?}"
        );
        assert_eq!(ours.flow, theirs.flow, "{family:?}");
        let mut took = f64::INFINITY;
        if let Some(proved) = timed(&mut took, || proved::solve(&table, &mut ours)) {
            least_proved = least_proved.min(took);
            assert_eq!(proved, answer, "{family:?}");
            assert_eq!((&ours.flow, &ours.side), (&theirs.flow, &theirs.side), "{family:?}");
        }
    }
    let steps = answer.saturating + answer.nonsaturating + answer.relabels;
    let proved = match least_proved.is_finite() {
        true => format!(
            "{least_proved:.2} | {:.2} | {:.0}",
            least_proved / least_yardstick,
            steps as f64 * 1000.0 / least_proved
        ),
        false => "- | - | -".to_string(),
    };
    println!(
        "| {} | {n} | {m} | {steps} | {least:.2} | {least_yardstick:.2} | {proved} |",
        family.word()
    );
}

fn main() {
    let times = std::env::args().nth(1).and_then(|word| word.parse().ok()).unwrap_or(9);
    println!("| family | n | m | steps | independent, ms | yardstick, ms | proved, ms | proved / yardstick | steps a second |");
    println!("|---|---|---|---|---|---|---|---|---|");
    for n in [64, 128, 256, 512] {
        for family in FAMILIES {
            measure(family, n, 8 * n, times);
        }
    }
}

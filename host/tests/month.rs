//! A month in one call: an example, the order of refusals, and each day as if given by itself.

use judge::compare::caller::month_of;
use judge::compare::months::random_month;
use judge::month::{solve_month, Month, Sums};
use judge::solve::{solve, work_need};

/// The five rows of days and the four of arcs.
type Rows = ([Vec<u32>; 5], [Vec<u32>; 4]);

/// Three days: the listing, one with a loop, and one without arcs.
fn three_days() -> Rows {
    let days = [
        vec![0, 4, 5],
        vec![4, 3, 2],
        vec![1, 1, 2],
        vec![4, 3, 1],
        vec![8, 9, 4_294_967_295],
    ];
    let arcs = [
        vec![1, 1, 2, 3, 2],
        vec![2, 3, 3, 4, 2],
        vec![4, 2, 4, 1, 6],
        vec![0; 5],
    ];
    (days, arcs)
}

/// The month of some rows.
fn month((days, arcs): &Rows) -> Month<'_> {
    Month {
        starts: &days[0],
        nodes: &days[1],
        sources: &days[2],
        sinks: &days[3],
        stamps: &days[4],
        tails: &arcs[0],
        heads: &arcs[1],
        capacities: &arcs[2],
        minimums: &arcs[3],
    }
}

/// Solves a month in rows of sevens of these lengths (flow, side, work, answers): the sums and the rows.
fn solved(rows: &Rows, lengths: [usize; 4]) -> (Sums, Vec<u32>, Vec<u8>, Vec<u32>, Vec<u64>) {
    let [flow, side, work, answers] = lengths;
    let (mut flow, mut side) = (vec![7; flow], vec![7; side]);
    let (mut work, mut answers) = (vec![7; work], vec![7; answers]);
    let sums = solve_month(&month(rows), &mut flow, &mut side, &mut work, &mut answers);
    (sums, flow, side, work, answers)
}

/// Checks that the whole call is refused and changes nothing.
fn assert_refused(rows: &Rows, lengths: [usize; 4], refusal: u32) {
    let (sums, flow, side, work, answers) = solved(rows, lengths);
    let refused = Sums {
        refusal,
        ..Sums::default()
    };
    assert_eq!(sums, refused);
    assert!(flow.iter().chain(&work).all(|number| *number == 7));
    assert!(side.iter().all(|mark| *mark == 7) && answers.iter().all(|number| *number == 7));
}

/// Each of three days is answered as if given by itself.
#[test]
fn three_days_in_one_call() {
    let rows = three_days();
    let (sums, flow, side, work, answers) = solved(&rows, [6, 1_537, 27, 28]);
    let expected = Sums {
        solved: 2,
        total: 1,
        day: 3,
        ..Sums::default()
    };
    assert_eq!(sums, expected);
    assert_eq!(flow, [1, 0, 1, 1, 7, 7]);
    assert_eq!(side[..5], [1, 1, 1, 0, 7]);
    assert_eq!(side[512..515], [7, 7, 7]);
    assert_eq!(side[1_024..1_027], [0, 1, 7]);
    assert_eq!(work, [&[0; 25][..], &[7, 7]].concat());
    assert_eq!(answers[..9], [0, 0, 8, 1, 4, 3, 3, 6, 6]);
    assert_eq!(answers[9..18], [7, 0, 0, 0, 0, 0, 0, 0, 0]);
    assert_eq!(answers[18..], [0, 0, 4_294_967_295, 0, 0, 0, 0, 0, 0, 7]);
    let (sums, _, _, work, answers) = solved(&rows, [5, 1_536, 24, 27]);
    assert_eq!((sums.solved, sums.day, answers[0], answers[9]), (1, 3, 5, 7));
    assert_eq!(work, [&[0; 9][..], &[7; 15]].concat());
}

/// A day with a minimum above 0 is BOUNDED after its own checks.
#[test]
fn a_day_with_minimums() {
    let mut rows = three_days();
    rows.1[3] = vec![1, 0, 0, 0, 6];
    let answers = solved(&rows, [5, 1_536, 25, 27]).4;
    assert_eq!((answers[0], answers[1], answers[9]), (21, 0, 7));
    rows.1[3][1] = 3;
    let answers = solved(&rows, [5, 1_536, 25, 27]).4;
    assert_eq!((answers[0], answers[1]), (19, 1));
}

/// The whole call gives MANY, ROWS, STARTS and ROOM in this order.
#[test]
fn the_whole_refuses_in_order() {
    let exact = [5, 1_536, 25, 27];
    let mut rows = three_days();
    rows.0[0] = vec![9; 32];
    assert_refused(&rows, [0; 4], 17);
    rows.0[0] = vec![0, 5, 4];
    rows.1[2].pop();
    assert_refused(&rows, [0; 4], 2);
    rows.1[2].push(6);
    rows.0[3].push(1);
    assert_refused(&rows, [0; 4], 2);
    rows.0[3].pop();
    assert_refused(&rows, [0; 4], 18);
    for starts in [vec![0, 4, 6], vec![4, 0, 5], vec![0, 0, 4_294_967_295]] {
        rows.0[0] = starts;
        assert_refused(&rows, exact, 18);
    }
    rows.0[0] = vec![0, 4, 5];
    for row in [0, 1, 3] {
        let mut lengths = exact;
        lengths[row] -= 1;
        assert_refused(&rows, lengths, 5);
    }
    let none = (Default::default(), rows.1.clone());
    assert_refused(&none, [4, 0, 0, 0], 5);
    assert_eq!(solved(&none, [5, 0, 0, 0]).0, Sums::default());
}

/// Each day of the comparison's months is answered as solving alone answers it.
#[test]
fn each_day_as_if_given_by_itself() {
    let mut compared = 0;
    for index in 0..600 {
        let call = random_month(7, index);
        let month = month_of(&call);
        let (mut flow, mut side) = (call.flow.clone(), call.side.clone());
        let (mut work, mut answers) = (call.work.clone(), call.answers.clone());
        let sums = solve_month(&month, &mut flow, &mut side, &mut work, &mut answers);
        if sums.refusal != 0 {
            continue;
        }
        for day in 0..month.days() {
            let (start, end) = month.places(day);
            let table = month.table(day);
            let mut alone = (
                call.flow[start..end].to_vec(),
                call.side[512 * day..512 * day + 512].to_vec(),
            );
            let mut own_work = call.work.clone();
            let answer = solve(&table, month.stamps[day], &mut alone.0, &mut alone.1, &mut own_work);
            let is_free = table.is_bounded() && (answer.refusal == 0 || answer.refusal == 20);
            if is_free {
                assert_eq!(answers[9 * day], 21);
                continue;
            }
            assert_eq!(
                (answers[9 * day], answers[9 * day + 1]),
                (answer.refusal.into(), answer.place.into())
            );
            assert_eq!(answers[9 * day + 3], answer.value as u64);
            assert_eq!(
                (&flow[start..end], &side[512 * day..512 * day + 512]),
                (&alone.0[..], &alone.1[..])
            );
            assert!(answer.refusal != 0 || work[..work_need(&table) as usize].iter().all(|number| *number == 0));
            compared += 1;
        }
    }
    assert!(compared > 1_000);
}

//! Document 01's listing through the booking server's calls: solves it, reads place 3, and reads it again after the table was
//! rebuilt, once with another capacity and once with an arc more.

mod jorrabide_server;
use jorrabide_server::{Refusal, Table};

fn main() -> Result<(), Refusal> {
    let mut table = Table::new(4, 1, 4, 7);
    for (tail, head, capacity) in [(1, 2, 4), (1, 3, 2), (2, 3, 4), (3, 4, 1)] {
        table.add(tail, head, capacity);
    }
    let answer = table.solve()?;
    println!(
        "value {}, stamp {}, side {:?}, flow {:?}",
        answer.value,
        answer.stamp,
        answer.side(),
        answer.flow()
    );
    let steps = (answer.saturating, answer.nonsaturating, answer.relabels);
    println!("scale {}, phases {}, steps {steps:?}", answer.scale, answer.phases);
    println!("{:?}", table.read_place(&answer, 3)?);
    table.change(3, 6);
    println!("{:?}", table.read_place(&answer, 3));
    table.add(2, 4, 5);
    println!("{:?}", table.read_place(&answer, 3));
    Ok(())
}

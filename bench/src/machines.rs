//! The library's two machines side by side: what on demand saves or costs.
use crate::instructions::Counted;
use crate::Case;

/// The rows of both are on the same files, in the same order.
pub fn table(first: &[Counted], on_demand: &[Counted]) {
    println!("the library's first machine and the one on demand, on the same files; nodes taken, and instructions as above; on demand / first: below 1 is saved, above 1 is paid; - where a full store ended one run, so that the two did not do the same");
    println!("{:42} {:>6} | {:^13} | {:^13} | {:^19} | {:^19} | {:^21} | {:^20}", "", "", "beta", "nodes", "lib all", "lib run", "end", "on demand / first");
    println!("{:42} {:>6} | {:>6} {:>6} | {:>6} {:>6} | {:>9} {:>9} | {:>9} {:>9} | {:10} {:10} | {:>6} {:>6} {:>6}", "", "file",
        "first", "demand", "first", "demand", "first", "on demand", "first", "on demand", "first", "on demand", "nodes", "all", "run");
    for (first, on_demand) in first.iter().zip(on_demand) { row(first, on_demand); }
}

fn row(Counted { case: first, per_call: [all, run, ..] }: &Counted, Counted { case: on_demand, per_call: [demand_all, demand_run, ..] }: &Counted) {
    let whole = ran_to_the_end(first) && ran_to_the_end(on_demand);
    // the outcome, the nodes written and the beta steps
    if whole { assert_eq!(first.report[..3], on_demand.report[..3], "{}", first.name); }
    let ratio = |demand: f64, first: f64| if whole { format!("{:.2}", demand / first) } else { "-".to_string() };
    println!("{:42} {:6} | {:6} {:6} | {:6} {:6} | {all:9.0} {demand_all:9.0} | {run:9.0} {demand_run:9.0} | {:10} {:10} | {:>6} {:>6} {:>6}", first.name, first.nodes,
        first.beta(), on_demand.beta(), first.taken(), on_demand.taken(), first.end(), on_demand.end(),
        ratio(on_demand.taken() as f64, first.taken() as f64), ratio(*demand_all, *all), ratio(*demand_run, *run));
}

/// Whether no full store ended the run.
fn ran_to_the_end(case: &Case) -> bool { !(8..=10).contains(&case.report[0]) }

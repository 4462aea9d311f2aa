//! The table, and what was aimed at.

use crate::books::Kind;
use crate::measure::Line;

fn thousands(number: u32) -> String {
    let digits = number.to_string();
    let groups: Vec<&str> = digits.as_bytes().rchunks(3).rev().filter_map(|group| str::from_utf8(group).ok()).collect();
    groups.join(",")
}

fn row(line: &Line) {
    let tried = line.tried.map_or("-".to_string(), |tried| format!("{tried:.0}"));
    println!(
        "| {} | {} | {} | {:.0} | {} | {:.0} | {:.2} |",
        line.kind.name(),
        line.rules,
        thousands(line.bound),
        line.session,
        tried,
        line.sorted,
        line.session / line.sorted,
    );
}

/// How much longer the last bound takes than the first, at most, of one kind.
fn by_bound(table: &[Line], kind: Kind) -> f64 {
    let of_kind: Vec<&Line> = table.iter().filter(|line| line.kind == kind).collect();
    let of_rules = |rules: usize| of_kind.iter().filter(move |line| line.rules == rules).map(|line| line.session);
    let rules = of_kind.iter().map(|line| line.rules);
    rules.filter_map(|rules| Some(of_rules(rules).next_back()? / of_rules(rules).next()?)).fold(0.0, f64::max)
}

fn most(table: &[Line], ratio: impl Fn(&Line) -> Option<f64>) -> f64 {
    table.iter().filter_map(ratio).fold(0.0, f64::max)
}

pub fn print(table: &[Line]) {
    println!("| call | rules | bound | session | tries all | sorts | to sorts |");
    println!("|---|---|---|---|---|---|---|");
    for kind in Kind::ALL {
        table.iter().filter(|line| line.kind == kind).for_each(row);
    }
    println!();
    println!("| call | 10^9 to 10^3, at most | to sorts at 16 rules, at most |");
    println!("|---|---|---|");
    for kind in Kind::ALL {
        let sorts = most(table, |line| (line.kind == kind && line.rules == 16).then_some(line.session / line.sorted));
        println!("| {} | {:.2} | {sorts:.2} |", kind.name(), by_bound(table, kind));
    }
}

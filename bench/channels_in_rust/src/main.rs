//! Measures the channel from Rust and others like it. Prints a table of nanoseconds: medians, with the best and the worst of the rounds.

mod peers;
mod workloads;

use peers::{peers, Peer};
use std::env::args;
use std::process::exit;
use workloads::{Workload, WORKLOADS};

const USAGE: &str = "usage: channels [--rounds 1..1000] [--items 100..10000000] [--channel PART OF A NAME] [--smoke]";

struct Options {
    rounds: usize,
    items: u64,
    channel: String,
}

fn options(mut words: impl Iterator<Item = String>) -> Option<Options> {
    let mut options = Options { rounds: 5, items: 40_000, channel: String::new() };
    while let Some(word) = words.next() {
        match word.as_str() {
            "--smoke" => (options.rounds, options.items) = (1, 1_000),
            "--rounds" => options.rounds = words.next()?.parse().ok().filter(|rounds| (1..=1_000).contains(rounds))?,
            "--items" => options.items = words.next()?.parse().ok().filter(|items| (100..=10_000_000).contains(items))?,
            "--channel" => options.channel = words.next()?,
            _ => return None,
        }
    }
    Some(options)
}

/// The figures of the rounds: their median, with the best and the worst.
fn cell(mut figures: Vec<f64>) -> String {
    figures.sort_by(f64::total_cmp);
    let at = |place: usize| figures[place].round();
    format!("{} ({} to {})", at(figures.len() / 2), at(0), at(figures.len() - 1))
}

/// Each round runs each workload on each channel; the first channel of a round is another one each time.
fn measure(peers: &[Peer], options: &Options) -> Vec<Vec<Vec<f64>>> {
    let mut figures = vec![vec![Vec::new(); WORKLOADS.len()]; peers.len()];
    for round in 0..options.rounds {
        for (column, workload) in WORKLOADS.iter().enumerate() {
            for turn in 0..peers.len() {
                let row = (turn + round) % peers.len();
                figures[row][column].push((workload.run)(&peers[row], options.items));
            }
        }
    }
    figures
}

fn print_row(name: &str, cells: impl Iterator<Item = String>) {
    let cells: String = cells.map(|cell| format!("  {cell:>24}")).collect();
    println!("{name:<24}{cells}");
}

fn main() {
    let Some(options) = options(args().skip(1)) else {
        eprintln!("{USAGE}");
        exit(2);
    };
    let mut chosen = peers();
    chosen.retain(|peer| peer.name.contains(&options.channel));
    let figures = measure(&chosen, &options);
    println!("Nanoseconds for an item, a hand-over and back, the wake of a sleeper, and a second of sleep");
    print_row("", WORKLOADS.iter().map(|Workload { name, .. }| name.to_string()));
    for (peer, row) in chosen.iter().zip(figures) {
        print_row(peer.name, row.into_iter().map(cell));
    }
}

//! Prints times: of whole runs in the reference, the tuned and the proved program; of single calls of one site in the
//! reference and the proved library. What is proved is measured with the feature `archive`.

use bench::calls::cases::{self, Case};
use bench::calls::engines::{self, Named, Nothing};
use bench::calls::stack;
use bench::measure::Effort;
use bench::memory::{most_held, Counting};
use bench::processes::{self, Choice, Times};
use bench::programs::{self, Measured};
use bench::table::Table;
use bench::workloads::{self, Workload};
use bench::{calls, measure};
use compare::lent_calls::Engine;
use compare::settings::{number, text};
use std::time::Duration;

#[global_allocator]
static ALLOCATOR: Counting = Counting;

type Programs = [Box<dyn Measured>];

/// Which times are divided by which, by the programs' places.
fn ratios(names: &[&str]) -> &'static [(usize, usize)] {
    match names {
        ["reference", "tuned", "proved"] => &[(2, 1), (2, 0), (0, 1)],
        ["reference", "tuned"] => &[(0, 1)],
        ["reference", "proved"] => &[(1, 0)],
        _ => &[],
    }
}

/// None where a difference of times came out as nothing.
fn ratio(over: f64, under: f64) -> Option<f64> {
    (over > 0.0 && under > 0.0).then(|| over / under)
}

/// A table of times of these programs and of their ratios, after the columns that say what is measured.
fn times_table(title: &str, first: &[&str], names: &[&str], rows: Vec<Vec<String>>, times: &[Vec<f64>]) -> Table {
    let mut table = Table::new(title, first);
    let ratios = ratios(names);
    table.columns.extend(names.iter().map(|name| String::from(*name)));
    table.columns.extend(ratios.iter().map(|(over, under)| format!("{}/{}", names[*over], names[*under])));
    for (mut row, times) in rows.into_iter().zip(times) {
        row.extend(times.iter().map(|time| format!("{time:.1}")));
        let ratios = ratios.iter().map(|(over, under)| ratio(times[*over], times[*under]));
        row.extend(ratios.map(|ratio| ratio.map_or(String::from("-"), |ratio| format!("{ratio:.2}"))));
        table.rows.push(row);
    }
    table
}

/// What is measured: programs and engines, and the rows of both tables.
struct Bench {
    programs: Vec<Box<dyn Measured>>,
    workloads: Vec<Workload>,
    engines: Vec<Named>,
    cases: Vec<Case>,
}

impl Bench {
    /// All rows whose name has this text.
    fn new(rows: &str) -> Bench {
        let mut workloads = workloads::all(number("BEURILMA_SEED", 1));
        workloads.retain(|workload| workload.name.contains(rows));
        let mut cases = cases::all();
        cases.retain(|case| case.name.contains(rows));
        Bench { programs: programs::all(), workloads, engines: engines::all(), cases }
    }

    /// The times of all rows, those of runs first.
    fn times(&mut self, effort: Effort) -> Times {
        let mut times = Vec::new();
        for workload in &self.workloads {
            measure::check(&mut self.programs, workload);
            times.push(measure::nanoseconds(&mut self.programs, workload, effort));
        }
        for case in &self.cases {
            calls::measure::check(&mut self.engines, case);
            times.push(calls::measure::nanoseconds(&mut self.engines, case, effort));
        }
        times
    }

    /// From every call the time of the loop around it is taken off.
    fn choices(&self) -> Vec<Choice> {
        let of_runs = |workload: &Workload| if workload.before.is_empty() { Choice::Best } else { Choice::Middle };
        let runs = self.workloads.iter().map(of_runs);
        runs.chain(self.cases.iter().map(|_| Choice::Middle)).collect()
    }
}

fn runs_table(bench: &Bench, times: &[Vec<f64>]) -> Table {
    let names: Vec<&str> = bench.programs.iter().map(|program| program.name()).collect();
    let row = |workload: &Workload| vec![workload.name.clone(), workload.steps.to_string()];
    let rows = bench.workloads.iter().map(row).collect();
    times_table("Runs: nanoseconds a step; ratios of these", &["workload", "steps"], &names, rows, times)
}

/// What the proved program is judged by: the ratios of its times to those of the tuned one.
fn verdict(times: &[Vec<f64>]) -> String {
    let ratios: Vec<f64> = times.iter().filter_map(|times| ratio(*times.get(2)?, times[1])).collect();
    let mean = ratios.iter().sum::<f64>() / ratios.len() as f64;
    let greatest = ratios.iter().copied().fold(0.0, f64::max);
    format!("proved/tuned of {} rows: mean {mean:.2}, greatest {greatest:.2}", ratios.len())
}

fn calls_table(bench: &Bench, times: &[Vec<f64>]) -> Table {
    let names: Vec<&str> = bench.engines.iter().map(|named| named.name).collect();
    let rows = bench.cases.iter().map(|case| vec![case.name.clone()]).collect();
    times_table("Single calls of one site: nanoseconds a call; their ratio", &["call"], &names, rows, times)
}

/// What each program holds: fixed buffers, and the most of the heap in any run.
fn memory(programs: &mut Programs, workloads: &[Workload]) -> Table {
    let mut table = Table::new("Memory of runs in bytes", &["program", "buffers", "most heap in a run"]);
    for program in programs {
        let mut most = 0;
        for run in workloads.iter().flat_map(|workload| &workload.runs) {
            most = most.max(most_held(|| _ = program.play(run)));
        }
        table.rows.push(vec![String::from(program.name()), program.memory(), most.to_string()]);
    }
    table
}

/// The most of the stack that any call takes, beyond what a call of nothing takes.
fn most_stack(engine: &mut dyn Engine, cases: &[Case]) -> Option<usize> {
    let mut most = 0;
    for case in cases {
        let mut lent = case.lent.clone();
        let around = stack::used(&mut || _ = Nothing.call(&case.call, &mut lent))?;
        let all = stack::used(&mut || _ = engine.call(&case.call, &mut lent))?;
        most = most.max(all.saturating_sub(around));
    }
    Some(most)
}

/// What the calls are lent, which is the same for all programs, and what each takes beside.
fn memory_of_calls(engines: &mut [Named], cases: &[Case]) -> Table {
    let columns = ["program", "lent: site", "a log entry", "a message", "most heap in a call", "most stack in a call"];
    let mut table = Table::new("Memory of single calls in bytes", &columns);
    for Named { name, engine } in engines {
        let mut most = 0;
        for case in cases {
            let mut lent = case.lent.clone();
            most = most.max(most_held(|| _ = engine.call(&case.call, &mut lent)));
        }
        let stack = most_stack(engine.as_mut(), cases).map_or(String::from("-"), |most| most.to_string());
        let lent = ["3536", "18", "10"].map(String::from);
        table.rows.push([String::from(*name)].into_iter().chain(lent).chain([most.to_string(), stack]).collect());
    }
    table
}

fn main() {
    let milliseconds = number("BENCH_MILLISECONDS", 1);
    let turns = number("BENCH_TURNS", 31).max(1) as usize;
    let effort = Effort { turns, turn: Duration::from_millis(milliseconds) };
    let mut bench = Bench::new(&text("BENCH_ROWS"));
    if processes::takes_times() {
        print!("{}", processes::to_text(&bench.times(effort)));
        return;
    }
    let processes = number("BENCH_PROCESSES", 5).max(1) as usize;
    let times = processes::combined(&processes::take_times(processes), &bench.choices());
    let (of_runs, of_calls) = times.split_at(bench.workloads.len());
    println!("{}\n{}\n", runs_table(&bench, of_runs), verdict(of_runs));
    println!("{}", calls_table(&bench, of_calls));
    println!("{}", memory(&mut bench.programs, &bench.workloads));
    println!("{}", memory_of_calls(&mut bench.engines, &bench.cases));
    println!("{processes} processes, in each {turns} turns of about {milliseconds} milliseconds; buffers are not cleared between calls.");
}

//! The program and the library held to an independent program on many calls, the plan and the machines walked side by
//! side on each text, and its quotation audited. See the script of the same name for how to call it.
//!
//!     compare PROGRAM SEED COUNT [FEWEST]     at the root of the repository; each answer comes FEWEST times or more
use answer::Told;
use call::{Call, Task};
use program::Program;
use report::Report;
use spelt::Spelling;
use starts::Start;
use std::sync::mpsc::{sync_channel, Receiver};
use std::sync::Mutex;
use std::{env, panic, process, thread};
use telling::Split;
use watchdog::Watchdog;

mod answer;
mod audit;
#[path = "../../include/board.rs"]
mod board;
mod boards;
mod call;
mod crowds;
mod damage;
mod defects;
mod dice;
mod draft;
mod fixed;
mod forms;
mod generated;
mod lent;
mod letters;
mod library;
mod limits;
mod machines;
mod merged;
mod merging;
mod products;
mod program;
mod quoted;
mod quoting;
mod redundant;
mod report;
mod spellings;
mod spelt;
#[path = "../../include/split.rs"]
mod split;
mod starts;
mod subject;
mod telling;
mod tiny;
mod walking;
mod watchdog;
mod wide;
mod words;
mod written;

/// How many requests of document 02 are in force.
const RULES: reference::Rules = reference::Rules(6);

/// A process for each call is what takes the time, and there is a wait in each.
const WORKERS: usize = 4;

/// What a program that calls the library has by itself.
const STACK: usize = 8 << 20;

enum Job {
    Words,
    Calls(Task),
}

/// What the program printed of a text: its sheet, the machines that thinning keeps, the merged sheet, the quotation.
#[derive(Default)]
struct Printed {
    sheet: Vec<u8>,
    kept: Option<Vec<usize>>,
    merged: Option<Vec<u8>>,
    quoted: Option<Vec<u8>>,
}

impl Printed {
    fn take(&mut self, call: &Call, stdout: &[u8]) {
        match call.service() {
            "thin" => self.kept = self.kept.take().or_else(|| answer::kept(stdout)),
            "merge" if call.arguments().is_empty() => self.merged = Some(stdout.to_vec()),
            "quote" if call.arguments().is_empty() => self.quoted = Some(stdout.to_vec()),
            _ => {}
        }
    }

    fn walked(&self, text: &[u8]) -> Result<usize, String> {
        let pairs = walking::accepted(text, &self.sheet, self.kept.as_deref())?;
        let merged = self.merged.as_ref().map_or(Ok(0), |sheet| walking::merged(text, sheet))?;
        Ok(pairs + merged)
    }

    /// Nothing if the quotation was not asked for, or cut off.
    fn audited(&self, text: &[u8]) -> Option<Result<usize, String>> {
        Some(audit::quotation(text, &self.sheet, self.kept.as_ref()?, self.quoted.as_ref()?))
    }
}

/// A call, and what the independent program and the program print; nothing if the program is not asked.
struct Asked {
    expected: Vec<u8>,
    told: Told,
    stdout: Vec<u8>,
}

fn ask(task: &Task, text: &[u8], call: &Call, program: &Program, watchdog: &Watchdog, report: &Report) -> Asked {
    let expected = answer::expected(call, text);
    let told = Told::of(call, &expected);
    report.call(call, &expected);
    let mut stdout = Vec::new();
    if !call.unsaid {
        let done = program.call(&call.said(), &task.pieces, watchdog);
        report.program(task, call, text, &expected, &done);
        stdout = done.stdout;
    }
    let _watched = watchdog.function(call.shown(), text);
    report.library(task, text, library::faults(call, text, &told));
    Asked { expected, told, stdout }
}

fn compare_on_sheet(task: &Task, program: &Program, watchdog: &Watchdog, report: &Report) {
    let sheet = task.text();
    let spelling = boards::spelt::Spelling::of(&sheet);
    for call in &task.calls {
        let asked = ask(task, &sheet, call, program, watchdog, report);
        report.telling(&spelling.telling(&sheet, call, &asked.told));
        report.telling(&boards::telling::of(&sheet, call, &asked.told));
    }
}

/// What the independent program answers to the calls on an accepted text, for its sheets on boards.
#[derive(Default)]
struct Accepted {
    sheet: Vec<u8>,
    merged: Option<Vec<u8>>,
    runs: Vec<(Call, Vec<u8>)>,
}

impl Accepted {
    fn take(&mut self, call: &Call, Asked { expected, told, .. }: Asked) {
        match (call.service(), told) {
            ("run", _) => self.runs.push((call.clone(), expected)),
            (_, Told::Merged(sheet)) if sheet != self.sheet => self.merged = Some(sheet),
            _ => {}
        }
    }

    fn on_boards(&self, text: &[u8]) -> Vec<Task> {
        let merged = self.merged.iter().map(|sheet| boards::of_merged(text, sheet, &self.runs));
        std::iter::once(boards::of_text(text, &self.sheet, &self.runs)).chain(merged).collect()
    }
}

fn compare(task: &Task, program: &Program, watchdog: &Watchdog, report: &Report) {
    if task.calls[0].is_on_sheet() {
        return compare_on_sheet(task, program, watchdog, report);
    }
    let text = task.text();
    let start = Start::of(&text);
    let spelling = Spelling::of(&text);
    let (mut printed, mut split, mut class) = (Printed::default(), None, 0);
    let mut accepted = Accepted::default();
    for (k, call) in task.calls.iter().enumerate() {
        let asked = ask(task, &text, call, program, watchdog, report);
        if k == 0 {
            class = answer::class(&asked.expected);
            printed.sheet = asked.stdout.clone();
            split = (class == 0).then(|| Split::new(&text, &asked.expected));
            accepted.sheet = asked.expected.clone();
        }
        if let Some(split) = &mut split {
            report.telling(&split.of(call.service(), &call.numbers(&text), &asked.told));
        }
        report.telling(&spelling.telling(&text, call, &asked.told));
        if let Some(start) = &start {
            report.telling(&start.telling(&asked.expected));
        }
        printed.take(call, &asked.stdout);
        accepted.take(call, asked);
    }
    if class == 0 {
        accepted.on_boards(&text).iter().for_each(|task| compare_on_sheet(task, program, watchdog, report));
    }
    if [0, 11, 12].contains(&class) && !task.calls[0].unsaid && report.is_first(&text) {
        let walked = match class {
            0 => printed.walked(&text),
            _ => walking::refused(&text),
        };
        report.walk(&text, class, walked);
        if let Some(audited) = printed.audited(&text) {
            report.audit(&text, audited);
        }
    }
}

fn work(jobs: &Mutex<Receiver<Job>>, program: &Program, report: &Report) {
    let watchdog = Watchdog::new();
    let next = || jobs.lock().expect("jobs").recv();
    while let Ok(job) = next() {
        match job {
            Job::Words => words::compare(program, &watchdog, report),
            Job::Calls(task) => compare(&task, program, &watchdog, report),
        }
    }
}

fn main() {
    let arguments: Vec<String> = env::args().collect();
    let [_, path, figures @ ..] = &arguments[..] else { panic!("compare PROGRAM SEED COUNT [FEWEST]") };
    let figures: Vec<u64> = figures.iter().map(|word| word.parse().expect("a figure")).collect();
    let [seed, count, ref fewest @ ..] = figures[..] else { panic!("compare PROGRAM SEED COUNT [FEWEST]") };
    // Whatever goes wrong in a worker ends all.
    let shown = panic::take_hook();
    panic::set_hook(Box::new(move |info| {
        shown(info);
        process::exit(1);
    }));
    let (program, report) = (Program { path: path.clone() }, Report::default());
    let (sender, jobs) = sync_channel(64);
    let jobs = Mutex::new(jobs);
    thread::scope(|scope| {
        for _ in 0..WORKERS {
            let worker = thread::Builder::new().stack_size(STACK);
            worker.spawn_scoped(scope, || work(&jobs, &program, &report)).expect("a worker");
        }
        let fixed = fixed::all().into_iter().chain(boards::fixed::all());
        let texts = generated::Tasks::new(seed, count as usize);
        let sheets = boards::generated::tasks(seed, count as usize / 8);
        let tasks = fixed.chain(texts).chain(sheets);
        for job in std::iter::once(Job::Words).chain(tasks.map(Job::Calls)).take_while(|_| !report.gives_up()) {
            sender.send(job).expect("a worker");
        }
        drop(sender);
    });
    report.print();
    fewest.iter().for_each(|fewest| report.demand(*fewest as usize));
    process::exit(i32::from(!report.ends()));
}

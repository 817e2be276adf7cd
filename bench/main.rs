//! Times the proved library beside the peer and the independent program. See the script `run` for how to call it.
//!
//!     bench PASSES text|markdown     at the root of the repository
use call::Programs;
use cases::Case;
use others::{Independent, Peer};
use proved::Proved;
use table::{grouped, Table};
use timing::{median, ratio};

mod call;
mod cases;
mod goals;
mod others;
#[allow(dead_code)]
mod peer;
#[allow(dead_code)]
mod peer_slips;
mod proved;
mod refused;
mod spelling;
#[path = "../include/split.rs"]
mod split;
mod table;
mod timing;

const TIMES: [&str; 6] = ["proved ns", "ns/byte", "peer ns", "ratio", "independent ns", "times"];

fn times(case: &Case) -> [String; 6] {
    let [proved, peer, independent] = &case.ns;
    let (ns, other) = (median(proved), median(independent));
    let a_byte = format!("{:.2}", ns / case.call.text.len() as f64);
    let beside_peer = (!peer.is_empty()).then(|| (grouped(median(peer)), format!("{:.2}", ratio(proved, peer))));
    let (peer_ns, to_peer) = beside_peer.unwrap_or_default();
    let times = if other < 10.0 * ns { format!("{:.1}", other / ns) } else { grouped(other / ns) };
    [grouped(ns), a_byte, peer_ns, to_peer, grouped(other), times]
}

fn table(head: [&'static str; 3], cases: &[Case], cells: fn(&Case) -> [String; 3]) -> Table {
    let row = |case| [&cells(case)[..], &times(case)].concat();
    Table { head: [&head[..], &TIMES].concat(), rows: cases.iter().map(row).collect() }
}

fn accepted(cases: &[Case]) -> Table {
    table(["text", "bytes", "service"], cases, |case| {
        [case.name.clone(), grouped(case.call.text.len() as f64), case.call.service.word().to_string()]
    })
}

fn refused(cases: &[Case]) -> Table {
    table(["refusal", "because", "bytes"], cases, |case| {
        let refusal = case.refusal().unwrap_or_default().map(|figure| figure.to_string()).join(" ");
        [refusal, case.name.clone(), grouped(case.call.text.len() as f64)]
    })
}

fn main() {
    let words: Vec<String> = std::env::args().skip(1).collect();
    let [passes, form] = &words[..] else { panic!("bench PASSES text|markdown") };
    let (passes, markdown) = (passes.parse().expect("PASSES is a figure"), form == "markdown");
    let mut programs: Programs = [Box::new(Proved::new()), Box::new(Peer::new()), Box::new(Independent)];
    let (texts, sheets) = (cases::texts(), cases::sheets());
    let mut cases: Vec<Case> = texts.iter().flat_map(|text| cases::accepted(&mut programs, text)).collect();
    cases.extend(sheets.iter().flat_map(|sheet| cases::loaded(&mut programs, sheet)));
    cases.extend(spelling::cases(&mut programs, &texts, &sheets));
    cases.extend(refused::refused(&mut programs, &texts, &sheets));
    timing::measure(&mut programs, &mut cases, passes);
    let (no, yes): (Vec<Case>, Vec<Case>) = cases.into_iter().partition(|case| case.refusal().is_some());
    let about = |line: &str| println!("{line}\n");
    about(&format!(
        "Accepted texts and good sheets. ns and ratio (proved to peer, within a pass) are medians over {passes} passes, independent ns over \
         every tenth of them, or one figure if it is over 50 ms; times: how many times as long the independent program takes."
    ));
    accepted(&yes).print(markdown);
    about(
        "Refused: check on both-32k (2: machines-32k, 13: cycle-31k), edited as late as the refusal allows; for 14 it is run, \
         for 15 sheet on cycle-31k.",
    );
    refused(&no).print(markdown);
    about("Goals: no figure of a row is to be above `at most`.");
    goals::goals(&yes).print(markdown);
    about(
        "The library keeps nothing between calls and clears its rows at each, 19 KB on a-y, which uses less than 1; the peer \
         keeps its rows. That takes longer than what is missed on a-y.",
    );
}

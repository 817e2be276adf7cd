//! Every way to break the form of a line, and what is easily read wrongly. Most of these texts end at 1, 2 or 3.
use crate::draft::{alike, with, y_from, Draft, TINY, Y};

/// Figures at and over every bound, in every position that takes one.
fn figures() -> Vec<String> {
    let figures = "0 1 9 10 11 99 100 101 255 256 257 511 512 999 1000 4294967296 00 01 010 000 0x1 -1 +1 / : 1/ 1: a";
    let holes = [
        "(states #)\n(events)\n(machine (0))\n",
        "(states # start 0)\n(events)\n(machine (0))\n",
        "(states # start #)\n(events)\n(machine (0))\n",
        "(states 11 start #)\n(events)\n(machine (0))\n",
        "(states 256 start #)\n(events)\n(machine (0))\n",
        "(states 10)\n(events a)\n(step # a 0)\n(machine (0))\n",
        "(states 100)\n(events a)\n(step 0 a #)\n(machine (0))\n",
        "(states 256)\n(events a)\n(step # a #)\n(machine (0))\n",
        "(states 10)\n(events)\n(machine (#))\n",
        "(states 100)\n(events)\n(machine (0) (1 #))\n",
        "(states 256)\n(events)\n(machine (# 0) (1))\n",
    ];
    let fill = |hole: &&str| figures.split(' ').map(|f| hole.replace('#', f)).collect::<Vec<_>>();
    holes.iter().flat_map(fill).collect()
}

/// Two states, and a step of each used event from the first to the second.
pub fn with_names(events: Vec<String>, used: &[String]) -> String {
    let steps = used.iter().map(|name| (0, name.clone(), 1)).collect();
    Draft { states: 2, start: None, events, steps, machines: vec![vec![vec![0], vec![1]]] }.text()
}

/// Each name found among all, each missing, each declared twice: last, first or next to itself.
fn names() -> Vec<String> {
    let all = alike();
    let mut texts = vec![with_names(all.clone(), &all)];
    for (k, name) in all.iter().enumerate() {
        let mut others = all.clone();
        others.remove(k);
        texts.push(with_names(others, &[name.clone()]));
        let mut twice = all.clone();
        twice.insert([all.len(), 0, k][k % 3], name.clone());
        texts.push(with_names(twice, &[]));
        texts.push(with_names(vec![name.clone(), "c".to_string(), name.clone()], &[]));
    }
    for name in [1, 2, 15, 16, 17, 18, 33].map(|n| "x".repeat(n)) {
        texts.push(with_names(vec![name.clone()], &[name.clone()]));
        texts.push(with_names(vec!["x".to_string()], &[name]));
    }
    for byte in "/0189:@AZ[`abyz{-,._~".chars() {
        texts.extend([format!("{byte}"), format!("a{byte}")].map(|name| with_names(vec![name.clone()], &[name])));
    }
    texts
}

/// A step's name with bytes 0 behind it, up to one over the bound: it is no name, though it looks like a shorter one that is padded.
fn ended_by_zero() -> Vec<String> {
    let padded = |n: usize| (1..=17 - n).map(move |zeros| ("x".repeat(n), "\0".repeat(zeros)));
    (1..=16).flat_map(padded).map(|(name, end)| with_names(vec![name.clone()], &[name.clone() + &end, name])).collect()
}

/// What stands in TINY for one of its lines, parted by bars: no bytes at first, then what breaks the form otherwise
/// than by one byte, then two faults on one line or on two.
const FOR_STATES: &str = "|()|(states)|(states )|(states 3 4)|(states (3))|(states three)|(State 3)|(states 3\0)|\
    (states 3)\r|(states\t3)|(states 3) |(states 3)(events)|(states 3)\n(states 3)|(events a b-1)\n(states 3)|\
    \u{feff}(states 3)|(states 0|(states 257 )|(states 0 0)|(states 0)\n|(states 300)\n()|(states 3 start)|\
    (states 3 start )|(states 3  start 2)|(states  3 start 2)|(states 3 start  2)|(states 3 start 2 )|(states start 2)|\
    (states 3 start 2 2)|(states 3 start 2 start 2)|(states 3 Start 2)|(states 3 START 2)|(states 3 stop 2)|\
    (states 3 star 2)|(states 3 starts 2)|(states 3 start2)|(states 3start 2)|(states 3 2 start)|(start 2 states 3)|\
    (start 2)|(states 3 start two)|(states 3 start 02)|(states 3 start -1)|(states 3 start 1000)|(states 3 start 2\0)|\
    (states 3\0start 2)|(states 3\tstart 2)|(states 3 start\t2)|(states 3 (start 2))|(states 3) (start 2)|\
    (states 3)(start 2)|(states 3)\n(start 2)|(states 3 start 2)\r|(states 3 start 2) |(states 3 start 2)(events)|\
    (states 3 start 2)\n(states 3)|(states 03 start 2)|(states 1000 start 2)|(states 3 start 0)|(states 3 start 2)|\
    (states 3 start 3)|(states 3 start 3|(states 3 start 3 )|(states 3 start 3)\n()|(states 0 start 0)|\
    (states 0 start 00)|(states 257 start 256)|(states 257 start 300)|(states 257 start 300|(states 257 start 1000)";
const FOR_EVENTS: &str = "|()|(events )|(event a)|(events a\tb)|(events a  b)|(events a,b)|(events A)|(events aB)|\
    (events 1a)|(events -a)|(events a_b)|(events (a))|(events a\0)|(events a)\r|(events a) (events b)|\
    (events a)\n(events b)|(events a a|(events a a )|(events a a B)|(events a b a)\n(step 0 a)|(events)\n(step 0 a 0)";
const FOR_STEP: &str = "|()|(step)|(step 0)|(step 0 a)|(step 0 a 1 2)|(step a 0 1)|(step 0 1 a)|(step 0 a  1)|\
    (step 0  a 1)|(step  0 a 1)|(step 0 a\t1)|(step 0 a 1) |(step 0 A 1)|(step 0 1 1)|(step 0 -a 1)|(step 0 a\0 1)|\
    (steps 0 a 1)|(step 0 a 1)(step 0 a 1)|(step 0 a 1)\n\n(step 0 a 1)|(step 0 a 1)\r|(states 3)|(events a)|\
    (step 0 c 1)|(step 0 b 1)|(step 3 a 1)|(step 0 a 3)|(step 9 c 9)|(step 9 c 9|(step 9 c 09)|(step 09 c 9)|\
    (step 9 C 9)|(step 9 c 9 9)|(step 1000 c 9)|(step 3 a 1)\n()|(step 0 c 0)\n(step 0 a 3)";
const FOR_MACHINE: &str = "|()|(machine)|(machine )|(machine ())|(machine (0) ())|(machine () (0))|(machine 0)|\
    (machine (0) 1)|(machine 1 (0))|(machine(0))|(machine (0)(1))|(machine  (0))|(machine (0)  (1))|(Machine (0))|\
    (machine (0  1))|(machine (0 1 ))|(machine ( 0 1))|(machine (0\t1))|(machine ((0)))|(machine (0 (1)))|\
    (machine (0) (1)|(machine (0 1)|(machine (0)))|(machine (a))|(machine (0,1))|(machines (0))|(net (0))|\
    (machine 0 (0))|(machine (0\0))|(machine (0))\r|(machine (0))\n\n(machine (0))|(machine (0))\n|\
    (machine (0))\n(step 0 a 1)|(machine (0))\n(states 3)|(machine (0))\n(events)|(machine (0))\n(machine (1)) |\
    (machine (0) (3))|(machine (0 3))|(machine (999))|(machine (9) ())|(machine (9)|(machine (9) (00))|\
    (machine (9) (1000))|(machine (9))\n()|(machine (0))\n(machine (3))\n()|(machine (0))\n(step 9 c 9)";

fn forms() -> Vec<String> {
    let lines = [FOR_STATES, FOR_EVENTS, FOR_STEP, FOR_MACHINE];
    let changed = |(line, others): (&'static str, &'static str)| others.split('|').map(move |o| with(TINY, line, o));
    let ends = ["\r\n", " ", ""].map(|end| TINY.replace('\n', end));
    TINY.lines().zip(lines).flat_map(changed).chain(ends).collect()
}

/// States listed twice: in one place, in two, the lowest last; and states in no place.
fn doubled() -> Vec<String> {
    let lists = "(0 0)|(0) (0)|(2 2 1 1 0 0)|(5 4 3) (3 4 5)|(0 5) (1 5) (2 5)|(5) (5 4) (4 3 3)|(0 1 2 3 4 5 0)|(4)|\
                 (5 5 5 5)|(1) (2) (3) (2) (1)|(5 4 3 2 1 0) (0)|(0) (1 2 3 4 5) (5 1)|(0 1 2) (3 4 5)|(5 3 1) (4 2 0)";
    let alone = lists.split('|').map(|l| format!("(states 6)\n(events)\n(machine {l})\n"));
    let lines: String = lists.split('|').map(|l| format!("(machine {l})\n")).collect();
    alone.chain([format!("(states 6)\n(events)\n{lines}")]).collect()
}

/// Every text that is one byte away, and every beginning.
pub fn nearby(text: &[u8]) -> Vec<Vec<u8>> {
    let mut texts = Vec::new();
    for at in 0..=text.len() {
        let (before, after) = text.split_at(at);
        let rest = after.get(1..).unwrap_or_default();
        texts.extend([before.to_vec(), [before, rest].concat()]);
        for byte in b"\n\xff ()0a" {
            texts.push([before, &[*byte], after].concat());
            texts.push([before, &[*byte], rest].concat());
        }
    }
    texts
}

/// The same where the start stands, in a text that another start changes.
fn near_start() -> Vec<Vec<u8>> {
    let text = y_from(3);
    let (before, after) = text.split_once(" start 3").expect("a start");
    nearby(b" start 3").iter().map(|said| [before.as_bytes(), said, after.as_bytes()].concat()).collect()
}

/// Y up to each of its lines.
fn beginnings() -> Vec<String> {
    let ends = Y.match_indices('\n').map(|(at, _)| at + 1);
    std::iter::once(0).chain(ends).map(|end| Y[..end].to_string()).collect()
}

pub fn all() -> Vec<Vec<u8>> {
    let whole = [beginnings(), figures(), names(), ended_by_zero(), forms(), doubled()].concat();
    whole.into_iter().map(String::into_bytes).chain(nearby(TINY.as_bytes())).chain(near_start()).collect()
}

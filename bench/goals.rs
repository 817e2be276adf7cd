//! What the measured times have to keep to.
use crate::call::{PEER, PROVED, SERVICES};
use crate::cases::{is_for_merging, Case};
use crate::table::Table;
use crate::timing::{median, ratio};

struct Goal {
    what: String,
    most: f64,
    /// For each service that it is about, in the order of `SERVICES`.
    measured: [Option<f64>; SERVICES.len()],
}

impl Goal {
    fn row(self) -> Vec<String> {
        let Goal { what, most, measured } = self;
        let worst = measured.into_iter().flatten().fold(0.0, f64::max);
        let verdict = if worst <= most { "met".to_string() } else { format!("missed by {:.2}", worst - most) };
        let figures = measured.map(|figure| figure.map_or(String::new(), |figure| format!("{figure:.2}")));
        [vec![what, most.to_string()], figures.into(), vec![verdict]].concat()
    }
}

/// On the texts and sheets as they are.
fn of<'a>(cases: &'a [Case], service: &'a str) -> impl Iterator<Item = &'a Case> {
    cases.iter().filter(move |case| case.base.is_none() && case.call.service.word() == service)
}

/// The proved library beside the peer on one text or sheet.
fn to_peer(cases: &[Case], text: &str, most: f64) -> Goal {
    let measured = SERVICES.map(|service| {
        let case = of(cases, service).find(|case| case.name == text)?;
        (!case.ns[PEER].is_empty()).then(|| ratio(&case.ns[PROVED], &case.ns[PEER]))
    });
    Goal { what: format!("proved to peer on {text}"), most, measured }
}

/// Thin beside check, on the text where it takes longest for it.
fn thin_to_check(cases: &[Case]) -> Goal {
    let both = of(cases, "thin").zip(of(cases, "check"));
    let ratios = both.map(|(thin, check)| (ratio(&thin.ns[PROVED], &check.ns[PROVED]), &thin.name));
    let (worst, text) = ratios.max_by(|a, b| a.0.total_cmp(&b.0)).expect("a text");
    Goal {
        what: format!("thin to check on {text}, the worst"),
        most: 1.5,
        measured: SERVICES.map(|service| (service == "thin").then_some(worst)),
    }
}

/// The most ns a byte to the least, over the texts of all sizes.
fn flat(cases: &[Case], series: &str) -> Goal {
    let measured = SERVICES.map(|service| {
        let texts = of(cases, service).filter(|case| case.name.starts_with(series));
        let a_byte: Vec<f64> = texts.map(|case| median(&case.ns[PROVED]) / case.call.text.len() as f64).collect();
        let most = a_byte.iter().copied().fold(0.0, f64::max);
        (!a_byte.is_empty()).then(|| most / a_byte.iter().copied().fold(f64::MAX, f64::min))
    });
    Goal { what: format!("ns/byte, most to least, {series}04k to 32k"), most: 1.5, measured }
}

/// Each text or sheet with names in capitals beside itself in small letters.
fn capitals(cases: &[Case]) -> Vec<Goal> {
    let mut goals: Vec<Goal> = Vec::new();
    for (case, base) in cases.iter().filter_map(|case| Some((case, case.base.as_ref()?))) {
        let what = format!("{} to small letters", case.name);
        if goals.last().is_none_or(|goal| goal.what != what) {
            goals.push(Goal { what, most: 1.2, measured: SERVICES.map(|_| None) });
        }
        let service = case.call.service.word();
        let small = of(cases, service).find(|other| other.name == *base).expect("it in small letters");
        let column = SERVICES.iter().position(|word| *word == service).expect("a service");
        let goal = goals.last_mut().expect("a goal");
        goal.measured[column] = Some(ratio(&case.ns[PROVED], &small.ns[PROVED]));
    }
    goals
}

/// Of the accepted texts and the good sheets.
pub fn goals(cases: &[Case]) -> Table {
    let large = of(cases, "check").filter(|case| case.name.ends_with("-32k"));
    let mut goals: Vec<Goal> = large.map(|case| to_peer(cases, &case.name, 1.5)).collect();
    goals.push(to_peer(cases, "cycle-31k", 1.5));
    let merged = of(cases, "merge").filter(|case| is_for_merging(&case.name));
    goals.extend(merged.map(|case| to_peer(cases, &case.name, 1.5)));
    goals.push(to_peer(cases, "a-y", 2.0));
    goals.push(thin_to_check(cases));
    goals.extend(["machines-", "steps-"].map(|series| flat(cases, series)));
    goals.extend(capitals(cases));
    let head = [vec!["goal", "at most"], SERVICES.to_vec(), vec!["verdict"]].concat();
    Table { head, rows: goals.into_iter().map(Goal::row).collect() }
}

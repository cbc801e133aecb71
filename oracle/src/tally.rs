//! How often each answer came up in a stream, and how often each choice was made.
use std::collections::BTreeMap;

/// How often something came up, and how often of these the case was done.
#[derive(Clone, Copy, Default)]
struct Times {
    all: u64,
    done: u64,
}

#[derive(Default)]
pub struct Tally {
    answers: BTreeMap<u64, u64>,
    choices: BTreeMap<&'static str, Times>,
}

impl Tally {
    pub fn answer(&mut self, answer: u64) {
        *self.answers.entry(answer).or_default() += 1;
    }

    pub fn choices<'a>(&mut self, chosen: impl IntoIterator<Item = &'a &'static str>, done: bool) {
        for name in chosen {
            let times = self.choices.entry(name).or_default();
            times.all += 1;
            times.done += u64::from(done);
        }
    }

    /// What was on offer is told even where it was never made.
    pub fn offered<'a>(&mut self, names: impl IntoIterator<Item = &'a &'static str>) {
        for name in names {
            self.choices.entry(name).or_default();
        }
    }

    pub fn print_answers(&self) {
        let answers: Vec<String> = self.answers.iter().map(|(answer, times)| format!("{answer} {times}")).collect();
        eprintln!("answers: {}", answers.join(", "));
    }

    /// A line for each group of choices: each with its cases, and those of them that were done.
    pub fn print_choices(&self) {
        let mut groups: BTreeMap<&str, Vec<String>> = BTreeMap::new();
        for (name, Times { all, done }) in &self.choices {
            let (group, choice) = name.split_once(": ").expect("a group and a choice");
            groups.entry(group).or_default().push(format!("{choice} {all}/{done}"));
        }
        for (group, choices) in groups {
            eprintln!("{group}: {}", choices.join(", "));
        }
    }
}

//! What the calls did: the counts that the program is to print.
#[derive(Clone, Copy)]
pub enum Kind {
    Created,
    Inserted,
    Undividable,
    Stamped,
    NothingStamped,
    Removed,
    NothingRemoved,
    Vacuumed,
    NothingVacuumed,
    Told,
    Case,
}

const WORDS: [&str; 10] = [
    "histories",
    "versions inserted",
    "versions that no division has room for",
    "versions stamped",
    "stamps that find nothing",
    "removals",
    "removals that find nothing",
    "vacuums that drop versions",
    "vacuums that drop none",
    "pages recorded",
];

pub struct Tally([usize; 11]);

impl Tally {
    pub fn new() -> Self {
        Tally([0; 11])
    }

    pub fn note(&mut self, kind: Kind) {
        self.0[kind as usize] += 1;
    }

    pub fn note_either(&mut self, test: bool, yes: Kind, no: Kind) {
        self.note(if test { yes } else { no });
    }

    pub fn text(&self) -> String {
        let line = |(n, what): (&usize, &str)| format!("{n} {what}\n");
        let lines: String = self.0.iter().zip(WORDS).map(line).collect();
        format!(
            "{lines}0 faults\n{} cases, 0 differ\n",
            self.0[Kind::Case as usize]
        )
    }
}

//! A system and a reference side by side, each with a copy of everything that is lent.

use crate::call::{answer_text, Call, Kind};
use crate::guarded::Guarded;
use crate::rng::Rng;
use crate::space::Space;
use reference::Reference;

/// What is lent in a call.
pub struct Desk {
    pub space: Guarded,
    input: Guarded,
    pub result: Guarded,
}

impl Desk {
    pub fn new() -> Desk {
        Desk {
            space: Guarded::new(),
            input: Guarded::new(),
            result: Guarded::new(),
        }
    }

    pub fn lay_out(&mut self, call: &Call, result: &[u64]) {
        self.input.set(call.input());
        self.result.set(result);
    }

    pub fn make(&mut self, call: &Call, system: &mut dyn Space) -> u32 {
        call.make(
            system,
            self.space.lent_mut(),
            self.input.lent(),
            self.result.lent_mut(),
        )
    }

    /// Of the space from these words.
    pub fn differences_from(&self, space: &[u64], what: &str) -> Vec<String> {
        let mut due = Guarded::new();
        due.set(space);
        self.space.differences(&due, what)
    }

    fn differences(&self, other: &Desk) -> Vec<String> {
        let mut all = self.space.differences(&other.space, "space");
        all.extend(self.result.differences(&other.result, "result"));
        all.extend(self.input.differences(&other.input, "fields or roster"));
        all
    }
}

/// A system, and the reference of today's rules or of others.
pub struct Both<'a> {
    system: &'a mut dyn Space,
    pub reference: Reference,
    pub systems: Desk,
    pub references: Desk,
}

impl<'a> Both<'a> {
    pub fn new(system: &'a mut dyn Space, reference: Reference) -> Both<'a> {
        Both {
            system,
            reference,
            systems: Desk::new(),
            references: Desk::new(),
        }
    }

    /// Lends both this space from now on.
    pub fn set_space(&mut self, words: &[u64]) {
        self.systems.space.set(words);
        self.references.space.set(words);
    }

    /// The reference's space as it is.
    pub fn space(&self) -> &[u64] {
        self.references.space.lent()
    }

    /// Makes the call of both, which may be worded otherwise for the reference. Gives the system's
    /// answer and the reference's.
    pub fn make(&mut self, systems: &Call, references: &Call, rng: &mut Rng) -> [u32; 2] {
        let result: Vec<u64> = (0..systems.result_len()).map(|_| rng.word()).collect();
        self.systems.lay_out(systems, &result);
        self.references.lay_out(references, &result);
        let code = self.references.make(references, &mut self.reference);
        [self.systems.make(systems, self.system), code]
    }

    /// Makes the call of both and compares all words. Gives the system's answer if the two answers
    /// are such, or what differs.
    pub fn call(
        &mut self,
        systems: &Call,
        references: &Call,
        rng: &mut Rng,
        such: impl Fn([u32; 2]) -> bool,
    ) -> Result<u32, String> {
        let looked_at = (systems.kind() == Kind::LOOK).then(|| self.systems.space.clone());
        let answers = self.make(systems, references, rng);
        // What the system was lent only to be read has to be as it was.
        self.references.input.set(systems.input());
        let mut differences = self.systems.differences(&self.references);
        // A look is held against the words themselves, whatever the reference makes of them.
        differences.extend(looked_at.iter().flat_map(|words| {
            let after = &self.systems.space;
            after.differences(words, "space looked at")
        }));
        match such(answers) && differences.is_empty() {
            true => Ok(answers[0]),
            false => Err(difference_text(systems, answers, &differences)),
        }
    }
}

/// Two answers that are to be the same.
pub fn same([systems, references]: [u32; 2]) -> bool {
    systems == references
}

pub fn difference_text(call: &Call, answers: [u32; 2], differences: &[String]) -> String {
    let [systems, references] = answers.map(|code| answer_text(call.kind(), code));
    let mut text = format!("{call:?}\n    answers: {systems} against the reference's {references}");
    for difference in differences {
        text.push_str("\n    ");
        text.push_str(difference);
    }
    text
}

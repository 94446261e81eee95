//! The proved library and the twin, held to what is expected.

use compare::duo::Duo;
use compare::side::{Proved, Twin};
use model::words::{UnitWords, DONE};

pub struct Held(pub Duo);

impl Held {
    pub fn new() -> Held {
        Held(Duo::new(Box::new(Proved), Box::new(Twin)))
    }

    /// Both sides did the same.
    #[track_caller]
    pub fn same(&self) {
        if let Some(fault) = self.0.fault() {
            panic!("{fault}");
        }
    }

    #[track_caller]
    pub fn reads(&mut self, offset: u16, value: u32) {
        let told = self.0.read(offset);
        self.same();
        assert_eq!(told, (DONE, value), "read of {offset:03X}");
    }

    #[track_caller]
    pub fn read_refused(&mut self, offset: u16, refusal: u32) {
        let (answer, _) = self.0.read(offset);
        self.same();
        assert_eq!(answer, refusal, "read of {offset:03X}");
    }

    #[track_caller]
    pub fn writes(&mut self, offset: u16, value: u16, answer: u32) {
        let told = self.0.write(offset, value);
        self.same();
        assert_eq!(told, answer, "write to {offset:03X}");
    }

    #[track_caller]
    pub fn feeds(&mut self, bytes: &[u8], answer: u32) {
        let told = self.0.feed(bytes);
        self.same();
        assert_eq!(told, answer);
    }

    /// A look shows the unit.
    #[track_caller]
    pub fn shows(&mut self, unit: UnitWords) {
        let (answer, told, _) = self.0.look();
        self.same();
        assert_eq!((answer, told), (DONE, unit));
    }

    /// A look shows the unit, and a take does it.
    #[track_caller]
    pub fn takes(&mut self, unit: UnitWords) {
        self.shows(unit);
        let (answer, told, _) = self.0.take();
        self.same();
        assert_eq!((answer, told), (DONE, unit));
    }

    /// A look and a take are refused.
    #[track_caller]
    pub fn unit_refused(&mut self, refusal: u32) {
        for (answer, _, _) in [self.0.look(), self.0.take()] {
            self.same();
            assert_eq!(answer, refusal);
        }
    }

    #[track_caller]
    pub fn runs(&mut self, limit: u32, answer: u32, report: [u32; 2]) {
        let told = self.0.run(limit);
        self.same();
        assert_eq!(told, (answer, report));
    }

    #[track_caller]
    pub fn holds(&self, index: usize, value: u32) {
        assert_eq!(self.0.world().state[index], value, "state word {index}");
    }
}

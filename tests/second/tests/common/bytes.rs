//! The bytes of recorded calls, read back.

use second::groups::{Bound, Sort};
use second::notice::Notice;
use second::plan::{set_of, Plan};
use second::step::{Record, Row, State};

/// Bytes that are read from the front.
pub struct Bytes<'a>(pub &'a [u8]);

impl Bytes<'_> {
    pub fn byte(&mut self) -> u8 {
        let (first, rest) = self.0.split_first().expect("a byte");
        self.0 = rest;
        *first
    }

    pub fn pair(&mut self) -> u16 {
        u16::from(self.byte()) * 256 + u16::from(self.byte())
    }

    pub fn quad(&mut self) -> u32 {
        u32::from(self.pair()) * 65_536 + u32::from(self.pair())
    }

    pub fn bound(&mut self) -> Bound {
        let sort = [Sort::Number, Sort::Groups][usize::from(self.byte())];
        let mut bound = Bound::f(u32::from(self.byte()));
        bound.sort = sort;
        let places = u32::from(self.byte());
        assert!(places <= 16);
        (0..places).for_each(|place| bound.put(place, set_of(self.quad())));
        assert_eq!(
            bound.used(),
            places,
            "the last place that is given is not 0"
        );
        bound
    }

    pub fn row(&mut self) -> Row {
        let mut row = Row::of(self.pair(), &[]);
        row.count = u32::from(self.byte());
        let places = u32::from(self.byte());
        assert!(places <= 40);
        (0..places).for_each(|place| row.put(place, self.pair()));
        assert_eq!(row.used(), places, "the last place that is given is not 0");
        row
    }

    /// Notices, after how many they are in two bytes.
    pub fn later(&mut self) -> Vec<u32> {
        (0..self.pair()).map(|_| self.quad()).collect()
    }

    pub fn record(&mut self) -> Record {
        let (state, at, held) = (self.byte(), u32::from(self.byte()), self.quad());
        assert!(state == 1 || (state, at, held) == (0, 0, 0));
        Record {
            state: [State::Waiting, State::Taken(at, Notice::of(held))][usize::from(state)],
            round: u32::from(self.byte()),
            notes: (0..20).map(|_| self.row()).collect(),
            ..Record::waiting()
        }
    }

    pub fn skip(&mut self, count: usize) {
        self.0 = &self.0[count..];
    }

    /// A plan as a call's body has it.
    pub fn plan(&mut self) -> Plan {
        let [n, source] = [(); 2].map(|()| u32::from(self.byte()));
        let mut plan = Plan::with(n, source, self.bound());
        for hearer in 0..20 {
            let heard = set_of(self.quad());
            plan.links
                .extend(heard.iter().map(|&sender| (sender, hearer)));
        }
        plan
    }
}

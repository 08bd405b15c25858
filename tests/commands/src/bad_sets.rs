//! Margins, and the greatest bound, by the words of the requests (document 02, P1 and P13): every set
//! of terminals is tried, and every bound.

use std::collections::BTreeMap;

/// A plan with a bound, by its frames.
#[derive(Clone)]
pub struct Site {
    terminals: u8,
    pub source: u8,
    bound: u32,
    /// By hearer, whom it hears as a number whose bit j is terminal j.
    hears: BTreeMap<u8, u32>,
}

/// A sender and a hearer.
pub type Link = (u8, u8);

/// None where the drawing fails for 0, which counts as one step below it.
pub type Greatest = Option<u32>;

/// None where the terminal hears the source.
pub type Margins = BTreeMap<u8, Option<i32>>;

fn has(set: u32, terminal: u8) -> bool {
    set >> terminal & 1 == 1
}

impl Site {
    pub fn of(frames: &str) -> Site {
        let byte = |line: &str, at: usize| u8::from_str_radix(&line[2 * at..2 * at + 2], 16);
        let byte = |line: &str, at: usize| byte(line, at).expect("a byte");
        let mut lines = frames.lines();
        let head = lines.next().expect("a head");
        let mut site = Site {
            terminals: byte(head, 1),
            source: byte(head, 2),
            bound: byte(head, 3).into(),
            hears: BTreeMap::new(),
        };
        for link in lines {
            *site.hears.entry(byte(link, 2)).or_default() |= 1 << byte(link, 1);
        }
        site
    }

    fn heard_of(&self, terminal: u8, set: u32) -> u32 {
        let hears = self.hears.get(&terminal).copied().unwrap_or(0);
        (hears & set).count_ones()
    }

    fn is_direct(&self, terminal: u8) -> bool {
        self.heard_of(terminal, 1 << self.source) == 1
    }

    /// The source is good, and no good terminal hears more than the bound.
    fn may_be_bad(&self, set: u32) -> bool {
        let good = |one: &u8| !has(set, *one);
        good(&self.source)
            && (0..self.terminals)
                .filter(good)
                .all(|one| self.heard_of(one, set) <= self.bound)
    }

    /// L: the source, and one by one every good terminal that hears it, or more of L than the bound.
    fn reached(&self, bad: u32) -> u32 {
        let mut reached = 1 << self.source;
        loop {
            let joins = |one: &u8| {
                let enough = self.is_direct(*one) || self.heard_of(*one, reached) > self.bound;
                enough && !has(reached | bad, *one)
            };
            match (0..self.terminals).find(joins) {
                Some(next) => reached |= 1 << next,
                None => return reached,
            }
        }
    }

    pub fn margins(&self) -> Margins {
        let others = (0..self.terminals).filter(|one| *one != self.source);
        let mut margins: Margins = others
            .map(|one| (one, (!self.is_direct(one)).then_some(i32::MAX)))
            .collect();
        for bad in (0..1 << self.terminals).filter(|set| self.may_be_bad(*set)) {
            let reached = self.reached(bad);
            for (terminal, margin) in margins.iter_mut().filter(|(one, _)| !has(bad, **one)) {
                let heard = self.heard_of(*terminal, reached) as i32;
                let here = heard - (self.bound as i32 + 1);
                *margin = margin.map(|least| least.min(here));
            }
        }
        margins
    }

    /// As `margins` prints them.
    pub fn table(&self) -> String {
        let margins = self.margins();
        let mut table = String::new();
        for (terminal, margin) in &margins {
            let word = margin.map_or("direct".to_string(), |margin| margin.to_string());
            table += &format!("{terminal} {word}\n");
        }
        let count =
            |is: fn(i32) -> bool| margins.values().flatten().filter(|one| is(**one)).count();
        let direct = margins.values().filter(|one| one.is_none()).count();
        let (below, at, above) = (
            count(|one| one < 0),
            count(|one| one == 0),
            count(|one| one > 0),
        );
        table + &format!("{direct} {below} {at} {above}\n")
    }

    fn passes(&self) -> bool {
        let all = (1 << self.terminals) - 1;
        (0..=all)
            .filter(|set| self.may_be_bad(*set))
            .all(|bad| self.reached(bad) | bad == all)
    }

    /// From above, so that nothing is taken for granted of the smaller ones.
    pub fn greatest(&self) -> Greatest {
        let mut bounds = (0..u32::from(self.terminals)).rev();
        bounds.find(|bound| {
            let bound = *bound;
            Site {
                bound,
                ..self.clone()
            }
            .passes()
        })
    }

    /// What is left of it without each link, by sender and then by hearer.
    pub fn without_links(&self) -> Vec<(Link, Greatest)> {
        let all =
            (0..self.terminals).flat_map(|from| (0..self.terminals).map(move |to| (from, to)));
        all.filter(|(from, to)| self.heard_of(*to, 1 << from) == 1)
            .map(|(from, to)| {
                let mut site = self.clone();
                site.hears.insert(to, self.hears[&to] & !(1 << from));
                ((from, to), site.greatest())
            })
            .collect()
    }

    /// As `explain` tells of the greatest bound and the margins, of a file without names.
    pub fn told(&self) -> String {
        greatest_told(self.greatest()) + &self.margins_told()
    }

    fn margins_told(&self) -> String {
        let margins = self.margins();
        let mut rows: Vec<(i32, u8)> = margins
            .iter()
            .filter_map(|(terminal, margin)| Some(((*margin)?, *terminal)))
            .collect();
        if rows.is_empty() {
            return format!("{ALL_DIRECT}\n");
        }
        rows.sort_unstable();
        let rows = rows.iter().map(|(margin, terminal)| match margin {
            ..=-1 => format!("terminal {terminal}: {margin}, can be kept waiting\n"),
            0 => format!("terminal {terminal}: 0, just enough\n"),
            more => format!("terminal {terminal}: {more}, {more} more than it needs\n"),
        });
        let direct = margins.iter().filter(|(_, margin)| margin.is_none());
        let direct: Vec<String> = direct.map(|(terminal, _)| terminal.to_string()).collect();
        let last = match direct.is_empty() {
            true => String::new(),
            false => format!("hear the source (direct): {}\n", direct.join(", ")),
        };
        heading(self.bound + 1) + &rows.collect::<String>() + &last
    }
}

pub fn greatest_told(greatest: Greatest) -> String {
    match greatest {
        Some(bound) => format!("the greatest bound for which this drawing passes is {bound}\n"),
        None => "this drawing fails for every bound, even for 0\n".into(),
    }
}

pub const ALL_DIRECT: &str = "margins: none, since every terminal hears the source (direct)";

pub fn heading(needed: u32) -> String {
    format!("margins, thinnest first (reached neighbours heard, less the {needed} needed, at the worst bad set):\n")
}

//! A plan of frames, as far as an encoding needs it. Its files are those that `verdict` accepts.

pub struct Plan {
    pub n: usize,
    pub source: usize,
    pub bound: usize,
    /// heard[b]: the terminals that b hears.
    pub heard: Vec<Vec<usize>>,
}

impl Plan {
    pub fn read(text: &[u8]) -> Plan {
        let text = String::from_utf8_lossy(text);
        let mut lines = text.lines().map(bytes);
        let head = lines.next().expect("a head");
        let mut heard = vec![Vec::new(); head[1]];
        for link in lines {
            heard[link[2]].push(link[1]);
        }
        Plan {
            n: head[1],
            source: head[2],
            bound: head[3],
            heard,
        }
    }

    pub fn hears_source(&self, terminal: usize) -> bool {
        self.heard[terminal].contains(&self.source)
    }
}

fn bytes(line: &str) -> Vec<usize> {
    let pairs = (0..line.len()).step_by(2).map(|at| &line[at..at + 2]);
    pairs
        .map(|pair| usize::from_str_radix(pair, 16).expect("two digits"))
        .collect()
}

/// The least set that defeats a plan, as a number; nothing where the plan passes.
pub type Witness = Option<u32>;

/// What the frame of a verdict says: 81, 00 or 01, F, L, R.
pub fn witness_of(frame: &str) -> Witness {
    let failed = &frame[2..4] == "01";
    failed.then(|| u32::from_str_radix(&frame[4..10], 16).expect("a set"))
}

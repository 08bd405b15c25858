//! Elements of a picture, read from its text: as much of XML as the picture uses.

use std::collections::BTreeMap;

pub struct Element {
    pub tag: String,
    pub attributes: BTreeMap<String, String>,
    /// The text up to the next tag.
    pub text: String,
    /// The index of the group that it stands in.
    pub group: Option<usize>,
}

impl Element {
    pub fn get(&self, name: &str) -> &str {
        self.attributes.get(name).map_or("", String::as_str)
    }

    pub fn number(&self, name: &str) -> f64 {
        self.get(name).parse().unwrap_or(f64::NAN)
    }

    pub fn is(&self, class: &str) -> bool {
        self.get("class").split(' ').next() == Some(class)
    }

    /// The corners of a polygon.
    pub fn corners(&self) -> Vec<(f64, f64)> {
        let pair = |corner: &str| {
            let (x, y) = corner.split_once(',')?;
            Some((x.parse().ok()?, y.parse().ok()?))
        };
        self.get("points").split(' ').filter_map(pair).collect()
    }
}

/// All elements in their order. Tags must be closed in the right order.
pub fn elements(svg: &str) -> Option<Vec<Element>> {
    let mut all: Vec<Element> = Vec::new();
    let mut open: Vec<usize> = Vec::new();
    for part in svg.split('<').skip(1) {
        let (tag, text) = part.split_once('>')?;
        if let Some(closed) = tag.strip_prefix('/') {
            let last = open.pop()?;
            if all[last].tag != closed {
                return None;
            }
            continue;
        }
        let group = open.last().copied().filter(|&at| all[at].tag == "g");
        let (name, rest) = tag.split_once(' ').unwrap_or((tag, ""));
        all.push(Element {
            tag: name.to_string(),
            attributes: attributes(rest.trim_end_matches('/')),
            text: text.trim_end().to_string(),
            group,
        });
        if !tag.ends_with('/') {
            open.push(all.len() - 1);
        }
    }
    open.is_empty().then_some(all)
}

fn attributes(text: &str) -> BTreeMap<String, String> {
    let mut all = BTreeMap::new();
    let mut rest = text;
    while let Some((name, after)) = rest.split_once("=\"") {
        let Some((value, more)) = after.split_once('"') else {
            break;
        };
        all.insert(name.trim().to_string(), value.to_string());
        rest = more;
    }
    all
}

//! Random trees: legal ones as flags, and ones that break a rule as rows.

use h266::{Allowed, Node, Params, Settings, Split};

use crate::Rng;

/// What kind of tree to grow.
#[derive(Clone, Copy, Debug, PartialEq, Eq)]
pub enum Style {
    /// Few splits.
    Shallow,
    /// Nearly every node is split that may be.
    Deep,
    /// Each node decides for itself.
    Mixed,
    /// Splits become rarer with depth.
    Fading,
    /// Every node is split, into four or two parts, so that the smallest blocks remain.
    Smallest,
}

impl Style {
    /// The styles for tests.
    pub const ALL: [Self; 5] =
        [Self::Shallow, Self::Deep, Self::Mixed, Self::Fading, Self::Smallest];

    /// How likely a node is split that need not be, in percent.
    fn percent(self, node: &Node) -> usize {
        match self {
            Self::Shallow => 25,
            Self::Deep => 93,
            Self::Mixed => 60,
            Self::Fading => {
                95_usize.saturating_sub(12 * (node.cqt_depth + node.mtt_depth) as usize)
            }
            Self::Smallest => 100,
        }
    }

    /// May this style split a node so?
    fn uses(self, split: Split) -> bool {
        self != Self::Smallest || !matches!(split, Split::TtHor | Split::TtVer)
    }
}

/// The flags of a random tree of this unit.
///
/// # Panics
///
/// Where the settings are refused or there is no such unit.
pub fn flags(settings: &Settings, address: u64, rng: &mut Rng, style: Style) -> Vec<u8> {
    let params = Params::new(settings).expect("valid settings");
    let root = params.root(address).expect("a unit of the picture");
    let mut flags = Vec::new();
    grow(&params, &root, rng, style, &mut flags);
    flags
}

/// Decides a node, writes its flags and goes on with its parts.
fn grow(params: &Params, node: &Node, rng: &mut Rng, style: Style, flags: &mut Vec<u8>) {
    let allowed = Allowed::of(params, node);
    let inside = params.inside(node);
    let choices = choices(&allowed, style);
    let split = !inside || (!choices.is_empty() && rng.percent(style.percent(node)));
    if inside && allowed.any() {
        flags.push(u8::from(split));
    }
    if !split {
        return;
    }
    let split = rng.pick(&choices);
    say(&allowed, split, flags);
    for part in node.parts(params, split).iter().flatten() {
        grow(params, part, rng, style, flags);
    }
}

/// The splits to choose from.
fn choices(allowed: &Allowed, style: Style) -> Vec<Split> {
    Split::ALL.into_iter().filter(|&split| allowed.has(split) && style.uses(split)).collect()
}

/// The flags that name a split among those allowed.
fn say(allowed: &Allowed, split: Split, flags: &mut Vec<u8>) {
    let horizontal = allowed.bt_hor || allowed.tt_hor;
    let vertical = allowed.bt_ver || allowed.tt_ver;
    if allowed.qt && (horizontal || vertical) {
        flags.push(u8::from(split == Split::Qt));
    }
    if split == Split::Qt {
        return;
    }
    if horizontal && vertical {
        flags.push(u8::from(matches!(split, Split::BtVer | Split::TtVer)));
    }
    let binary = u8::from(matches!(split, Split::BtHor | Split::BtVer));
    match split {
        Split::BtHor | Split::TtHor if allowed.bt_hor && allowed.tt_hor => flags.push(binary),
        Split::BtVer | Split::TtVer if allowed.bt_ver && allowed.tt_ver => flags.push(binary),
        _ => {}
    }
}

/// The rows of a tree of this unit that breaks the rules at some nodes: a split that is not open,
/// or none over an edge. By chance the tree may be legal.
///
/// # Panics
///
/// Where the settings are refused or there is no such unit.
pub fn lawless_rows(settings: &Settings, address: u64, rng: &mut Rng) -> Vec<u8> {
    let params = Params::new(settings).expect("valid settings");
    let root = params.root(address).expect("a unit of the picture");
    let style = rng.pick(&[Style::Shallow, Style::Mixed, Style::Fading]);
    let mut rows = Vec::new();
    stray(&params, &root, rng, style, &mut rows);
    rows
}

/// Decides a node, sometimes against the rules, and writes the rows below it.
fn stray(params: &Params, node: &Node, rng: &mut Rng, style: Style, rows: &mut Vec<u8>) {
    let allowed = Allowed::of(params, node);
    let lawless = rng.percent(25);
    let mut choices = choices(&allowed, style);
    if lawless {
        choices = Split::ALL.into_iter().filter(|&split| has_room(node, split)).collect();
    }
    let bound = !params.inside(node) && !lawless;
    let split = bound || rng.percent(style.percent(node));
    if !split || choices.is_empty() {
        rows.extend(node.row().to_bytes());
        return;
    }
    let split = rng.pick(&choices);
    for part in node.parts(params, split).iter().flatten() {
        stray(params, part, rng, style, rows);
    }
}

/// Would all parts have sides of 4 at least?
fn has_room(node: &Node, split: Split) -> bool {
    let (width, height) = (node.cb_width, node.cb_height);
    match split {
        Split::Qt => width >= 8 && height >= 8,
        Split::BtHor => height >= 8,
        Split::BtVer => width >= 8,
        Split::TtHor => height >= 16,
        Split::TtVer => width >= 16,
    }
}

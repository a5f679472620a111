//! Looks for broken tables that keep the engine's search busy.
//!
//! What the search does depends on the rows up to the one where the table stops, and those before it
//! are the beginning of a tree's table. So a table is that of a tree with one fault. Tree and fault
//! are changed at random; a change is kept where the model of the search then enters more nodes, and
//! in the beginning also where it enters a few less.

mod fault;
mod model;

use std::time::{Duration, Instant};

use h266::check::unit_root;
use h266::{Node, Params, Settings};
use samples::{hardest, settings, Rng, Tree};

use fault::Fault;

/// How long one climb takes; then other settings have their turn.
const CLIMB: Duration = Duration::from_secs(60);

/// By how much of the count a kept change may lower it in the beginning.
const SLACK: f64 = 0.02;

/// Climbs for so many seconds, in turn under the settings of the hardest table known and under
/// random ones, and prints what is found. Nothing where the arguments are no numbers.
pub fn run(seconds: &str, seed: &str) -> Option<()> {
    let end = Instant::now() + Duration::from_secs(seconds.parse().ok()?);
    let mut rng = Rng::new(seed.parse().ok()?);
    let known = Unit::of(&hardest::SETTINGS);
    let rows = h266::rows(&hardest::rows()).collect::<Vec<_>>();
    println!("known: {} nodes", model::visits(&known.params, &known.root, &rows));
    for known in [true, false].into_iter().cycle().take_while(|_| Instant::now() < end) {
        let random = settings::valid_with_ctu(&mut rng, 128);
        climb(&mut rng, if known { &hardest::SETTINGS } else { &random });
    }
    Some(())
}

/// A tree, and what breaks its table.
#[derive(Clone)]
struct Broken {
    tree: Tree,
    fault: Fault,
}

/// Climbs from a random tree and prints the worst that was met.
fn climb(rng: &mut Rng, settings: &Settings) {
    let unit = Unit::of(settings);
    let tree = Tree::grow(&unit.params, &unit.root, rng, 0);
    let mut broken = Broken { tree, fault: Fault::LAST };
    let mut visits = unit.visits(&broken);
    let mut worst = (visits, broken.clone());
    let start = Instant::now();
    while start.elapsed() < CLIMB {
        let left = 1.0 - start.elapsed().as_secs_f64() / CLIMB.as_secs_f64();
        let slack = SLACK * left * left * (rng.below(1_000) as f64 / 1_000.0);
        let other = unit.changed(rng, &broken);
        let count = unit.visits(&other);
        if count as f64 >= visits as f64 * (1.0 - slack) {
            (broken, visits) = (other, count);
        }
        if visits > worst.0 {
            worst = (visits, broken.clone());
        }
    }
    let (visits, Broken { tree, fault }) = worst;
    println!("{visits} nodes: {settings:?}, {fault:?}, flags {}", unit.flags(settings, &tree));
}

/// The unit at the address 0.
struct Unit {
    params: Params,
    root: Node,
}

impl Unit {
    fn of(settings: &Settings) -> Self {
        let (params, root) = unit_root(settings, 0).expect("valid settings");
        Self { params, root }
    }

    /// How many nodes the search enters for a broken table.
    fn visits(&self, broken: &Broken) -> usize {
        let mut rows = Vec::new();
        broken.tree.rows(&self.params, &self.root, &mut rows);
        broken.fault.put(&mut rows);
        model::visits(&self.params, &self.root, &rows)
    }

    /// The same with another fault, with one node changed, or with the tree of one at all nodes of
    /// its size.
    fn changed(&self, rng: &mut Rng, broken: &Broken) -> Broken {
        let Self { params, root } = self;
        let Broken { mut tree, fault } = broken.clone();
        let (kind, place) = (rng.below(20), rng.below(tree.nodes()));
        if kind == 0 {
            return Broken { tree, fault: Fault::draw(rng) };
        }
        if kind < 12 {
            tree.regrow(params, root, place, rng);
        } else {
            let from = rng.below(tree.nodes());
            let (copied, size) = tree.at(params, root, from);
            let only = (kind < 18).then_some(place);
            tree.put(params, root, &size, &copied, only);
        }
        Broken { tree, fault }
    }

    /// The flags of a tree, as digits.
    fn flags(&self, settings: &Settings, tree: &Tree) -> String {
        let mut flags = [0; 8_192];
        let table = tree.table(&self.params, &self.root);
        let (number, count) = h266::write_flags(settings, 0, &table, &mut flags);
        assert_eq!(number, 0, "a legal tree");
        flags[..count as usize].iter().map(|flag| char::from(b'0' + flag)).collect()
    }
}

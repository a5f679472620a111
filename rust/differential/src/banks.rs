//! Random lists of calls on a bank of cameras. Of a coding without banks nothing is called.

use h266::Bank;
use samples::{banks, Rng};

use crate::calls::{room, ROOM};
use crate::ledger::Ledger;
use crate::sessions::{disturbed, legal, small_picture};
use crate::{Coding, Engine, UnitCall};

/// The calls of a list.
const CALLS: usize = 60;

/// A picture being read.
#[derive(Clone, Copy)]
struct Picture<S> {
    settings: S,
    due: u64,
}

impl<S: Coding> Picture<S> {
    fn open(rng: &mut Rng) -> Self {
        Self { settings: small_picture(rng), due: 0 }
    }

    /// The rows of the table that the unit call alone gives, by the second decoder.
    fn rows(&self, call: &UnitCall) -> Option<u64> {
        let [_, second, ..] = S::SIDES else { panic!("a second decoder") };
        let mut due = self.due;
        match (second.unit)(&self.settings, &mut due, call.address, &call.flags, &mut [0; ROOM]) {
            (0, rows) => Some(rows),
            _ => None,
        }
    }
}

/// A bank, a picture of each of its cameras and at least one, and what the laws need.
struct Cameras<S> {
    bank: Bank,
    pictures: Vec<Picture<S>>,
    ledger: Ledger,
}

/// A list of calls on a random bank; mostly it begins with a new period.
pub fn list<S: Coding>(engine: &mut Engine<S>, rng: &mut Rng) {
    if S::BANKS.is_empty() {
        return;
    }
    let bank = banks::bank(rng);
    let pictures = (0..bank.accounts.len().max(1)).map(|_| Picture::open(rng)).collect();
    let mut cameras = Cameras { bank, pictures, ledger: Ledger::default() };
    if rng.percent(80) {
        cameras.new_period(engine);
    }
    for _ in 0..CALLS {
        cameras.call(engine, rng);
    }
}

impl<S: Coding> Cameras<S> {
    /// A random call, or an account overwritten.
    fn call(&mut self, engine: &mut Engine<S>, rng: &mut Rng) {
        match rng.below(100) {
            0..5 => self.new_period(engine),
            5..8 => self.overwrite(rng),
            8..12 => self.forged(engine, rng),
            12..16 => self.without_account(engine, rng),
            _ => self.unit(engine, rng),
        }
    }

    fn new_period(&mut self, engine: &mut Engine<S>) {
        engine.new_period(&mut self.bank);
        self.ledger.new_period(&self.bank);
    }

    fn overwrite(&mut self, rng: &mut Rng) {
        banks::overwrite(rng, &mut self.bank);
        self.ledger.overwritten();
    }

    /// The unit due of a camera, often with something wrong; a complete picture is mostly followed by
    /// another.
    fn unit(&mut self, engine: &mut Engine<S>, rng: &mut Rng) {
        let camera = rng.below(self.pictures.len());
        let mut picture = self.pictures[camera];
        let count = picture.settings.unit_count();
        if picture.due == count && rng.percent(90) {
            picture = Picture::open(rng);
        }
        let call = unit_call(rng, &picture);
        self.grant(engine, rng, camera as u64, &mut picture, &call);
        self.pictures[camera] = picture;
    }

    /// A session that no opening gave: another address due, or broken settings.
    fn forged(&mut self, engine: &mut Engine<S>, rng: &mut Rng) {
        let camera = rng.below(self.pictures.len());
        let mut picture = self.pictures[camera];
        let call = unit_call(rng, &picture);
        let count = picture.settings.unit_count();
        match rng.below(3) {
            0 => picture.settings = S::invalid(rng),
            1 => picture.due = rng.pick(&[count + 1, 1 << 32, u64::MAX]),
            _ => picture.due = rng.draw() % (count + 1),
        }
        self.grant(engine, rng, camera as u64, &mut picture, &call);
    }

    /// A camera past the last account.
    fn without_account(&mut self, engine: &mut Engine<S>, rng: &mut Rng) {
        let mut picture = rng.pick(&self.pictures);
        let call = unit_call(rng, &picture);
        let count = self.bank.accounts.len() as u64;
        let camera = rng.pick(&[count, count + 1, 1 << 32, (1 << 61) + 1, u64::MAX]);
        self.grant(engine, rng, camera, &mut picture, &call);
    }

    /// A grant on all sides, held to the laws.
    fn grant(
        &mut self,
        engine: &mut Engine<S>,
        rng: &mut Rng,
        camera: u64,
        picture: &mut Picture<S>,
        call: &UnitCall,
    ) {
        let (rows, before) = (picture.rows(call), self.bank.clone());
        let Picture { settings, due } = picture;
        let outcome = engine.grant(rng, settings, due, &mut self.bank, camera, call);
        let is_kept = self.ledger.grant(camera, rows, &outcome, [&before, &self.bank]);
        engine.tally.grants.kept += u64::from(is_kept);
    }
}

/// A call for the unit due: legal, with a buffer around the length needed, or with something wrong. Of a
/// complete picture none is legal.
fn unit_call<S: Coding>(rng: &mut Rng, picture: &Picture<S>) -> UnitCall {
    let count = picture.settings.unit_count();
    if picture.due == count {
        return UnitCall { address: count, flags: vec![0], room: ROOM };
    }
    let call = legal(rng, &picture.settings, picture.due);
    match rng.below(10) {
        0 | 1 => disturbed(rng, &call, count),
        2 | 3 => {
            let rows = picture.rows(&call).expect("a legal unit");
            UnitCall { room: room(rng, 8 * rows as usize), ..call }
        }
        _ => call,
    }
}

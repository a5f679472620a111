//! One grant, and one new period, on all sides.

use h266::Bank;
use samples::Rng;

use crate::call::Call;
use crate::coding::BankSide;
use crate::engine::assert_read;
use crate::ledger::{drawn, left, unused};
use crate::{Coding, Engine, Entry, Outcome, UnitCall};

impl<S: Coding> Engine<S> {
    /// A unit call of a camera of a bank, into a buffer of `room` bytes. All sides begin with this address
    /// due and these accounts, and have to end with the same.
    ///
    /// # Panics
    ///
    /// Where the coding has no banks, too.
    pub fn grant(
        &mut self,
        rng: &mut Rng,
        s: &S,
        due: &mut u64,
        bank: &mut Bank,
        camera: u64,
        call: &UnitCall,
    ) -> Outcome {
        let UnitCall { address, flags, room } = call;
        let (before, mut after) = ((*due, bank.clone()), Vec::new());
        let grant = |side: &BankSide<S>, lent: &mut [u8]| {
            let (mut due, mut bank) = before.clone();
            let answer = (side.grant)(&mut bank, camera, s, &mut due, *address, flags, lent);
            after.push((due, bank));
            answer
        };
        let input = || format!("grant {s:?}, due and bank {before:?}, camera {camera}, {call:?}");
        let made = Call { entry: Entry::Grant, size: 8, room: *room };
        let outcome = made.make(&mut self.tally, rng, S::BANKS, grant, input);
        let [engine, second] = &after[..] else { panic!("the engine and a second decoder") };
        assert_eq!(engine, second, "due and bank after {}", input());
        (*due, *bank) = second.clone();
        assert_eq!(*due, before.0 + u64::from(outcome.number == 0), "due after {}", input());
        assert!(
            outcome.number == 0 || *bank == before.1,
            "a refusal changed {bank:?}: {}",
            input()
        );
        self.count_grant(&before.1, bank, camera, &outcome);
        assert_read(s, flags, &outcome);
        outcome
    }

    /// Counts where the rows of a granted table were from, and why 36 was answered.
    fn count_grant(&mut self, before: &Bank, after: &Bank, camera: u64, outcome: &Outcome) {
        let (grants, value) = (&mut self.tally.grants, u128::from(outcome.value));
        if outcome.number == 0 {
            grants.drew += u64::from(drawn(after) > drawn(before));
            grants.needed_share += u64::from(value > left(before));
        }
        if outcome.number == 36 {
            let unused = u128::from(unused(&before.accounts[camera as usize]));
            grants.uncounted += u64::from(unused + left(before) > value);
        }
    }

    /// A new period of a bank.
    ///
    /// # Panics
    ///
    /// Where the coding has no banks, too.
    pub fn new_period(&mut self, bank: &mut Bank) {
        let [engine, second] = S::BANKS else { panic!("the engine and a second decoder") };
        let (before, mut other) = (bank.clone(), bank.clone());
        (second.new_period)(bank);
        (engine.new_period)(&mut other);
        assert_eq!(other, *bank, "after a new period of {before:?}");
        self.tally.count(Entry::NewPeriod, 0);
    }
}

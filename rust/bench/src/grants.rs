//! The grant beside the plain unit call: what the accounts of a bank cost for each unit.

use std::cell::RefCell;

use colwythar::{raw, Account};

use crate::classes::{self, Class, Unit};
use crate::timing::measure;
use crate::work::{Side, Way, Work};

/// The most cameras of a bank here.
const MOST: usize = 8;

/// So much that no unit is refused, until after some four million units of 1,024 rows an account's use
/// can be counted no further.
const LIMIT: u64 = 1 << 40;

thread_local! {
    /// The accounts, as they were left by the call before.
    static ACCOUNTS: RefCell<[Account; MOST]> =
        const { RefCell::new([Account { share: 1 << 20, used: 0 }; MOST]) };
}

/// Prints a line for each class.
pub fn print_table() {
    println!("\nThe unit call of the same units on a session alone, and granted to a camera of a");
    println!("bank of 4 and of 8; the engine, nanoseconds, as above.\n");
    print!("| units | rows | unit call | grant, 4 cameras | grant, 8 cameras |");
    println!(" 4 cameras/unit call | 8 cameras/unit call |");
    println!("|---|--:|--:|--:|--:|--:|--:|");
    for class in classes::all() {
        print_line(&class);
    }
}

fn print_line(class: &Class) {
    let ways = [Way::Unit, Way::Grant4, Way::Grant8];
    let works = ways.map(|way| Work::of(Side::Engine, way).expect("a way of the engine"));
    let [unit, four, eight] = measure(class, works);
    print!("| {} | {:.1} |", class.title, class.mean_rows());
    print!(" {unit:.1} | {four:.1} | {eight:.1} |");
    println!(" {:.2} | {:.2} |", four / unit, eight / unit);
}

/// The unit call of a session in which the unit is due.
pub fn unit(unit: &Unit, lent: &mut [u8]) -> (u64, u64) {
    let mut due = unit.address;
    raw::unit(&unit.settings, &mut due, unit.address, &unit.flags, lent).into()
}

/// The same, granted by a bank of so many cameras to one of them, by the address.
pub fn grant<const CAMERAS: usize>(unit: &Unit, lent: &mut [u8]) -> (u64, u64) {
    let mut due = unit.address;
    ACCOUNTS.with_borrow_mut(|accounts| {
        let camera = unit.address % CAMERAS as u64;
        let claim = raw::Claim { accounts: &mut accounts[..CAMERAS], camera, limit: LIMIT };
        raw::grant(&unit.settings, &mut due, unit.address, &unit.flags, lent, claim).into()
    })
}

//! H.265 beside H.266 without binary and ternary splits: the same trees, where both have the CTU side.

use differential::{Coding, Engine};
use samples::{damage, quads, Rng};

use crate::H266;

/// As many bytes as any unit needs.
const ROOM: usize = 8_192;

/// The picture in H.266: MinCb, MinQt, MaxBt and MaxTt are the smallest side, and M is 0.
fn in_h266(settings: &h265::Settings) -> h266::Settings {
    let [ctu, smallest, width, height] = *settings;
    [ctu, smallest, smallest, 0, smallest, smallest, width, height]
}

/// Settings of a picture that H.266 has, too.
fn shared(rng: &mut Rng) -> h265::Settings {
    loop {
        let settings = h265::Settings::valid(rng);
        if settings[0] > 16 {
            return settings;
        }
    }
}

/// Flags and rows of random trees, damaged or not, and rows of other trees, on all sides of both.
#[test]
fn the_same_answers() {
    let (mut h265, mut h266) = (Engine::<h265::Settings>::default(), H266::default());
    let mut rng = Rng::new(211);
    for _ in 0..5_000 {
        let settings = shared(&mut rng);
        let other = in_h266(&settings);
        let count = settings.unit_count();
        assert_eq!(other.unit_count(), count);
        let address = rng.draw() % count;
        let mut flags = settings.any_flags(address, &mut rng);
        let mut rows = h265.read(&mut rng, &settings, address, &flags, ROOM).written;
        for _ in 0..4 {
            let read = h265.read(&mut rng, &settings, address, &flags, ROOM);
            assert_eq!(read, h266.read(&mut rng, &other, address, &flags, ROOM));
            let stray = quads::lawless_rows(&settings, address, &mut rng);
            for rows in [&rows, &stray] {
                let back = h265.write(&mut rng, &settings, address, rows, ROOM);
                assert_eq!(back, h266.write(&mut rng, &other, address, rows, ROOM), "{rows:?}");
            }
            damage::flags(&mut rng, &mut flags);
            damage::rows(&mut rng, &mut rows);
        }
    }
}

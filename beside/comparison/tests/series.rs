//! Demand 3 tried on the Rust: after any script, prunes at rising clocks leave the ledger that
//! one prune at the last clock leaves, and report the same.

use comparison::coverage::Coverage;
use comparison::random::Random;
use comparison::scripts::{Names, script};
use comparison::series::pair;
use reference::LAST_TIME;

const SEED: u64 = 77;
const SCRIPTS: u64 = 1500;

#[test]
fn rising_prunes_are_the_last_one() {
    let names = Names::all();
    let mut coverage = Coverage::default();
    let mut made = 0;
    for index in 0..SCRIPTS {
        let script = script(SEED, index, &names);
        if script.apart {
            continue;
        }
        let mut random = Random::of(SEED + 1, index);
        let top = random.pick(&[100, 2000, 1 << 41, LAST_TIME]);
        let mut clocks: Vec<u64> = (0..random.between(2, 6))
            .map(|_| random.between(0, top))
            .collect();
        clocks.sort_unstable();
        coverage.run(&pair(&script.text, &clocks), &mut Vec::new());
        made += 1;
        assert_eq!(
            coverage.pairs().equal,
            made,
            "script {index} of seed {SEED}, clocks {clocks:?}"
        );
    }
    let (fell, reported) = (coverage.pairs().fell, coverage.pairs().reported);
    assert!(
        fell > SCRIPTS && reported > SCRIPTS / 4,
        "{fell} fell, {reported} reported"
    );
}

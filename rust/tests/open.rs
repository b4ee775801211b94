//! Opening: the limits, the length and the order of the refusals.

use herd::calls::Opened;
use herd_testing::random::Random;
use herd_testing::suite::{draws, Call, Export, Lent, Reply, Suite};
use herd_testing::words::Opening;

/// Numbers of animals at and beyond the limits, with some whose square wraps in 32 bits.
const ANIMALS: [u32; 10] = [0, 1, 2, 3, 255, 256, 257, 1 << 16, 1 << 31, u32::MAX];
/// Numbers of ticks at and beyond the limits.
const TICKS: [u32; 8] = [0, 1, 2, 1023, 1024, 1025, 1 << 20, u32::MAX];
/// Carry times at and beyond the limits.
const CARRIES: [u32; 8] = [0, 1, 2, 255, 256, 257, 1 << 10, u32::MAX];
/// The most words that a case takes; the largest table has a test of its own.
const MOST: u64 = 1 << 18;

/// The formula's length in wide and in wrapping numbers, one less, one more, and some short lengths.
fn lengths(animals: u32, ticks: u32) -> Vec<usize> {
    let wide = u128::from(animals) * u128::from(animals) * (u128::from(ticks) + 1) + 1;
    let square = animals.wrapping_mul(animals);
    let narrow = square.wrapping_mul(ticks.wrapping_add(1)).wrapping_add(1);
    let mut lengths = vec![0, 1, 2, 113];
    for length in [wide as u64, u64::from(narrow)] {
        if length < MOST && u128::from(length) <= wide {
            let length = length as usize;
            lengths.extend([length.saturating_sub(1), length, length + 1]);
        }
    }
    lengths.sort();
    lengths.dedup();
    lengths
}

#[test]
fn every_combination_at_the_limits() {
    let mut random = Random::new(101);
    let mut suite = Suite::default();
    let filling = random.words(MOST as usize + 1);
    let any = Opening::new(1, 1, 1);
    for animals in ANIMALS {
        for ticks in TICKS {
            for length in lengths(animals, ticks) {
                let lent = Lent::words(any, filling[..length].to_vec());
                for carry in CARRIES {
                    let call = Call::Open(animals, ticks, carry);
                    suite.compare(&lent, &call);
                }
            }
        }
    }
    suite.at_least(40, &[Export::Open], &[1, 2, 3, 4]);
}

#[test]
fn refusals_come_in_order() {
    let mut table = [7; 113];
    let refused = [
        ((0, 0, 0), 1),
        ((257, 0, 0), 1),
        ((4, 0, 0), 2),
        ((4, 1025, 257), 2),
        ((4, 6, 0), 3),
        ((4, 6, 257), 3),
        ((4, 7, 1), 4),
        ((256, 1024, 256), 4),
    ];
    for ((animals, ticks, carry), number) in refused {
        let answer = herd::calls::open(&mut table, animals, ticks, carry);
        assert_eq!(answer, Opened::Refused(number), "{animals} {ticks} {carry}");
        assert_eq!(table, [7; 113]);
        let empty = herd::calls::open(&mut [], animals, ticks, carry);
        assert_eq!(empty, Opened::Refused(number), "{animals} {ticks} {carry}");
    }
    assert_eq!(herd::calls::open(&mut [], 4, 6, 1), Opened::Refused(4));
    assert_eq!(herd::calls::open(&mut table, 4, 6, 1), Opened::Opened);
    assert_eq!(table[..3], [0x800C_0005, 0xC000_0000, 0]);
}

#[test]
fn opening_again_empties_a_table() {
    let mut random = Random::new(102);
    let mut suite = Suite::default();
    for _ in 0..400 {
        let lent = draws::stored(&mut random);
        let call = Call::Open(
            lent.opening.animals,
            lent.opening.ticks,
            random.between(1, 256),
        );
        suite.require(&lent, &call, Reply::Opened);
    }
}

//! plate_binary64 against the machine's division and root and against whole numbers for
//! the inverse root: cargo test --release --test binary64

use plate_tests::calls::binary64 as call;
use plate_tests::chance::Chance;
use plate_tests::formats::{self, Binary64, Unit, OPERATIONS};
use plate_tests::reference::{self, place_of, tables, BINARY64, INVERSE_ROOT, RECIPROCAL, ROOT, TABLES};
use plate_tests::slices::Slices;
use plate_tests::wide::{power, times};
use plate_tests::{vectors, work};

const SAMPLE: u64 = 10_500_000;
const FRACTION: u64 = (1 << 52) - 1;

/// The largest whole number whose square has 53 bits.
const WIDEST: u64 = 94_906_265;

/// A whole number up to it, often a short one.
fn some_root(chance: &mut Chance) -> u64 {
    (chance.range(1, WIDEST as i64) as u64 >> chance.range(0, 25)).max(1)
}

/// Any exponent that a power of two can have.
fn some_exponent(chance: &mut Chance) -> i32 {
    chance.range(BINARY64.least() as i64, BINARY64.top() as i64) as i32
}

/// A positive number with this fraction.
fn with_fraction(chance: &mut Chance, fraction: u64) -> u64 {
    (chance.range(0, 2046) as u64) << 52 | fraction & FRACTION
}

/// A number with the leading 53 bits of n, or one beside it.
fn beside(chance: &mut Chance, n: u128) -> u64 {
    let leading = n << n.leading_zeros() >> (128 - 53);
    with_fraction(chance, leading as u64).wrapping_add_signed(chance.range(-2, 2))
}

/// A pattern of one of eight kinds, by turns; one in eight of most kinds is negative.
fn some_pattern(k: u64) -> u64 {
    let chance = &mut Chance(k);
    let length = chance.range(1, 53) as u32;
    let number = 1 << (length - 1) | chance.next() >> (64 - length);
    let bits = match k % 8 {
        0 => return chance.next(),
        1 => chance.range(0, BINARY64.largest() as i64) as u64,
        // Subnormal, with so many bits or fewer.
        2 => number >> 1,
        // Near a power of two, above or below.
        3 => {
            let power = BINARY64.pattern(1, some_exponent(chance)).unwrap();
            let most = chance.range(1, 26);
            let change = chance.range(0, 1 << most);
            power.wrapping_add_signed(chance.pick(&[change, -change])) & !BINARY64.sign()
        }
        // A square, or beside one.
        4 => {
            let root = some_root(chance);
            let q = (some_exponent(chance) - 52).max(BINARY64.least());
            BINARY64.pattern(root * root, q).unwrap().wrapping_add_signed(chance.range(-1, 1))
        }
        // Next to the square of a number or of the middle between two.
        5 => {
            let root = (1 << 53 | chance.next() >> 11) as u128;
            beside(chance, root * root)
        }
        // Next to the reciprocal of a number of so many bits.
        6 => beside(chance, (1 << 120) / number as u128),
        // Few bits of the fraction set, or few not.
        _ => {
            let few = (0..4).fold(0, |bits, _| bits | 1 << chance.range(0, 51));
            let turned = chance.pick(&[0, FRACTION]);
            with_fraction(chance, few ^ turned)
        }
    };
    if chance.one_in(8) { bits | BINARY64.sign() } else { bits }
}

/// Every sixth time the inverse root too.
#[test]
fn against_the_machine() {
    work::over("patterns", SAMPLE, |part| {
        for k in part {
            let last = if k / 8 % 6 == 0 { INVERSE_ROOT } else { ROOT };
            formats::check::<Binary64>(RECIPROCAL..=last, some_pattern(k));
        }
        0
    });
}

#[test]
fn edges() {
    formats::edges::<Binary64>();
}

#[test]
fn reference_against_the_machine() {
    work::over("reference", SAMPLE / 8, |part| {
        part.for_each(|k| formats::reference_against_the_machine::<Binary64>(some_pattern(!k)));
        0
    });
}

/// The root of an odd square modulo 2^k, that is of a number of the form 8j + 1.
fn root_modulo(square: i128, k: u32) -> i128 {
    let mut root = 1i128;
    for bit in 3..k {
        if (root * root - square) >> bit & 1 == 1 {
            root += 1 << (bit - 1);
        }
    }
    root
}

/// Operands whose roots lie as near to a number, or to the middle of two, as any do: the
/// significand times 2^(52 + p) or 2^(54 + p) is a square but for a few units.
#[test]
fn hard_roots() {
    let mut found = 0;
    for j in -3_000..3_000 {
        for k in 52..56 {
            let root = root_modulo(8 * j + 1, k);
            for n in [root, -root, root + (1 << (k - 1)), (1 << (k - 1)) - root] {
                let n = n.rem_euclid(1 << k);
                let y = (n * n - (8 * j + 1)) >> k;
                assert_eq!((y << k) + 8 * j + 1, n * n);
                if !(1 << 52..1 << 53).contains(&y) {
                    continue;
                }
                found += 1;
                // An even exponent for an even k.
                for exponent in [-1022, -500, 0, 500, 970] {
                    let q = exponent + k as i32 % 2;
                    formats::check::<Binary64>(OPERATIONS, BINARY64.pattern(y as u64, q).unwrap());
                }
            }
        }
    }
    println!("{found} significands");
    assert!(found > 15_000);
}

/// Inverse roots by their own words: the square of the lower answer times the operand is at
/// most 1, that of the upper one at least, and the nearest is the upper one exactly where
/// the square of their middle times the operand is below 1.
#[test]
fn inverse_roots_by_products() {
    work::over("inverse roots", SAMPLE / 8, |part| {
        for k in part {
            let bits = some_pattern(!k) & !BINARY64.sign();
            if bits == 0 || bits > BINARY64.largest() {
                continue;
            }
            let [nearest, upper, lower, toward_zero] =
                [0, 1, 2, 3].map(|rounding| Binary64::call(INVERSE_ROOT, rounding, 0, bits).1);
            let ((m, q), (n, u)) = (BINARY64.normal(bits), BINARY64.normal(lower));
            // Each side times 2^(2 - q - 2u), the square being of twice n.
            let one = power((2 - q - 2 * u) as u32);
            let square = |twice: u64| times((twice as u128).pow(2), m);
            let sound = match upper - lower {
                0 => square(2 * n) == one && nearest == lower,
                1 => {
                    let middle = if square(2 * n + 1) < one { upper } else { lower };
                    square(2 * n) < one && one < square(2 * n + 2) && nearest == middle
                }
                _ => false,
            };
            assert!(sound && toward_zero == lower, "{bits:X}: {lower:X} {nearest:X} {upper:X}");
        }
        0
    });
}

#[test]
fn sticky_flags() {
    formats::sticky_flags::<Binary64>();
}

/// Demand 3 where the answers agree: all powers, and squares at every exponent, with the
/// patterns on both sides of each; and on a sample of the rest.
#[test]
fn down_and_up() {
    let check = formats::bracket::<Binary64>;
    let powers: Vec<u64> = (-1074..1024).map(|q| BINARY64.pattern(1, q).unwrap()).collect();
    for (operation, count) in [(RECIPROCAL, 2047), (ROOT, 1049), (INVERSE_ROOT, 1049)] {
        assert_eq!(powers.iter().filter(|&&bits| check(operation, bits)).count(), count);
    }
    let mut chance = Chance(30);
    let (mut squares, mut others) = (0, 0);
    for q in -1074..1024 {
        for k in 0..200 {
            let root = if k == 0 { WIDEST } else { some_root(&mut chance) };
            let Some(bits) = BINARY64.pattern(root * root, q) else { continue };
            for operation in OPERATIONS {
                for bits in (bits - 1).max(1)..=(bits + 1).min(BINARY64.largest()) {
                    let equal = check(operation, bits);
                    squares += (operation == ROOT && equal) as u64;
                    others += (operation == ROOT && !equal) as u64;
                }
            }
        }
    }
    println!("{squares} roots agree, {others} do not");
    assert!(squares > 100_000 && others > 400_000);
    work::over("down and up", SAMPLE / 8, |part| {
        for k in part {
            let bits = some_pattern(!k) & !BINARY64.sign();
            if (1..=BINARY64.largest()).contains(&bits) {
                for operation in OPERATIONS {
                    check(operation, bits);
                }
            }
        }
        0
    });
}

/// An operand whose significand and parity use the entry at this place, subnormals among
/// them.
fn operand(place: usize, chance: &mut Chance) -> u64 {
    let (i, p) = (32_768 + place as u64 % 32_768, (place / 32_768 % 2) as i32);
    let any = chance.next() >> 27;
    let m = i << 37 | chance.pick(&[0, 0, (1 << 37) - 1, any]);
    let m = m >> m.trailing_zeros();
    loop {
        // The exponent of the leading bit.
        let q = some_exponent(chance);
        match BINARY64.pattern(m, q - m.ilog2() as i32) {
            Some(bits) if q.rem_euclid(2) == p => return bits,
            _ => {}
        }
    }
}

/// The number at the place used decides, and no other.
#[test]
fn wrong_entries() {
    let mut slices = Slices::new(31);
    let mut chance = Chance(32);
    let mut subnormal = 0;
    for n in 0..TABLES {
        let operation = if n < TABLES / 2 { ROOT } else { INVERSE_ROOT };
        let bits = operand(n, &mut chance);
        assert_eq!(place_of(operation, bits), n);
        subnormal += (bits < 1 << 52) as u32;
        let (rounding, status) = (chance.range(0, 3) as u8, chance.next() as u8);
        let expected = Binary64::reference(operation, rounding, status, bits);
        let library = |slice: &[u64]| call(operation, rounding, status, bits, slice);
        slices.check(n, library, expected, (16, 0, status));
    }
    println!("{subnormal} operands were subnormal");
    assert!(subnormal > 1_000 && slices.kept());
}

/// Every question against the ones before and behind it, with operands that use an entry
/// and such that use none.
#[test]
fn refusals() {
    let slices = Slices::new(33);
    let mut chance = Chance(34);
    let mut refused = [0; 17];
    let mut check = |operation: u8, rounding: u8, bits: u64| {
        for slice in slices.of_all_lengths() {
            let status = chance.next() as u8;
            let expected = reference::binary64(operation, rounding, bits, status, slice);
            let given = call(operation, rounding, status, bits, slice);
            let length = slice.len();
            assert_eq!(given, expected, "{operation} {rounding} {bits:X}, status {status}, {length} numbers");
            refused[expected.0 as usize] += 1;
        }
    };
    let positive = [
        0, 1, 2, 1 << 51, (1 << 52) - 1, 1 << 52, BINARY64.pattern(1, 0).unwrap(), BINARY64.pattern(3, 0).unwrap(),
        BINARY64.largest(), BINARY64.infinity(), BINARY64.infinity() + 1, BINARY64.nan(), BINARY64.nan() + 1,
        BINARY64.sign() - 1,
    ];
    for operation in 0..=255 {
        for rounding in [0, 1, 2, 3, 4, 9, 255] {
            for bits in positive {
                check(operation, rounding, bits);
                check(operation, rounding, bits | BINARY64.sign());
            }
        }
    }
    for rounding in 0..=255 {
        for operation in 0..5 {
            positive.iter().for_each(|&bits| check(operation, rounding, bits));
        }
    }
    for k in 0..100_000 {
        check((k % 5) as u8, (k / 5 % 5) as u8, some_pattern(k));
    }
    println!("calls by refusal: {refused:?}");
    for (number, count) in refused.into_iter().enumerate() {
        assert_eq!(count > 0, [0, 1, 2, 15, 16].contains(&number), "refusal {number}");
    }
    assert!(slices.kept());
}

/// The file of calls with the answers of the reference in Python, against the library and
/// the Rust reference.
#[test]
fn vector_file() {
    let mut lent = vectors::Lent::new();
    for (given, expected) in vectors::calls("binary64_vectors", "b") {
        let ([operation, rounding, status], bits) = formats::operands(&given[3..]);
        let expected = formats::reply(&expected);
        let got = lent.with(&given, |slice| call(operation, rounding, status, bits, slice));
        assert_eq!(got, expected, "library, {given:?}");
        let got = lent.with(&given, |slice| reference::binary64(operation, rounding, bits, status, slice));
        assert_eq!(got, expected, "reference, {given:?}");
    }
    assert!(lent.kept() && tables().len() == TABLES);
}

//! Lines of reader files that are no contacts, and of gate readers' files that are no stays.

/// What a field shows of a number of many digits.
const MANY_DIGITS: &str = "'999999999999999999999999...'";

/// A bad line, and what its reason says.
pub type Bad = (&'static [u8], &'static [&'static str]);

/// Lines that are no three numbers.
pub const NO_NUMBERS: [Bad; 33] = [
    (b"x", &["'x' is no number"]),
    (b"0 1 two", &["'two' is no number"]),
    (b"from,to,tick", &["'from' is no number"]),
    (b"0", &["1 number;"]),
    (b"0 1", &["2 numbers"]),
    (b"0 1 2 3", &["4 numbers"]),
    (b"0,1,2,3,4", &["5 numbers"]),
    (b"0,,1,2", &["comma"]),
    (b"0,1,,", &["comma"]),
    (b",0,1,2", &["comma"]),
    (b"0,1,2,", &["comma"]),
    (b"0,1, # 2", &["comma"]),
    (b",", &["comma"]),
    (b"-1 1 2", &["'-1' is no number"]),
    (b"0 -1 2", &["'-1' is no number"]),
    (b"+0 1 2", &["'+0' is no number"]),
    (b"0 1 2.0", &["'2.0' is no number"]),
    (b"0 1 1e0", &["'1e0' is no number"]),
    (b"0 1 0x2", &["'0x2' is no number"]),
    (b"0;1;2", &["'0;1;2' is no number"]),
    (b"0 1 \"2\"", &["is no number"]),
    (b"0 1 4294967296", &["'4294967296' is too large a number"]),
    (
        b"18446744073709551616 1 2",
        &["'18446744073709551616' is too large a number"],
    ),
    (
        b"0 99999999999999999999999999999999999999999999 2",
        &[MANY_DIGITS],
    ),
    (b"\xFF\xFE0 1 2", &["is no number"]),
    (b"0 1 \xC3", &["is no number"]),
    (b"0 1 \xD9\xA2", &["is no number"]),
    (b"0\xC2\xA01\xC2\xA02", &["is no number"]),
    (b"0 1 \x1B[31m2", &["\\u{1b}[31m2' is no number"]),
    (b"0 \x07 2", &["\\u{7}' is no number"]),
    (b"0 1 2\x00", &["'2\\0' is no number"]),
    (b"\x00", &["'\\0' is no number"]),
    (b"0 \xEF\xBB\xBF1 2", &["\\u{feff}1' is no number"]),
];

/// Lines of three numbers that are no contact of four animals and six ticks.
pub const NO_CONTACTS: [Bad; 16] = [
    (
        b"4 1 2",
        &["4 -> 1 at tick 2", "no animal 4", "(refusal 7)"],
    ),
    (
        b"0 4 2",
        &["0 -> 4 at tick 2", "no animal 4", "(refusal 7)"],
    ),
    (b"256 1 2", &["no animal 256", "(refusal 7)"]),
    (b"0 258 2", &["0 -> 258", "no animal 258", "(refusal 7)"]),
    (b"258 1 2", &["258 -> 1", "no animal 258", "(refusal 7)"]),
    (b"4294967295 1 2", &["no animal 4294967295", "(refusal 7)"]),
    (b"4 4 0", &["no animal 4", "(refusal 7)"]),
    (b"2 2 1", &["2 -> 2 at tick 1", "animal 2", "(refusal 8)"]),
    (b"2 2 0", &["animal 2", "(refusal 8)"]),
    (b"0 1 0", &["0 -> 1 at tick 0", "tick 0", "(refusal 9)"]),
    (b"0 1 7", &["tick 7", "1 to 6", "(refusal 9)"]),
    (b"0 1 1024", &["tick 1024", "(refusal 9)"]),
    (b"0 1 1025", &["tick 1025", "(refusal 9)"]),
    (b"0 1 1026", &["tick 1026", "(refusal 9)"]),
    (b"0,1,4294967295", &["tick 4294967295", "(refusal 9)"]),
    (
        b"\t0 , 1 ,\t7 # late\r",
        &["0 -> 1 at tick 7", "(refusal 9)"],
    ),
];

/// Lines that are no stay of four animals and six ticks.
pub const NO_STAYS: [Bad; 22] = [
    (b"x", &["'x' is no number"]),
    (b"0 1 2", &["3 numbers"]),
    (b"0 1 2 3 4", &["5 numbers"]),
    (b"0,1,,3", &["comma"]),
    (b"0,1,2,3,", &["comma"]),
    (b"-1 1 2 3", &["'-1' is no number"]),
    (b"0 +1 2 3", &["'+1' is no number"]),
    (b"0 1 2 3.5", &["'3.5' is no number"]),
    (b"0 1 2 4294967296", &["'4294967296' is too large a number"]),
    (b"\xFF 1 2 3", &["is no number"]),
    (b"0 1 2 \x1B", &["'\\u{1b}' is no number"]),
    (
        b"4 9 2 3",
        &["animal 4 in pen 9", "no animal 4", "(refusal 18)"],
    ),
    (b"258 9 2 3", &["no animal 258", "(refusal 18)"]),
    (b"0 64 2 3", &["no pen 64", "0 to 63", "(refusal 18)"]),
    (b"0 4294967295 2 3", &["no pen 4294967295", "(refusal 18)"]),
    (b"0 9 0 3", &["tick 0", "1 to 6", "(refusal 18)"]),
    (b"0 9 2 7", &["tick 7", "1 to 6", "(refusal 18)"]),
    (b"0 9 7 7", &["tick 7", "(refusal 18)"]),
    (b"0 9 2 1025", &["tick 1025", "(refusal 18)"]),
    (b"0 9 4 3", &["turned round", "4", "3", "(refusal 18)"]),
    (b"4 64 0 7", &["no animal 4", "(refusal 18)"]),
    (b"0 64 0 7", &["no pen 64", "(refusal 18)"]),
];

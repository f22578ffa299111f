//! Lines that have not the shape of a request, made from such as have it.

use super::model::LONGEST;
use super::requests::LONGEST_GOOD;
use crate::questions::dice::Dice;

/// Bytes that are no hexadecimal digits: those beside their ranges, blanks, ends of lines elsewhere, signs, letters that look like
/// digits, and digits with the high bit set. There is no line feed.
const STRANGE: &[u8] =
    b"/:@G`g \t\r\0\x01\x0B\x0C\x1A\x1B\x7F\x80\x8A\x8D\xA0\xB0\xB9\xC1\xE6\xFF.,-+_xXOlzZ?#\"\\";

/// What may stand where the space should be.
const NO_SPACE: &[u8] = b"\t\r\0_-:,.0F\x1F!\xA0\x80";

/// Whole lines: nothing and blanks, words that the program prints, parts of a line.
const LINES: &[&[u8]] = &[
    b"",
    b"",
    b"",
    b" ",
    b"  ",
    b"\t",
    b"\r",
    b"\0",
    b"\xFF",
    b"0",
    b"00",
    b"0005",
    b"0005 ",
    b" 00",
    b"0005 0",
    b"005 00",
    b"00 05",
    b"?",
    b"R2",
    b"leave",
    b"bindings 0",
    b"0x0005 00",
    b"0005 0x00",
    b"0005:00",
    b"0005 00 00",
    b"# 0005 00",
    b"\xEF\xBB\xBF0005 00",
    b"0005 \xEF\xBC\x90\xEF\xBC\x90",
    b"0005\xE2\x80\x8300",
];

/// A line of another shape, made from a good one.
pub fn misshapen(dice: &mut Dice, mut line: Vec<u8>) -> Vec<u8> {
    let place = dice.place(line.len());
    match dice.below(14) {
        0 | 1 => return dice.pick(LINES).to_vec(),
        2..5 => line[place] = dice.pick(STRANGE),
        5 => line.insert(place, dice.pick(STRANGE)),
        6 => line.push(dice.pick(b" \t\r\0\x1A0fF")),
        7 => line.insert(0, dice.pick(b" \t\r\0\xFF0fF")),
        8 => drop(line.pop()),
        9 => drop(line.remove(dice.below(5))),
        10 => line[4] = dice.pick(NO_SPACE),
        11 => line.insert(4, b' '),
        12 => line.truncate(dice.below(6)),
        _ => line = spaced(&line),
    }
    line
}

/// A line with a space between the bytes of its payload, and one behind it.
fn spaced(line: &[u8]) -> Vec<u8> {
    let (cluster, payload) = line.split_at(5);
    let bytes = payload.chunks(2).flat_map(|byte| [byte, b" "].concat());
    cluster.iter().copied().chain(bytes).collect()
}

/// A line of 4,096 characters or more, made from a good one of 4,095 and from a shorter one. One kind has so many that a count of 16
/// bits is that of the shorter one.
pub fn overlong(dice: &mut Dice, longest: &[u8], good: &[u8]) -> Vec<u8> {
    let mut line = longest.to_vec();
    match dice.below(16) {
        0..3 => line.push(dice.pick(b"0fF \r\tg\0")),
        3..7 => line.extend(b"00"),
        7 | 8 => {
            let beyond = beyond(dice);
            line.extend(std::iter::repeat_n(b'0', beyond));
        }
        9 | 10 => {
            line.resize(LONGEST + dice.below(2), b'0');
            line.extend(good);
        }
        11 | 12 => {
            line = vec![dice.pick(b"0 F\rG\0\xFF"); LONGEST_GOOD + beyond(dice)];
        }
        13 => {
            line = good.to_vec();
            line.extend(std::iter::repeat_n(b'0', 1 << 16));
        }
        _ => {
            let front = LONGEST * (1 + dice.below(3)) + dice.below(2);
            line = vec![dice.pick(b"0 \r"); front];
            line.extend(good);
        }
    }
    line
}

/// So many characters more than 4,095: few, up to some multiples of 4,096, and seldom many more.
fn beyond(dice: &mut Dice) -> usize {
    match dice.below(8) {
        0 => 60_000 + dice.below(20_000),
        1..4 => dice.pick(&[1, 2, 3, 4, 5]),
        4 | 5 => LONGEST * (1 + dice.below(4)) - 2 + dice.below(5),
        _ => 1 + dice.below(2 * LONGEST),
    }
}

//! Texts with faults: a good text in which something small is broken, and bytes without any sense.

use crate::input::Input;
use crate::tree;
use hurnavis_comparison::xorshift::Xorshift;

/// Every byte that can stand in a text.
const ALPHABET: &[u8] = b"TFnr!&|<>=() 0123456789";
/// Bytes that cannot, though some look alike.
const ODD: &[u8] = &[
    b'\t', b'\n', b'\r', 0, 255, 0x80, 0xa0, b't', b'f', b'N', b'R', b'+', b'-', b',', b'[', b'/',
    b':', b'~', b'^', b'"',
];

/// A good text with one to three faults, any of which may turn out to be none.
pub fn damaged(random: &mut Xorshift) -> Input {
    let size = random.pick(&[1, 2, 3, 4, 6, 10, 20, 40, 64]);
    let tree = tree::draw(random, size);
    let mut text = Input::typed(random, "", &tree).text;
    for _ in 0..random.pick(&[1, 1, 1, 2, 3]) {
        damage(random, &mut text);
    }
    Input::new(random, "damaged", text)
}

/// Bytes of the alphabet, and sometimes others.
pub fn bytes(random: &mut Xorshift) -> Input {
    let length = random.pick(&[1, 2, 3, 4, 5, 6, 8, 12, 30]);
    let odd = random.pick(&[0, 0, 3, 100]);
    let text = (0..length).map(|_| byte(random, odd)).collect();
    Input::new(random, "bytes", text)
}

/// A byte of the alphabet, or with this share, in percent, another.
pub fn byte(random: &mut Xorshift, odd: usize) -> u8 {
    match random.percent(odd) {
        true => {
            let any = random.word() as u8;
            let odd = random.pick(ODD);
            random.pick(&[odd, odd, any])
        }
        false => random.pick(ALPHABET),
    }
}

/// Breaks one thing. A text that came to be empty gets a byte.
fn damage(random: &mut Xorshift, text: &mut Vec<u8>) {
    let new = byte(random, 20);
    if text.is_empty() {
        return text.push(new);
    }
    let (at, other) = (random.below(text.len()), random.below(text.len()));
    match random.below(9) {
        0 => text[at] = new,
        1 => {
            text.remove(at);
        }
        2 => text.insert(at, text[at]),
        3 => text.insert(random.below(text.len() + 1), new),
        4 => text[at] ^= 1 << random.below(8),
        5 => text.truncate(at),
        6 => {
            text.drain(..at);
        }
        7 => text.swap(at, other),
        _ => {
            let piece = text[at..].iter().take(random.between(1, 8));
            let piece: Vec<u8> = piece.copied().collect();
            text.splice(at..at, piece);
        }
    }
}

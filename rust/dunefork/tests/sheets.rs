//! Every sheet of the repository's folder sheets/: messages come back after 0 to t wrong places, and after e wrong and r marked ones with
//! 2·e + r up to d - 1, as its file states d and t; after 0 to t wrong places of every shortened code; and after m·t neighbouring bits of
//! a block of m words.
use dunefork::{
    block_put, bytes, decode, decode_block, decode_marked, decode_short, encode, encode_short, read, read_short, Error,
};
use std::path::Path;

struct Sheet {
    name: String,
    bytes: Vec<u8>,
    n: usize,
    k: usize,
    d: usize,
    t: usize,
}

fn parsed(name: String, text: &str) -> Sheet {
    let stated = text.lines().find(|line| line.starts_with("# n ")).expect("a line '# n .., k .., d .., t ..'");
    let numbers: Vec<usize> = stated.split([' ', ',']).filter_map(|part| part.parse().ok()).collect();
    let digits = text.lines().filter(|line| !line.starts_with('#')).flat_map(str::split_whitespace);
    let bytes = digits.map(|byte| u8::from_str_radix(byte, 16).unwrap()).collect();
    Sheet { name, bytes, n: numbers[0], k: numbers[1], d: numbers[2], t: numbers[3] }
}

fn sheets() -> Vec<Sheet> {
    let folder = Path::new(env!("CARGO_MANIFEST_DIR")).join("../../sheets");
    let mut sheets: Vec<Sheet> = std::fs::read_dir(folder)
        .unwrap()
        .map(|entry| entry.unwrap().path())
        .filter(|path| path.extension() == Some("hex".as_ref()))
        .map(|path| parsed(path.file_name().unwrap().to_string_lossy().into(), &std::fs::read_to_string(path).unwrap()))
        .collect();
    sheets.sort_by(|a, b| a.name.cmp(&b.name));
    sheets
}

/// A fixed sequence, so that a failure can be run again.
struct Draw(u64);

impl Draw {
    fn below(&mut self, bound: usize) -> usize {
        self.0 = self.0.wrapping_mul(6364136223846793005).wrapping_add(1442695040888963407);
        (self.0 >> 33) as usize % bound
    }
}

impl Draw {
    fn message(&mut self, k: usize) -> Vec<u8> {
        let mut message = vec![0; bytes(k)];
        for place in 0..k {
            message[place / 8] |= (self.below(2) as u8) << (place % 8); // lowest bit first
        }
        message
    }

    /// Turns so many of the places, which are then no longer among them.
    fn turn(&mut self, word: &mut [u8], places: &mut Vec<usize>, count: usize) {
        for _ in 0..count {
            let place = places.swap_remove(self.below(places.len()));
            word[place / 8] ^= 1 << (7 - place % 8); // highest bit first
        }
    }
}

#[test]
fn round_trips() {
    let sheets = sheets();
    assert!(sheets.len() >= 12);
    for sheet in sheets {
        let mut draw = Draw(1);
        for round in 0..20 {
            let message = draw.message(sheet.k);
            let mut word = vec![0; bytes(sheet.n)];
            encode(&sheet.bytes, &message, &mut word).unwrap_or_else(|error| panic!("{}: {error}", sheet.name));
            let errors = round % (sheet.t + 1);
            let mut received = word.clone();
            draw.turn(&mut received, &mut (0..sheet.n).collect(), errors);
            let mut right = vec![0; bytes(sheet.n)];
            assert_eq!(decode(&sheet.bytes, &received, &mut right), Ok(errors), "{}", sheet.name);
            assert_eq!(right, word, "{}", sheet.name);
            let mut back = vec![0; bytes(sheet.k)];
            assert_eq!(read(&sheet.bytes, &right, &mut back), Ok(()), "{}", sheet.name);
            assert_eq!(back, message, "{}", sheet.name);
            if errors > 0 {
                assert_eq!(read(&sheet.bytes, &received, &mut back), Err(Error::NoCodeword), "{}", sheet.name);
            }
        }
    }
}

#[test]
fn marked_round_trips() {
    for sheet in sheets() {
        let mut draw = Draw(2);
        for round in 0..40 {
            let mut word = vec![0; bytes(sheet.n)];
            encode(&sheet.bytes, &draw.message(sheet.k), &mut word).unwrap();
            let marked = round % sheet.d;
            let errors = (sheet.d - 1 - marked) / 2;
            let (mut received, mut marks) = (word.clone(), vec![0; bytes(sheet.n)]);
            let mut places: Vec<usize> = (0..sheet.n).collect();
            draw.turn(&mut marks, &mut places, marked);
            draw.turn(&mut received, &mut places, errors);
            // what stands in the marked places: zeros, ones, or the wrong values
            for (at, mark) in received.iter_mut().zip(&marks) {
                *at = [*at & !mark, *at | mark, *at ^ mark][round % 3];
            }
            let (mut zeros, mut ones) = (vec![0xaa; bytes(sheet.n)], vec![0xaa; bytes(sheet.n)]);
            let answer = decode_marked(&sheet.bytes, &received, &marks, &mut zeros, &mut ones);
            assert_eq!(answer, Ok((errors, &word[..])), "{}", sheet.name);
        }
    }
}

#[test]
fn shortened_round_trips() {
    let mut codes = 0;
    for sheet in sheets() {
        let mut draw = Draw(3);
        for m in 1..sheet.k {
            codes += 1;
            let (places, bits) = (sheet.n - m, sheet.k - m);
            for errors in [0, 1, sheet.t - sheet.t / 2, sheet.t] {
                let mut message = draw.message(bits);
                message[(bits - 1) / 8] |= 1 << ((bits - 1) % 8); // the highest place is used
                let mut word = vec![0xaa; bytes(places)];
                assert_eq!(encode_short(&sheet.bytes, m, &message, &mut word), Ok(()), "{}, m = {m}", sheet.name);
                // the same as the whole code's, with zeros above
                let (mut padded, mut whole) = (message.clone(), vec![0; bytes(sheet.n)]);
                padded.resize(bytes(sheet.k), 0);
                encode(&sheet.bytes, &padded, &mut whole).unwrap();
                assert!(
                    whole.starts_with(&word) && whole[word.len()..].iter().all(|byte| *byte == 0),
                    "{}, m = {m}",
                    sheet.name
                );

                let mut received = word.clone();
                draw.turn(&mut received, &mut (0..places).collect(), errors);
                let mut right = vec![0xaa; bytes(places)];
                assert_eq!(decode_short(&sheet.bytes, m, &received, &mut right), Ok(errors), "{}, m = {m}", sheet.name);
                assert_eq!(right, word, "{}, m = {m}", sheet.name);
                let mut back = vec![0xaa; bytes(bits)];
                assert_eq!(read_short(&sheet.bytes, m, &right, &mut back), Ok(()), "{}, m = {m}", sheet.name);
                assert_eq!(back, message, "{}, m = {m}", sheet.name);
                if errors > 0 {
                    assert_eq!(
                        read_short(&sheet.bytes, m, &received, &mut back),
                        Err(Error::NoCodeword),
                        "{}, m = {m}",
                        sheet.name
                    );
                    assert_eq!(back, message, "{}, m = {m}", sheet.name);
                }
            }
        }
        let (mut word, message) = (vec![0xaa; bytes(sheet.n)], vec![0; bytes(sheet.k)]);
        for m in [0, sheet.k, sheet.k + 1, sheet.n, usize::MAX] {
            assert_eq!(encode_short(&sheet.bytes, m, &message, &mut word), Err(Error::Shortening), "{}, m = {m}", sheet.name);
        }
        assert_eq!(word, vec![0xaa; bytes(sheet.n)]);
    }
    assert!(codes > 400);
}

/// The places below n - m of a codeword that has one 1 above them, t - 1 of them wrong: within t places of that codeword, so of no other,
/// and of no shortened one.
#[test]
fn words_near_a_codeword_that_is_no_shortened_one() {
    for sheet in sheets().iter().filter(|sheet| sheet.k > 1 && sheet.t > 0) {
        let mut draw = Draw(4);
        for m in 1..sheet.k {
            let (places, bits) = (sheet.n - m, sheet.k - m);
            let above = bits + draw.below(m);
            let mut message = draw.message(bits);
            message.resize(bytes(sheet.k), 0);
            message[above / 8] |= 1 << (above % 8);
            let (mut whole, mut out) = (vec![0; bytes(sheet.n)], vec![0; bytes(sheet.n)]);
            encode(&sheet.bytes, &message, &mut whole).unwrap();
            let at = sheet.n - sheet.k + above;
            let mut low = whole.clone();
            low[at / 8] ^= 1 << (7 - at % 8);
            draw.turn(&mut low, &mut (0..places).collect(), sheet.t - 1);
            assert_eq!(decode(&sheet.bytes, &low, &mut out), Ok(sheet.t), "{}, m = {m}", sheet.name);
            assert_eq!(out, whole, "{}, m = {m}", sheet.name);
            low.truncate(bytes(places));
            let mut short = vec![0xaa; bytes(places)];
            assert_eq!(decode_short(&sheet.bytes, m, &low, &mut short), Err(Error::NoneNear), "{}, m = {m}", sheet.name);
            assert_eq!(short, vec![0xaa; bytes(places)]);
        }
    }
}

#[test]
fn block_round_trips() {
    for sheet in sheets() {
        let mut draw = Draw(5);
        for m in 2..=16 {
            let (all, most) = (sheet.n * m, sheet.t * m);
            for (from, length) in
                [(0, most), (all - most, most), (draw.below(all - most + 1), most), (draw.below(all - most + 1), most / 2)]
            {
                let (mut block, mut sent) = (vec![0; bytes(all)], Vec::new());
                for i in 0..m {
                    let mut word = vec![0; bytes(sheet.n)];
                    encode(&sheet.bytes, &draw.message(sheet.k), &mut word).unwrap();
                    block_put(sheet.n, m, i, &word, &mut block);
                    sent.extend(word);
                }
                let mut wrong = vec![0; m];
                for bit in from..from + length {
                    block[bit / 8] ^= 1 << (7 - bit % 8);
                    wrong[bit % m] += 1;
                }
                let (mut out, mut verdicts) = (vec![0xaa; sent.len()], vec![0xaa; m]);
                assert_eq!(decode_block(&sheet.bytes, m, &block, &mut out, &mut verdicts), Ok(()), "{}, m = {m}", sheet.name);
                assert_eq!((out, verdicts), (sent, wrong), "{}, m = {m}", sheet.name);
            }
        }
    }
}

/// A word's bytes: place i, which has weight 2^i in the mask, has weight 2^(7 - i mod 8) in byte i div 8.
fn word_of(mask: u32) -> [u8; 4] {
    mask.reverse_bits().to_be_bytes()
}

#[test]
fn words_off_the_air() {
    // POCSAG's synchronization and idle words, highest place first, without their last bit, which is parity
    let sheet = parsed("bch-31-21".into(), include_str!("../../../sheets/bch-31-21.hex"));
    for sent in [0x7cd2_15d8_u32, 0x7a89_c197] {
        let word = word_of(sent >> 1);
        let mut message = [0; 3];
        assert_eq!(read(&sheet.bytes, &word, &mut message), Ok(()));
        assert_eq!(message, (sent >> 11).to_le_bytes()[..3]);
        let mut right = [0; 4];
        assert_eq!(decode(&sheet.bytes, &word_of(sent >> 1 ^ 0x4000_0100), &mut right), Ok(2));
        assert_eq!(right, word);
    }
}

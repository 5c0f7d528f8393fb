//! Document 01's cases and refusals, as far as they go through these functions, with words laid out as document 02 says.
use dunefork::{bytes, card, decode, decode_marked, encode, read, shown, Error, CARD_BYTES};
use dunefork::{decode_short, encode_short, read_short};

/// A sheet with one certificate b, z, f, h, L.
fn sheet(n: u8, representatives: &[u8], [b, z, f, h, terms]: [u8; 5]) -> Vec<u8> {
    let count = representatives.len() as u8;
    let mut bytes = vec![18 + count, 0, n, count, 10, 0, 1, 0, 10 + count, 0];
    bytes.extend(representatives);
    bytes.extend([b, z, f, 0, h, 0, terms, 0]);
    bytes
}

fn sheet_h() -> Vec<u8> {
    sheet(7, &[1], [1, 1, 3, 1, 2])
}

fn sheet_e(terms: u8) -> Vec<u8> {
    sheet(7, &[0, 1], [0, 1, 3, 1, terms])
}

fn sheet_s(terms: u8) -> Vec<u8> {
    sheet(17, &[1], [13, 1, 7, 3, terms])
}

fn sheet_b(terms: u8) -> Vec<u8> {
    sheet(15, &[1, 3], [1, 1, 3, 1, terms])
}

fn changed(place: usize, value: u8) -> Vec<u8> {
    let mut sheet = sheet_h();
    sheet[place] = value;
    sheet
}

/// The bytes of a message: place i has weight 2^(i mod 8) in byte i div 8.
fn message_bytes(mask: u64, k: usize) -> Vec<u8> {
    mask.to_le_bytes()[..bytes(k)].to_vec()
}

/// The bytes of a word: place i has weight 2^(7 - i mod 8) in byte i div 8.
fn word_bytes(mask: u64, n: usize) -> Vec<u8> {
    let mut word = vec![0; bytes(n)];
    for i in (0..n).filter(|i| mask >> i & 1 == 1) {
        word[i / 8] |= 1 << (7 - i % 8);
    }
    word
}

/// The mask of a word, with its spare bits as places from n on.
fn word_mask(word: &[u8]) -> u64 {
    (0..8 * word.len()).map(|i| u64::from(word[i / 8] >> (7 - i % 8) & 1) << i).sum()
}

/// What a call answers and the word that it leaves, as a mask, with AA in the buffer before it.
fn encoded(sheet: &[u8], k: usize, n: usize, message: u64) -> (Result<(), Error>, u64) {
    let mut out = vec![0xaa; bytes(n)];
    let answer = encode(sheet, &message_bytes(message, k), &mut out);
    (answer, word_mask(&out))
}

fn decoded(sheet: &[u8], n: usize, word: u64) -> (Result<usize, Error>, u64) {
    let mut out = vec![0xaa; bytes(n)];
    let answer = decode(sheet, &word_bytes(word, n), &mut out);
    (answer, word_mask(&out))
}

/// What a call with marks answers, the codeword as a mask, and the words that it leaves in the two buffers, with AA in them before.
type Marked = (Result<(usize, u64), Error>, u64, u64);

fn decoded_marked(sheet: &[u8], n: usize, word: u64, marks: u64) -> Marked {
    let (mut zeros, mut ones) = (vec![0xaa; bytes(n)], vec![0xaa; bytes(n)]);
    let answer = decode_marked(sheet, &word_bytes(word, n), &word_bytes(marks, n), &mut zeros, &mut ones);
    let answer = answer.map(|(e, codeword)| (e, word_mask(codeword)));
    (answer, word_mask(&zeros), word_mask(&ones))
}

/// Every entry refuses the sheet with this error and leaves the buffers as they were.
fn refused(sheet: &[u8], error: Error) {
    for len in 0..4 {
        let mut out = [0xaa; 3];
        let mut other = [0xaa; 3];
        let input = &[0xff; 4][..len];
        assert_eq!(decode_marked(sheet, input, input, &mut out, &mut other), Err(error));
        assert_eq!(other, [0xaa; 3]);
        assert_eq!(encode(sheet, &[0xff; 4][..len], &mut out), Err(error));
        assert_eq!(read(sheet, &[0xff; 4][..len], &mut out), Err(error));
        assert_eq!(decode(sheet, &[0xff; 4][..len], &mut out), Err(error));
        // any m: a shortening that is refused too comes after the sheet
        for m in [0, 1, 2, 127, usize::MAX] {
            assert_eq!(encode_short(sheet, m, &[0xff; 4][..len], &mut out), Err(error));
            assert_eq!(read_short(sheet, m, &[0xff; 4][..len], &mut out), Err(error));
            assert_eq!(decode_short(sheet, m, &[0xff; 4][..len], &mut out), Err(error));
        }
        assert_eq!(out, [0xaa; 3]);
    }
}

#[test]
fn cases() {
    let h = sheet_h();
    assert_eq!(h, [0x13, 0, 7, 1, 0x0a, 0, 1, 0, 0x0b, 0, 1, 1, 1, 3, 0, 1, 0, 2, 0]);
    // 1: the generator is the codeword of message 1 (n - k = 3 checks); d and t are told by linkcard, not by these entries
    // 2 and 3
    assert_eq!(encoded(&h, 4, 7, 1), (Ok(()), 11));
    assert_eq!(encoded(&h, 4, 7, 2), (Ok(()), 22));
    // 4, 5 and 6
    assert_eq!(decoded(&h, 7, 10), (Ok(1), 11));
    assert_eq!(decoded(&h, 7, 1), (Ok(1), 0));
    assert_eq!(decoded(&h, 7, 127), (Ok(0), 127));
    // 7
    assert_eq!(encoded(&sheet_e(3), 3, 7, 1), (Ok(()), 29));
    refused(&sheet_e(4), Error::Term);
    // 8 and 9
    assert_eq!(decoded(&sheet_e(3), 7, 3), (Err(Error::NoneNear), word_mask(&[0xaa])));
    assert_eq!(decoded(&sheet_e(3), 7, 28), (Ok(1), 29));
    // 10: k = 9 makes messages of two bytes; 11
    assert_eq!(encoded(&sheet_s(9), 9, 17, 0), (Ok(()), 0));
    refused(&sheet_s(10), Error::Term);
    // 12: k = 7 makes messages of one byte
    assert_eq!(encoded(&sheet_b(4), 7, 15, 0), (Ok(()), 0));
    refused(&sheet_b(5), Error::Term);
}

#[test]
fn radius() {
    // t of the twelve cases: every error of t places is corrected
    for (sheet, k, n, t) in [(sheet_h(), 4, 7, 1), (sheet_e(3), 3, 7, 1), (sheet_s(9), 9, 17, 2), (sheet_b(4), 7, 15, 2)] {
        for message in [0, 1, 2, (1 << k) - 1] {
            let (answer, word) = encoded(&sheet, k, n, message);
            assert_eq!(answer, Ok(()));
            for i in 0..n {
                assert_eq!(decoded(&sheet, n, word ^ 1 << i), (Ok(1), word));
                for j in 0..i {
                    let (answer, right) = decoded(&sheet, n, word ^ 1 << i ^ 1 << j);
                    assert_eq!(t == 2, (answer, right) == (Ok(2), word));
                }
            }
        }
    }
}

#[test]
fn refusals_of_sheets() {
    refused(&[9, 0, 7, 1, 10, 0, 1, 0, 11], Error::SheetLength);
    refused(&[], Error::SheetLength);
    refused(&[75; 75], Error::SheetLength);
    refused(&changed(2, 129), Error::CodeLength);
    refused(&changed(2, 19), Error::FieldDegree);
    refused(&changed(7, 1), Error::Header);
    refused(&sheet(7, &[2], [1, 1, 3, 1, 2]), Error::Representative);
    refused(&sheet(7, &[0, 1, 3], [1, 1, 3, 1, 2]), Error::NoMessage);
    refused(&changed(17, 0), Error::Range);
    refused(&sheet(7, &[1], [1, 1, 5, 3, 2]), Error::CommonFactor);
    refused(&sheet(21, &[1], [1, 1, 7, 1, 2]), Error::Period);
    refused(&sheet_s(10), Error::Term);
}

/// Request 2026-03: f = 19 has the period 15, which shares a factor with 21.
#[test]
fn a_period_that_is_not_coprime_to_n() {
    let sheet = sheet(21, &[1, 3, 7], [14, 5, 19, 7, 15]);
    for message in (0..1024).step_by(93) {
        let (answer, word) = encoded(&sheet, 10, 21, message);
        assert_eq!((answer, word >> 11), (Ok(()), message));
        for (i, j) in (0..21).flat_map(|j| (0..j).map(move |i| (i, j))) {
            assert_eq!(decoded(&sheet, 21, word ^ 1 << i ^ 1 << j), (Ok(2), word));
        }
    }
}

/// Request 2026-04: the largest distance, then the fewest terms, then the first. The order on the sheet changes no decoded word.
#[test]
fn the_shorter_certificate_of_two() {
    let long = [1, 1, 7, 0, 1, 0, 4, 0];
    let short = [1, 1, 3, 0, 1, 0, 2, 0];
    for (first, second, working) in [(long, short, 1), (short, long, 0), (short, short, 0)] {
        let sheet = [&[27, 0, 7, 1, 10, 0, 2, 0, 11, 0, 1][..], &first, &second].concat();
        let mut text = [0; CARD_BYTES];
        assert!(card(&sheet, &mut text).ends_with(&format!("\nradius 1 from cert {working}\n")));
        for word in 0..128 {
            assert_eq!(decoded(&sheet, 7, word), decoded(&sheet_h(), 7, word));
        }
    }
}

#[test]
fn refusals_of_words() {
    let h = sheet_h();
    let mut out = [0xaa];
    assert_eq!(decode(&h, &[], &mut out), Err(Error::BufferLength));
    assert_eq!(read(&h, &[], &mut out), Err(Error::BufferLength));
    assert_eq!(encode(&h, &[], &mut out), Err(Error::BufferLength));
    assert_eq!(decode(&h, &[0x01], &mut []), Err(Error::BufferLength));
    assert_eq!(decode(&h, &[0x01], &mut out), Err(Error::SpareBit));
    assert_eq!(read(&h, &[0x01], &mut out), Err(Error::SpareBit));
    assert_eq!(encode(&h, &[0x10], &mut out), Err(Error::SpareBit));
    assert_eq!(decode(&sheet_e(3), &[0xc0], &mut out), Err(Error::NoneNear));
    assert_eq!(read(&h, &[0x80], &mut out), Err(Error::NoCodeword));
    assert_eq!(out, [0xaa]);
}

/// The words of n places with this many ones.
fn patterns(n: usize, weight: u32) -> impl Iterator<Item = u64> {
    (0..1 << n).filter(move |pattern: &u64| pattern.count_ones() == weight)
}

/// Request 2026-05, by its words: the only codeword with 2·e + r at most d - 1, found among all, and the two trials decoded one by one.
fn with_marks(sheet: &[u8], k: usize, n: usize, d: u32, word: u64, marks: u64) -> Marked {
    let fits = |codeword: &u64| 2 * ((codeword ^ word) & !marks).count_ones() + marks.count_ones() < d;
    let mut fitting = (0..1 << k).map(|message| encoded(sheet, k, n, message).1).filter(fits);
    let found = fitting.next();
    assert_eq!(fitting.next(), None);
    let [zeros, ones] = [word & !marks, word | marks].map(|trial| match decoded(sheet, n, trial) {
        (Ok(_), codeword) => codeword,
        (refusal, _) => {
            assert_eq!(refusal, Err(Error::NoneNear));
            trial
        }
    });
    match found {
        Some(codeword) => {
            assert!(zeros == codeword || ones == codeword);
            (Ok((((codeword ^ word) & !marks).count_ones() as usize, codeword)), zeros, ones)
        }
        None => (Err(Error::NoneWithMarks), word_mask(&vec![0xaa; bytes(n)]), word_mask(&vec![0xaa; bytes(n)])),
    }
}

#[test]
fn every_word_with_every_marks() {
    for (sheet, k, d) in [(sheet_h(), 4, 3), (sheet_e(3), 3, 4)] {
        for (word, marks) in (0..128).flat_map(|word| (0..128).map(move |marks| (word, marks))) {
            assert_eq!(decoded_marked(&sheet, 7, word, marks), with_marks(&sheet, k, 7, d, word, marks));
        }
    }
    for (word, marks) in (0..1 << 15).step_by(1021).flat_map(|word| (0..1 << 15).step_by(509).map(move |marks| (word, marks))) {
        assert_eq!(decoded_marked(&sheet_b(4), 15, word, marks), with_marks(&sheet_b(4), 7, 15, 5, word, marks));
    }
}

#[test]
fn no_mark() {
    for (sheet, n) in [(sheet_h(), 7), (sheet_e(3), 7), (sheet_s(9), 17), (sheet_b(4), 15)] {
        for word in (0..1 << n).step_by(if n == 7 { 1 } else { 41 }) {
            let (answer, out) = decoded(&sheet, n, word);
            let expected = match answer {
                Ok(changed) => Ok((changed, out)),
                Err(error) => {
                    assert_eq!(error, Error::NoneNear);
                    Err(Error::NoneWithMarks)
                }
            };
            assert_eq!(decoded_marked(&sheet, n, word, 0), (expected, out, out));
        }
    }
}

/// 2·e + r is d - 1 = 4: one wrong place and two marked ones, whatever stands in them; four marked ones and no other is wrong.
#[test]
fn more_bad_places_than_t() {
    let sent = encoded(&sheet_b(4), 7, 15, 0x55).1;
    for marks in patterns(15, 2) {
        for wrong in (0..15).map(|i| 1 << i).filter(|wrong| wrong & marks == 0) {
            for word in [sent ^ wrong, sent ^ wrong ^ marks, (sent ^ wrong) & !marks, (sent ^ wrong) | marks] {
                assert_eq!(decoded_marked(&sheet_b(4), 15, word, marks).0, Ok((1, sent)));
            }
        }
    }
    for marks in patterns(15, 4) {
        for word in [sent, sent ^ marks, sent & !marks, sent | marks] {
            assert_eq!(decoded_marked(&sheet_b(4), 15, word, marks).0, Ok((0, sent)));
        }
    }
    // one more, and both buffers are as they were
    let before = word_mask(&[0xaa; 2]);
    for marks in patterns(15, 5) {
        assert_eq!(decoded_marked(&sheet_b(4), 15, sent, marks), (Err(Error::NoneWithMarks), before, before));
    }
}

/// Where both buffers hold the answer it is that of the zeros, and where the ones alone hold it that of the ones.
#[test]
fn which_buffer_is_shown() {
    let (mut zeros, mut ones) = ([0xaa; 2], [0xaa; 2]);
    let (at_zeros, at_ones) = (zeros.as_ptr(), ones.as_ptr());
    for (marks, shown_at, held) in [
        ([0b0000_0000, 0b0000_0000], at_zeros, [true, true]),
        ([0b1100_0000, 0b0000_0000], at_zeros, [true, true]),
        ([0b0111_1000, 0b0000_0000], at_zeros, [true, false]),
        ([0b1000_0111, 0b0000_0000], at_ones, [false, true]),
    ] {
        let sent = [0b1000_1011, 0b1000_0000]; // sheet B: the generator
        let (wrong, codeword) = decode_marked(&sheet_b(4), &sent, &marks, &mut zeros, &mut ones).unwrap();
        assert_eq!((wrong, codeword, codeword.as_ptr()), (0, &sent[..], shown_at));
        assert_eq!([zeros == sent, ones == sent], held);
    }
}

#[test]
fn refusals_of_marked_words() {
    let h = sheet_h();
    for (word, marks) in [(&[][..], &[0][..]), (&[0, 0], &[0]), (&[0], &[]), (&[0], &[0, 0]), (&[0x01], &[]), (&[], &[0x01])] {
        let (mut zeros, mut ones) = ([0xaa], [0xaa]);
        assert_eq!(decode_marked(&h, word, marks, &mut zeros, &mut ones), Err(Error::BufferLength));
        assert_eq!((zeros, ones), ([0xaa], [0xaa]));
    }
    for (zeros_len, ones_len) in [(0, 1), (1, 0), (2, 1), (1, 2), (0, 0), (2, 2)] {
        let (mut zeros, mut ones) = (vec![0xaa; zeros_len], vec![0xaa; ones_len]);
        assert_eq!(decode_marked(&h, &[0x01], &[0x01], &mut zeros, &mut ones), Err(Error::BufferLength));
        assert_eq!((zeros, ones), (vec![0xaa; zeros_len], vec![0xaa; ones_len]));
    }
    for (word, marks, error) in [
        (0x01, 0x00, Error::SpareBit),
        (0x00, 0x01, Error::SpareBit),
        (0xff, 0xff, Error::SpareBit),
        (0x80, 0x40, Error::NoneWithMarks),
        (0x00, 0xe0, Error::NoneWithMarks),
        (0x00, 0xfe, Error::NoneWithMarks),
    ] {
        let (mut zeros, mut ones) = ([0xaa], [0xaa]);
        assert_eq!(decode_marked(&h, &[word], &[marks], &mut zeros, &mut ones), Err(error));
        assert_eq!((zeros, ones), ([0xaa], [0xaa]));
    }
}

#[test]
fn parts_shown() {
    let (zeros, ones) = ([1, 2, 3], [4, 5, 6, 7]);
    for (n, length) in [(0, 0), (1, 1), (8, 1), (9, 2), (16, 2), (17, 3), (24, 3), (25, 3), (127, 3), (usize::MAX, 3)] {
        let part = shown(0, n, &zeros, &ones);
        assert_eq!((part, part.as_ptr()), (&zeros[..length], zeros.as_ptr()));
        assert_eq!(shown(0, n, &zeros, &[]), &zeros[..length]);
        assert!(shown(0, n, &[], &ones).is_empty());
    }
    for trial in [1, 2, 255, 256, 1 << 32, usize::MAX] {
        for (n, length) in [(0, 0), (1, 1), (32, 4), (33, 4), (usize::MAX - 7, 4), (usize::MAX - 6, 4), (usize::MAX, 4)] {
            let part = shown(trial, n, &zeros, &ones);
            assert_eq!((part, part.as_ptr()), (&ones[..length], ones.as_ptr()));
            assert_eq!(shown(trial, n, &[], &ones), &ones[..length]);
            assert!(shown(trial, n, &zeros, &[]).is_empty());
        }
    }
    assert!(shown(0, 15, &[], &[]).is_empty());
}

#[test]
fn words_highest_bit_first_messages_lowest() {
    // sheet B: message 1 gives the generator, 1 + x^4 + x^6 + x^7 + x^8
    let mut word = [0xaa; 2];
    assert_eq!(encode(&sheet_b(4), &[0b000_0001], &mut word), Ok(()));
    assert_eq!(word, [0b1000_1011, 0b1000_0000]);
    // sheet S: message place 8 of 9 is the lowest bit of byte 1; it stands in place 16 of 17, the highest bit of byte 2
    let mut long = [0xaa; 3];
    assert_eq!(encode(&sheet_s(9), &[0, 1], &mut long), Ok(()));
    assert_eq!(long[2], 0x80);
    let mut message = [0xaa; 2];
    assert_eq!(read(&sheet_s(9), &long, &mut message), Ok(()));
    assert_eq!(message, [0, 1]);
}

#[test]
fn spare_bits() {
    // sheet S: the seven low bits of a word's byte 2, the seven high bits of a message's byte 1
    let s = sheet_s(9);
    let mut long = [0xaa; 3];
    let mut message = [0xaa; 2];
    for i in 0..7 {
        assert_eq!(decode(&s, &[0, 0, 1 << i], &mut long), Err(Error::SpareBit));
        assert_eq!(read(&s, &[0, 0, 1 << i], &mut message), Err(Error::SpareBit));
        assert_eq!(encode(&s, &[0, 2 << i], &mut long), Err(Error::SpareBit));
    }
    assert_eq!((long, message), ([0xaa; 3], [0xaa; 2]));
    assert_eq!(decode(&s, &[0, 0, 0x80], &mut long), Ok(1));
    assert_eq!(long, [0; 3]);
    assert_eq!(read(&s, &[0, 0, 0x80], &mut message), Err(Error::NoCodeword));
}

#[test]
fn read_back() {
    let h = sheet_h();
    for message in 0..16 {
        let mut word = [0xaa];
        let mut back = [0xaa];
        encode(&h, &[message], &mut word).unwrap();
        assert_eq!(word_mask(&word) >> 3, u64::from(message));
        read(&h, &word, &mut back).unwrap();
        assert_eq!(back, [message]);
    }
}

#[test]
fn numbers() {
    for number in 1..=17 {
        let error = Error::from_number(number).unwrap();
        assert_eq!(error.number(), number);
        assert!(error.to_string().starts_with(&format!("refusal {number}: ")));
    }
    assert_eq!(Error::from_number(0), None);
    assert_eq!(Error::from_number(18), None);
    assert_eq!(Error::Shortening.number(), 16);
    assert_eq!(Error::InterleavingDepth.number(), 17);
    assert_eq!(Error::NoneNear.to_string(), "refusal 13: no codeword lies within t places of the word");
}

#[test]
fn sizes() {
    assert_eq!([bytes(0), bytes(1), bytes(8), bytes(9), bytes(127)], [0, 1, 1, 2, 16]);
    assert_eq!((dunefork::WORD_MAX, dunefork::SHEET_MAX), (16, 10 + 32 + 4 * 8));
}

#[cfg(feature = "std")]
#[test]
fn error_in_a_box() {
    fn call() -> Result<(), Box<dyn std::error::Error + Send + Sync>> {
        Ok(encode(&[], &[], &mut [])?)
    }
    assert_eq!(*call().unwrap_err().downcast::<Error>().unwrap(), Error::SheetLength);
}

//! Shortened codes (document 02, 2026-06): every message and every word of every m of small codes, held to a search among all codewords
//! that are made here from the generator, and the refusals in their order.
use dunefork::{bytes, decode, decode_short, encode_short, read_short, Error};

struct Code {
    sheet: Vec<u8>,
    n: usize,
    k: usize,
    t: u32,
    generator: u64,
}

fn code(n: u8, representatives: &[u8], [b, z, f, h, terms]: [u8; 5], t: u32, generator: u64) -> Code {
    let count = representatives.len() as u8;
    let mut sheet = vec![18 + count, 0, n, count, 10, 0, 1, 0, 10 + count, 0];
    sheet.extend(representatives);
    sheet.extend([b, z, f, 0, h, 0, terms, 0]);
    let checks = 63 - generator.leading_zeros() as usize;
    Code { sheet, n: n.into(), k: usize::from(n) - checks, t, generator }
}

/// Document 01's sheets H, E and B, and the last with L = 2, which proves t = 1 of a code with t = 2.
fn codes() -> [Code; 4] {
    [
        code(7, &[1], [1, 1, 3, 1, 2], 1, 11),
        code(7, &[0, 1], [0, 1, 3, 1, 3], 1, 29),
        code(15, &[1, 3], [1, 1, 3, 1, 4], 2, 0b1_1101_0001),
        code(15, &[1, 3], [1, 1, 3, 1, 2], 1, 0b1_1101_0001),
    ]
}

/// Place i of a message has weight 2^(i mod 8) in byte i div 8, of a word 2^(7 - i mod 8).
fn message_bytes(mask: u64, places: usize) -> Vec<u8> {
    (0..bytes(places)).map(|i| (mask >> (8 * i)) as u8).collect()
}

fn word_bytes(mask: u64, places: usize) -> Vec<u8> {
    message_bytes(mask, places).into_iter().map(u8::reverse_bits).collect()
}

impl Code {
    /// The codeword of a message: the message stands above the checks.
    fn encoded(&self, message: u64) -> u64 {
        let checks = self.n - self.k;
        let shifted = message << checks;
        let mut rest = shifted;
        for i in (checks..64).rev().filter(|i| *i < self.n) {
            if rest >> i & 1 == 1 {
                rest ^= self.generator << (i - checks);
            }
        }
        shifted | rest
    }

    /// Its shortened codewords: those with nothing in the top m places.
    fn shortened(&self, m: usize) -> Vec<u64> {
        (0..1 << self.k).map(|message| self.encoded(message)).filter(|codeword| codeword >> (self.n - m) == 0).collect()
    }

    /// What each call answers, and the bytes that it leaves, with AA in the buffer before it.
    fn encode(&self, m: usize, message: &[u8], out_len: usize) -> (Result<usize, Error>, Vec<u8>) {
        let mut out = vec![0xaa; out_len];
        (encode_short(&self.sheet, m, message, &mut out).map(|()| 0), out)
    }

    fn read(&self, m: usize, word: &[u8], out_len: usize) -> (Result<usize, Error>, Vec<u8>) {
        let mut out = vec![0xaa; out_len];
        (read_short(&self.sheet, m, word, &mut out).map(|()| 0), out)
    }

    fn decode(&self, m: usize, word: &[u8], out_len: usize) -> (Result<usize, Error>, Vec<u8>) {
        let mut out = vec![0xaa; out_len];
        (decode_short(&self.sheet, m, word, &mut out), out)
    }
}

#[test]
fn every_message_and_every_word() {
    for code in codes() {
        for m in 1..code.k {
            let (places, bits) = (code.n - m, code.k - m);
            let codewords = code.shortened(m);
            assert_eq!(codewords.len(), 1 << bits);
            for message in 0..1 << bits {
                let sent = code.encoded(message);
                assert!(codewords.contains(&sent));
                assert_eq!(code.encode(m, &message_bytes(message, bits), bytes(places)), (Ok(0), word_bytes(sent, places)));
            }
            let mut only_whole = 0;
            for word in 0..1 << places {
                let given = word_bytes(word, places);
                let read = if codewords.contains(&word) {
                    (Ok(0), message_bytes(word >> (code.n - code.k), bits))
                } else {
                    (Err(Error::NoCodeword), vec![0xaa; bytes(bits)])
                };
                assert_eq!(code.read(m, &given, bytes(bits)), read);

                let mut near = codewords.iter().filter(|codeword| (*codeword ^ word).count_ones() <= code.t);
                let decoded = match near.next() {
                    Some(codeword) => (Ok((codeword ^ word).count_ones() as usize), word_bytes(*codeword, places)),
                    None => (Err(Error::NoneNear), vec![0xaa; bytes(places)]),
                };
                assert_eq!(near.next(), None);
                let whole = decode(&code.sheet, &word_bytes(word, code.n), &mut vec![0; bytes(code.n)]);
                only_whole += u32::from(whole.is_ok() && decoded.0.is_err());
                assert!(whole.is_ok() || decoded.0.is_err());
                assert_eq!(code.decode(m, &given, bytes(places)), decoded);
            }
            // there are words near a codeword of the whole code and near no shortened one
            assert!(only_whole > 0);
        }
    }
}

/// An m of 0, of k or more: whatever else is wrong with the call, or if nothing is.
#[test]
fn shortenings_that_are_refused() {
    for code in codes() {
        let k = code.k;
        let large =
            [k, k + 1, code.n, code.n + 1, 127, 128, 255, 256, 257, (1 << 16) + 1, (1 << 32) + 1, usize::MAX - k, usize::MAX];
        for m in large.into_iter().chain([0]) {
            let lengths = [0, 1, 2, 3, bytes(code.n.wrapping_sub(m)).min(9), bytes(k.wrapping_sub(m)).min(9)];
            for (len, out_len) in lengths.iter().flat_map(|len| lengths.map(|out_len| (*len, out_len))) {
                for given in [vec![0; len], vec![0xff; len]] {
                    let refused = (Err(Error::Shortening), vec![0xaa; out_len]);
                    assert_eq!(code.encode(m, &given, out_len), refused);
                    assert_eq!(code.read(m, &given, out_len), refused);
                    assert_eq!(code.decode(m, &given, out_len), refused);
                }
            }
        }
        // one less is the largest: a message of one place
        assert_eq!(code.encode(k - 1, &[1], bytes(code.n - k + 1)).0, Ok(0));
    }
}

/// 11 before 12: lengths are exact, whatever stands in the bytes.
#[test]
fn lengths_of_shortened_words() {
    for code in codes() {
        for m in 1..code.k {
            let (word, message) = (bytes(code.n - m), bytes(code.k - m));
            for (len, out_len) in (0..5).flat_map(|len| (0..5).map(move |out_len| (len, out_len))) {
                for given in [vec![0; len], vec![0xff; len]] {
                    let refused = (Err(Error::BufferLength), vec![0xaa; out_len]);
                    assert_eq!(code.encode(m, &given, out_len) == refused, (len, out_len) != (message, word));
                    assert_eq!(code.read(m, &given, out_len) == refused, (len, out_len) != (word, message));
                    assert_eq!(code.decode(m, &given, out_len) == refused, (len, out_len) != (word, word));
                }
            }
        }
    }
}

/// 12: every bit of the last byte is a place below n - m, or k - m, or it is spare.
#[test]
fn spare_bits_of_shortened_words() {
    for code in codes() {
        for m in 1..code.k {
            let (places, bits) = (code.n - m, code.k - m);
            for i in 0..8 * bytes(places) {
                let given = word_bytes(1 << i, 8 * bytes(places));
                let (read, message) = code.read(m, &given, bytes(bits));
                let (decoded, out) = code.decode(m, &given, bytes(places));
                assert_eq!(read, Err(if i < places { Error::NoCodeword } else { Error::SpareBit }));
                assert_eq!(message, vec![0xaa; bytes(bits)]);
                assert_eq!(decoded, if i < places { Ok(1) } else { Err(Error::SpareBit) });
                assert_eq!(out, vec![if i < places { 0 } else { 0xaa }; bytes(places)]);
            }
            for i in 0..8 * bytes(bits) {
                let (encoded, out) = code.encode(m, &message_bytes(1 << i, 8 * bytes(bits)), bytes(places));
                assert_eq!(encoded, if i < bits { Ok(0) } else { Err(Error::SpareBit) });
                assert_eq!(out == vec![0xaa; bytes(places)], i >= bits);
            }
        }
    }
}

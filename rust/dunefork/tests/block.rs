//! Interleaved blocks (document 02, 2026-07): bursts at every offset and of every length up to m·t, drawn blocks held to a search among
//! all codewords for each word, and the refusals in their order. Words are taken out of a block here by a walk along its bits.
use dunefork::{block_put, bytes, decode_block, Error};

struct Code {
    sheet: Vec<u8>,
    n: usize,
    t: usize,
    codewords: Vec<u64>,
}

fn code(n: u8, representatives: &[u8], [b, z, f, h, terms]: [u8; 5], t: usize, generator: u64) -> Code {
    let count = representatives.len() as u8;
    let mut sheet = vec![18 + count, 0, n, count, 10, 0, 1, 0, 10 + count, 0];
    sheet.extend(representatives);
    sheet.extend([b, z, f, 0, h, 0, terms, 0]);
    let k = usize::from(n) - (63 - generator.leading_zeros() as usize);
    // the sums of shifted generators
    let mut codewords = vec![0];
    for i in 0..k {
        let sums: Vec<u64> = codewords.iter().map(|codeword| codeword ^ generator << i).collect();
        codewords.extend(sums);
    }
    Code { sheet, n: n.into(), t, codewords }
}

/// Document 01's sheets H, E and B, and the last with L = 2, which proves t = 1 of a code with t = 2.
fn codes() -> [Code; 4] {
    [
        code(7, &[1], [1, 1, 3, 1, 2], 1, 11),
        code(7, &[0, 1], [0, 1, 3, 1, 3], 1, 29),
        code(15, &[1, 3], [1, 1, 3, 1, 4], 2, 0b1_1101_0001),
        code(15, &[1, 3], [1, 1, 3, 1, 2], 1, 0b1_1101_0001),
    ]
}

struct Draw(u64);

impl Draw {
    fn next(&mut self) -> u64 {
        self.0 = self.0.wrapping_mul(6364136223846793005).wrapping_add(1442695040888963407);
        self.0 >> 33
    }

    fn below(&mut self, end: usize) -> usize {
        self.next() as usize % end
    }
}

/// Place i of a word has weight 2^(7 - i mod 8) in byte i div 8.
fn word_bytes(mask: u64, n: usize) -> Vec<u8> {
    (0..bytes(n)).map(|i| ((mask >> (8 * i)) as u8).reverse_bits()).collect()
}

/// The bits of a block, from words whose place j is bit j: all words' place 0, then all words' place 1, and so on.
fn interleaved(words: &[u64], n: usize) -> Vec<bool> {
    (0..n).flat_map(|j| words.iter().map(move |word| word >> j & 1 == 1)).collect()
}

/// Eight bits to a byte, the first as the highest; what is missing in the last byte is 0.
fn packed(bits: &[bool]) -> Vec<u8> {
    bits.chunks(8).map(|byte| byte.iter().enumerate().map(|(i, bit)| u8::from(*bit) << (7 - i)).sum()).collect()
}

/// The words again: the walk along the bits hands one to each word in turn.
fn taken_out(bits: &[bool], m: usize) -> Vec<u64> {
    let mut words = vec![0; m];
    for (turn, round) in bits.chunks(m).enumerate() {
        for (word, bit) in words.iter_mut().zip(round) {
            *word |= u64::from(*bit) << turn;
        }
    }
    words
}

impl Code {
    fn drawn_codewords(&self, m: usize, draw: &mut Draw) -> Vec<u64> {
        (0..m).map(|_| self.codewords[draw.below(self.codewords.len())]).collect()
    }

    /// What the call answers, and what it leaves in out and verdicts, with AA and BB in them before it.
    fn call(&self, m: usize, block: &[u8], out_len: usize, verdicts_len: usize) -> (Result<(), Error>, Vec<u8>, Vec<u8>) {
        let (mut out, mut verdicts) = (vec![0xaa; out_len], vec![0xbb; verdicts_len]);
        (decode_block(&self.sheet, m, block, &mut out, &mut verdicts), out, verdicts)
    }

    fn decode(&self, m: usize, bits: &[bool]) -> (Result<(), Error>, Vec<u8>, Vec<u8>) {
        assert_eq!(bits.len(), self.n * m);
        self.call(m, &packed(bits), m * bytes(self.n), m)
    }

    /// What it must be, by a search for each word.
    fn searched(&self, m: usize, bits: &[bool]) -> (Result<(), Error>, Vec<u8>, Vec<u8>) {
        let (mut out, mut verdicts) = (Vec::new(), Vec::new());
        for word in taken_out(bits, m) {
            let mut near = self.codewords.iter().filter(|codeword| (*codeword ^ word).count_ones() as usize <= self.t);
            match near.next() {
                Some(codeword) => {
                    out.extend(word_bytes(*codeword, self.n));
                    verdicts.push((codeword ^ word).count_ones() as u8);
                }
                None => {
                    out.extend(vec![0xaa; bytes(self.n)]);
                    verdicts.push(255);
                }
            }
            assert_eq!(near.next(), None);
        }
        (Ok(()), out, verdicts)
    }
}

/// At most m·t neighbouring bits spoiled, wherever they begin: every word comes back, and its verdict is the number of its wrong places.
#[test]
fn every_burst() {
    let mut draw = Draw(1);
    for code in codes() {
        for m in [2, 3, 7, 8, 16] {
            let all = code.n * m;
            for length in 0..=m * code.t {
                for from in 0..=all - length {
                    for inverted in [true, false] {
                        let sent = code.drawn_codewords(m, &mut draw);
                        let mut bits = interleaved(&sent, code.n);
                        let mut wrong = vec![0; m];
                        for p in from..from + length {
                            if inverted || draw.below(2) == 1 {
                                bits[p] = !bits[p];
                                wrong[p % m] += 1;
                            }
                        }
                        let whole: Vec<u8> = sent.iter().flat_map(|word| word_bytes(*word, code.n)).collect();
                        assert_eq!(code.decode(m, &bits), (Ok(()), whole, wrong), "m {m}, {length} bits from {from}");
                    }
                }
            }
        }
    }
}

/// One bit more than m·t: some word then has t + 1 wrong places, and is answered as by the search; the others come back.
#[test]
fn one_bit_more() {
    let mut draw = Draw(2);
    for code in codes() {
        for m in 2..=16 {
            for from in 0..code.n * m - m * code.t {
                let sent = code.drawn_codewords(m, &mut draw);
                let mut bits = interleaved(&sent, code.n);
                bits[from..=from + m * code.t].iter_mut().for_each(|bit| *bit = !*bit);
                let answer = code.decode(m, &bits);
                assert_eq!(answer, code.searched(m, &bits));
                for (i, word) in sent.iter().enumerate() {
                    let back = answer.1[i * bytes(code.n)..][..bytes(code.n)] == word_bytes(*word, code.n)[..];
                    assert_eq!(back, i != from % m);
                }
            }
        }
    }
}

/// Drawn words, with few wrong places, many, and of no codeword: each is answered for itself, whatever its neighbours are.
#[test]
fn drawn_blocks() {
    let mut draw = Draw(3);
    let (mut none_near, mut mixed) = (0, 0);
    for code in codes() {
        for m in 2..=16 {
            for times in 0..150 {
                let mut words = code.drawn_codewords(m, &mut draw);
                for word in &mut words {
                    for _ in 0..draw.below(if times % 3 == 0 { code.t + 3 } else { code.n }) {
                        *word ^= 1 << draw.below(code.n);
                    }
                }
                let bits = interleaved(&words, code.n);
                assert_eq!(taken_out(&bits, m), words);
                let right = code.searched(m, &bits);
                let far = right.2.iter().filter(|verdict| **verdict == 255).count();
                none_near += usize::from(far == m);
                mixed += usize::from(far > 0 && far < m);
                assert_eq!(code.decode(m, &bits), right);
            }
        }
    }
    // there were blocks of which some words, and of which all words, are near no codeword
    assert!(none_near > 0 && mixed > 0);
}

/// Every word of 7 places in every place of a block, between others.
#[test]
fn every_word() {
    for code in codes().iter().filter(|code| code.n == 7) {
        for m in 2..=16 {
            for (word, i) in (0..1 << 7).flat_map(|word| (0..m).map(move |i| (word, i))) {
                let words: Vec<u64> =
                    (0..m).map(|other| if other == i { word } else { (word * 5 + other as u64) % 128 }).collect();
                let bits = interleaved(&words, code.n);
                assert_eq!(code.decode(m, &bits), code.searched(m, &bits));
            }
        }
    }
}

/// The sheet's refusals come first, then an m outside 2 to 16: whatever else is wrong with the call, or if nothing is.
#[test]
fn depths_that_are_refused() {
    for code in codes() {
        let mut broken = codes().into_iter().find(|other| other.n == code.n).unwrap();
        broken.sheet[7] = 1;
        let large = [17, 18, 32, 127, 255, 256, 256 + 2, (1 << 16) + 8, (1 << 32) + 16, 1 << 61, usize::MAX - 15, usize::MAX];
        for m in large.into_iter().chain([0, 1]) {
            let as_m = [m.min(40), m % 256, 2, 8];
            for lengths in as_m.map(|m| (bytes(code.n * m), m * bytes(code.n), m)).into_iter().chain([(0, 0, 0), (1, 2, 3)]) {
                for filling in [0, 0xff] {
                    let (block, untouched) = (vec![filling; lengths.0], (vec![0xaa; lengths.1], vec![0xbb; lengths.2]));
                    let (refused, out, verdicts) = code.call(m, &block, lengths.1, lengths.2);
                    assert_eq!((refused, (out, verdicts)), (Err(Error::InterleavingDepth), untouched.clone()), "m {m}");
                    let (refused, out, verdicts) = broken.call(m, &block, lengths.1, lengths.2);
                    assert_eq!((refused, (out, verdicts)), (Err(Error::Header), untouched));
                }
            }
        }
        for m in 2..=16 {
            assert_eq!(code.call(m, &vec![0; bytes(code.n * m)], m * bytes(code.n), m).0, Ok(()));
        }
    }
    assert_eq!(Error::InterleavingDepth.to_string(), "refusal 17: the number of words of a block is not 2 to 16");
}

/// 11 before 12: the three lengths are exact, whatever stands in the block.
#[test]
fn lengths_of_blocks() {
    for code in codes() {
        for m in 2..=16 {
            let right = (bytes(code.n * m), m * bytes(code.n), m);
            // among them the lengths of m words for the block, and of one word for out
            let blocks = [0, 1, right.0 - 1, right.0, right.0 + 1, m * bytes(code.n), right.0 + 256];
            let outs = [0, bytes(code.n), right.1 - 1, right.1, right.1 + 1, right.0, right.1 + 256];
            let verdicts = [0, 1, m - 1, m, m + 1, m + 256];
            for lengths in blocks.iter().flat_map(|b| outs.iter().flat_map(move |o| verdicts.map(|v| (*b, *o, v)))) {
                for filling in [0, 0xff] {
                    let (answer, out, given) = code.call(m, &vec![filling; lengths.0], lengths.1, lengths.2);
                    assert_eq!(answer == Err(Error::BufferLength), lengths != right, "m {m}, {lengths:?}");
                    if answer.is_err() {
                        assert_eq!((out, given), (vec![0xaa; lengths.1], vec![0xbb; lengths.2]));
                    }
                }
            }
        }
    }
}

/// 12: every bit of a block is a place of a word, or it is spare.
#[test]
fn spare_bits_of_blocks() {
    for code in codes() {
        for m in 2..=16 {
            let (all, len) = (code.n * m, bytes(code.n * m));
            for p in 0..8 * len {
                let mut bits = vec![false; 8 * len];
                bits[p] = true;
                let (answer, out, verdicts) = code.call(m, &packed(&bits), m * bytes(code.n), m);
                if p < all {
                    let counts: Vec<u8> = (0..m).map(|i| u8::from(i == p % m)).collect();
                    assert_eq!((answer, out, verdicts), (Ok(()), vec![0; m * bytes(code.n)], counts));
                } else {
                    let untouched = (vec![0xaa; m * bytes(code.n)], vec![0xbb; m]);
                    assert_eq!((answer, (out, verdicts)), (Err(Error::SpareBit), untouched));
                }
            }
        }
    }
}

/// block_put makes the blocks that are made here, and touches no bit but the word's.
#[test]
fn words_put_into_a_block() {
    let mut draw = Draw(4);
    for n in [1, 3, 7, 8, 9, 15, 63] {
        for m in 1..=17 {
            let words: Vec<u64> = (0..m).map(|_| draw.next() << 31 | draw.next()).map(|word| word & ((1 << n) - 1)).collect();
            let filled: Vec<u8> = (0..bytes(n * m) + 2).map(|_| draw.next() as u8).collect();
            let mut block = filled.clone();
            for (i, word) in words.iter().enumerate() {
                let before = block.clone();
                block_put(n, m, i, &word_bytes(*word, n), &mut block);
                for p in (0..8 * block.len()).filter(|p| *p >= n * m || p % m != i) {
                    assert_eq!(block[p / 8] >> (7 - p % 8) & 1, before[p / 8] >> (7 - p % 8) & 1);
                }
            }
            let right = packed(&interleaved(&words, n));
            let spare = 8 * bytes(n * m) - n * m;
            assert_eq!(block[..bytes(n * m) - 1], right[..right.len() - 1]);
            assert_eq!(block[bytes(n * m) - 1] >> spare, right[right.len() - 1] >> spare);
            assert_eq!(block[bytes(n * m)..], filled[bytes(n * m)..]);
        }
    }
}

/// It panics before a bit is touched.
#[test]
fn words_that_cannot_be_put() {
    let cases = [(7, 2, 2, 1, 2), (7, 0, 0, 1, 2), (9, 2, 0, 1, 4), (7, 2, 1, 0, 2), (7, 3, 0, 1, 2), (8, usize::MAX, 0, 1, 2)];
    for (n, m, i, word_len, block_len) in cases {
        let mut block = vec![0xff; block_len];
        let put = std::panic::AssertUnwindSafe(|| block_put(n, m, i, &vec![0; word_len], &mut block));
        assert!(std::panic::catch_unwind(put).is_err(), "n {n}, m {m}, i {i}");
        assert_eq!(block, vec![0xff; block_len]);
    }
    let mut block = [0xff; 2];
    block_put(7, 2, 1, &[0], &mut block);
    assert_eq!(block, [0xaa, 0xab]);
}

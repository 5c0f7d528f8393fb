//! Binary cyclic codes for a noisy wire, each code given by a *code sheet*: a few bytes that name the code and carry a
//! certificate of its distance. This crate hands calls on to the proved static library `libdunefork.a`; it adds lengths,
//! pointers and an error type, takes one number apart (2 e + trial), and puts words into a block.
//!
//! ```
//! // Sheet B of document 01: n = 15 places, k = 7 message places, any t = 2 wrong places are corrected.
//! const SHEET: [u8; 20] = [20, 0, 15, 2, 10, 0, 1, 0, 12, 0, 1, 3, 1, 1, 3, 0, 1, 0, 4, 0];
//!
//! let mut word = [0; dunefork::bytes(15)];
//! dunefork::encode(&SHEET, &[0x55], &mut word)?;
//! assert_eq!(word, [0b1010_0111, 0b1010_1010]); // places 0 to 14 from left to right, then a spare bit
//!
//! word[0] ^= 0x80; // the wire spoils place 0
//! word[1] ^= 0x08; // and place 12
//! let mut right = [0; dunefork::bytes(15)];
//! assert_eq!(dunefork::decode(&SHEET, &word, &mut right)?, 2);
//! assert_eq!(right, [0b1010_0111, 0b1010_1010]);
//!
//! let mut message = [0; dunefork::bytes(7)];
//! dunefork::read(&SHEET, &right, &mut message)?;
//! assert_eq!(message, [0x55]);
//! # Ok::<(), dunefork::Error>(())
//! ```
//!
//! Words and messages lie in their bytes in opposite ways:
//!
//! - Place i of a word has weight 2^(7 - i mod 8) in byte i div 8: the highest bit of each byte is its first place, and the spare
//!   bits are the low bits of the last byte.
//! - Place i of a message has weight 2^(i mod 8) in byte i div 8: the lowest bit of each byte is its first place, and the spare bits
//!   are the high bits of the last byte.
//!
//! Where the modem knows some places only as "0 or 1", [`decode_marked`] is told which and corrects more. Marks lie in bytes as a word
//! does.
//!
//! Where readings are small, [`encode_short`], [`read_short`] and [`decode_short`] leave out the top m places of message and word, so that
//! fewer are sent: k - m and n - m.
//!
//! Where a soft starter wipes out a run of bits, m words are sent together as a block, one place of each in turn ([`block_put`]), and
//! [`decode_block`] corrects them all, whole as long as at most m·t neighbouring bits are spoiled, none of them spare.
//!
//! Spare bits must be 0 in what is handed over, and are 0 in what comes back. n is byte 2 of the sheet; [`card`] tells n, k, d and t of
//! a sheet, and docs/SHEETS.md how to write one.
//!
//! Every call that is handed a sheet judges it anew. Nothing is kept between calls: no heap, no global state, no lock. A call that
//! fails leaves the buffers that it was lent as they were, every byte of them. docs/STACK.md tells how much stack a call takes.
//!
//! Building: cargo links `libdunefork.a` from the folder that DUNEFORK_LIB_DIR names; where it is not set, build.rs proves and
//! builds the library in the repository that this crate stands in, by `tools/staticlib`.
//!
//! What is proved is the library: for every sheet, input and buffer of any length it answers and writes exactly what its
//! definitions say. This crate, the compilers' back ends and the linking are not proved.
#![cfg_attr(not(feature = "std"), no_std)]
#![warn(missing_docs)]

use core::fmt;

/// The longest sheet, in bytes.
pub const SHEET_MAX: usize = 74;

/// The longest word, and the longest message, in bytes: those of 127 places.
pub const WORD_MAX: usize = bytes(127);

/// The bytes of a buffer for [`card`].
pub const CARD_BYTES: usize = 1024;

/// The bytes that a word or message of so many places takes.
///
/// ```
/// let word = [0; dunefork::bytes(31)];
/// assert_eq!(word.len(), 4);
/// ```
pub const fn bytes(places: usize) -> usize {
    places / 8 + (places % 8 != 0) as usize
}

/// Why a call was refused. The numbers are those of documents 01 and 02; the conditions are tried in their order, 16 and 17 between 10 and
/// 11, those of certificates (7 to 10) for one certificate after the other. Later versions may have more.
#[derive(Clone, Copy, Debug, PartialEq, Eq, PartialOrd, Ord, Hash)]
#[repr(u8)]
#[non_exhaustive]
pub enum Error {
    /// The sheet is under 10 or over 74 bytes, or its bytes 0-1 state another length.
    SheetLength = 1,
    /// n is even, below 3 or above 127.
    CodeLength = 2,
    /// n divides no 2^s - 1 with s up to 12.
    FieldDegree = 3,
    /// A count, an offset, byte 7 or the length formula of the sheet is wrong.
    Header = 4,
    /// A representative is not below n, not the smallest of its coset, or not above the one before.
    Representative = 5,
    /// The code has no message places: k is 0.
    NoMessage = 6,
    /// A field of a certificate is out of range.
    Range = 7,
    /// The masks h and f of a certificate have a common factor.
    CommonFactor = 8,
    /// Two of a certificate's f(α^i·x), i below n, have a common factor. Where the period of f is coprime to n none have.
    Period = 9,
    /// A certificate counts on a zero that the code does not have.
    Term = 10,
    /// An input or an output buffer has not its exact length.
    BufferLength = 11,
    /// A spare bit of an input is 1: a low one in the last byte of a word, of marks or of a block, a high one in a message's.
    SpareBit = 12,
    /// Decoding: no codeword, of a shortened code no shortened one, lies within t places of the word.
    NoneNear = 13,
    /// Reading out: the word is no codeword.
    NoCodeword = 14,
    /// Decoding a marked word: no codeword differs from it in e unmarked places with 2·e + r at most d - 1, where r are marked.
    NoneWithMarks = 15,
    /// A shortened code: m is 0, or not below k.
    Shortening = 16,
    /// A block: m is not 2 to 16.
    InterleavingDepth = 17,
}

impl Error {
    /// The number that document 01 or 02 gives it, 1 to 17.
    ///
    /// ```
    /// let error = dunefork::encode(&[], &[], &mut []).unwrap_err();
    /// assert_eq!(error.number(), 1);
    /// ```
    pub const fn number(self) -> u8 {
        self as u8
    }

    /// The error of such a number.
    pub const fn from_number(number: u8) -> Option<Error> {
        Some(match number {
            1 => Error::SheetLength,
            2 => Error::CodeLength,
            3 => Error::FieldDegree,
            4 => Error::Header,
            5 => Error::Representative,
            6 => Error::NoMessage,
            7 => Error::Range,
            8 => Error::CommonFactor,
            9 => Error::Period,
            10 => Error::Term,
            11 => Error::BufferLength,
            12 => Error::SpareBit,
            13 => Error::NoneNear,
            14 => Error::NoCodeword,
            15 => Error::NoneWithMarks,
            16 => Error::Shortening,
            17 => Error::InterleavingDepth,
            _ => return None,
        })
    }
}

impl fmt::Display for Error {
    fn fmt(&self, f: &mut fmt::Formatter<'_>) -> fmt::Result {
        let meaning = match self {
            Error::SheetLength => "the sheet is shorter than 10 or longer than 74 bytes, or its bytes 0-1 state another length",
            Error::CodeLength => "the sheet's n (byte 2) is even, below 3 or above 127",
            Error::FieldDegree => "the sheet's n (byte 2) divides no 2^s - 1 with s up to 12",
            Error::Header => "the sheet's header is wrong: R, C, an offset, byte 7, or the length 10 + R + 8 C",
            Error::Representative => {
                "a representative of the sheet is not below n, not the smallest of its coset, or not above the one before"
            }
            Error::NoMessage => "the sheet's cosets take all n places, so that no place is left for a message",
            Error::Range => "a field of a certificate is out of range",
            Error::CommonFactor => "the masks h and f of a certificate have a common factor",
            Error::Period => "two of a certificate's f(α^i·x), i below n, have a common factor",
            Error::Term => "a certificate counts on a zero that the code does not have",
            Error::BufferLength => "an input or an output buffer has not its exact length",
            Error::SpareBit => "a spare bit of an input's last byte is 1",
            Error::NoneNear => "no codeword lies within t places of the word",
            Error::NoCodeword => "the word is no codeword",
            Error::NoneWithMarks => "no codeword differs from the word in so few unmarked places as its marks allow",
            Error::Shortening => "the number of places to leave out is 0 or not below k",
            Error::InterleavingDepth => "the number of words of a block is not 2 to 16",
        };
        write!(f, "refusal {}: {}", self.number(), meaning)
    }
}

#[cfg(feature = "std")]
impl std::error::Error for Error {}

mod c {
    //! include/dunefork.h.
    type Entry = unsafe extern "C" fn(*const u8, usize, *const u8, usize, *mut u8, usize) -> i32;
    type ShortEntry = unsafe extern "C" fn(*const u8, usize, usize, *const u8, usize, *mut u8, usize) -> i32;

    extern "C" {
        fn dunefork_encode(s: *const u8, s_len: usize, i: *const u8, i_len: usize, o: *mut u8, o_len: usize) -> i32;
        fn dunefork_read(s: *const u8, s_len: usize, i: *const u8, i_len: usize, o: *mut u8, o_len: usize) -> i32;
        fn dunefork_decode(s: *const u8, s_len: usize, i: *const u8, i_len: usize, o: *mut u8, o_len: usize) -> i32;
        fn dunefork_decode_marked(
            s: *const u8,
            s_len: usize,
            w: *const u8,
            w_len: usize,
            m: *const u8,
            m_len: usize,
            z: *mut u8,
            z_len: usize,
            o: *mut u8,
            o_len: usize,
        ) -> i32;
        fn dunefork_shown_length(trial: usize, n: usize, z: *const u8, z_len: usize, o: *const u8, o_len: usize) -> usize;
        fn dunefork_encode_short(s: *const u8, sl: usize, m: usize, i: *const u8, il: usize, o: *mut u8, ol: usize) -> i32;
        fn dunefork_read_short(s: *const u8, sl: usize, m: usize, i: *const u8, il: usize, o: *mut u8, ol: usize) -> i32;
        fn dunefork_decode_short(s: *const u8, sl: usize, m: usize, i: *const u8, il: usize, o: *mut u8, ol: usize) -> i32;
        fn dunefork_decode_block(
            s: *const u8,
            s_len: usize,
            m: usize,
            b: *const u8,
            b_len: usize,
            o: *mut u8,
            o_len: usize,
            v: *mut u8,
            v_len: usize,
        ) -> i32;
        fn dunefork_card(s: *const u8, s_len: usize, o: *mut u8, o_len: usize) -> i32;
    }

    pub const ENCODE: Entry = dunefork_encode;
    pub const READ: Entry = dunefork_read;
    pub const DECODE: Entry = dunefork_decode;
    pub const ENCODE_SHORT: ShortEntry = dunefork_encode_short;
    pub const READ_SHORT: ShortEntry = dunefork_read_short;
    pub const DECODE_SHORT: ShortEntry = dunefork_decode_short;

    /// An entry's answer: what it returns, or the error of its refusal.
    pub fn call(entry: Entry, sheet: &[u8], input: &[u8], out: &mut [u8]) -> Result<usize, super::Error> {
        // SAFETY: the entries read the two inputs and write `out` within the lengths that go with them, and keep no pointer.
        // `out` is borrowed exclusively, so that it overlaps neither input.
        answer(unsafe { entry(sheet.as_ptr(), sheet.len(), input.as_ptr(), input.len(), out.as_mut_ptr(), out.len()) })
    }

    /// The answer of an entry for shortened codes.
    pub fn call_short(entry: ShortEntry, sheet: &[u8], m: usize, input: &[u8], out: &mut [u8]) -> Result<usize, super::Error> {
        // SAFETY: as above.
        answer(unsafe { entry(sheet.as_ptr(), sheet.len(), m, input.as_ptr(), input.len(), out.as_mut_ptr(), out.len()) })
    }

    /// The answer for a word with marks: 2·e + trial.
    pub fn decode_marked(
        sheet: &[u8],
        word: &[u8],
        marks: &[u8],
        zeros: &mut [u8],
        ones: &mut [u8],
    ) -> Result<usize, super::Error> {
        // SAFETY: as above, with two buffers that are written, each borrowed exclusively.
        answer(unsafe {
            dunefork_decode_marked(
                sheet.as_ptr(),
                sheet.len(),
                word.as_ptr(),
                word.len(),
                marks.as_ptr(),
                marks.len(),
                zeros.as_mut_ptr(),
                zeros.len(),
                ones.as_mut_ptr(),
                ones.len(),
            )
        })
    }

    /// How much of the trial's buffer is shown.
    pub fn shown_length(trial: usize, n: usize, zeros: &[u8], ones: &[u8]) -> usize {
        // SAFETY: nothing is written.
        unsafe { dunefork_shown_length(trial, n, zeros.as_ptr(), zeros.len(), ones.as_ptr(), ones.len()) }
    }

    /// The answer for a block: 0.
    pub fn decode_block(
        sheet: &[u8],
        m: usize,
        block: &[u8],
        out: &mut [u8],
        verdicts: &mut [u8],
    ) -> Result<usize, super::Error> {
        // SAFETY: as above, with two buffers that are written, each borrowed exclusively.
        answer(unsafe {
            dunefork_decode_block(
                sheet.as_ptr(),
                sheet.len(),
                m,
                block.as_ptr(),
                block.len(),
                out.as_mut_ptr(),
                out.len(),
                verdicts.as_mut_ptr(),
                verdicts.len(),
            )
        })
    }

    /// The listing of a sheet into `out`: its length.
    pub fn card(sheet: &[u8], out: &mut [u8]) -> Result<usize, super::Error> {
        // SAFETY: as above.
        answer(unsafe { dunefork_card(sheet.as_ptr(), sheet.len(), out.as_mut_ptr(), out.len()) })
    }

    fn answer(code: i32) -> Result<usize, super::Error> {
        match usize::try_from(code) {
            Ok(answer) => Ok(answer),
            Err(_) => match u8::try_from(code.unsigned_abs()).ok().and_then(super::Error::from_number) {
                Some(error) => Err(error),
                None => panic!("libdunefork.a is of another version: it answered {code}"),
            },
        }
    }
}

/// Encodes a message: its k places stand in the places n - k and up of the codeword, the places below hold the checks.
///
/// `message` has exactly `bytes(k)` bytes and `out` exactly `bytes(n)`.
///
/// ```
/// // Sheet H of document 01: n = 7, k = 4, t = 1.
/// const SHEET: [u8; 19] = [19, 0, 7, 1, 10, 0, 1, 0, 11, 0, 1, 1, 1, 3, 0, 1, 0, 2, 0];
///
/// let mut word = [0];
/// dunefork::encode(&SHEET, &[0b0010], &mut word)?; // place 1 alone
/// assert_eq!(word, [0b0110_1000]); // places 1, 2 and 4; the lowest bit is spare
/// assert_eq!(dunefork::encode(&SHEET, &[0b1_0000], &mut word), Err(dunefork::Error::SpareBit));
/// # Ok::<(), dunefork::Error>(())
/// ```
///
/// # Errors
///
/// Refusals 1 to 12; `out` is then as it was.
pub fn encode(sheet: &[u8], message: &[u8], out: &mut [u8]) -> Result<(), Error> {
    c::call(c::ENCODE, sheet, message, out).map(|_| ())
}

/// Reads the message out of a codeword.
///
/// `word` has exactly `bytes(n)` bytes and `out` exactly `bytes(k)`.
///
/// ```
/// const SHEET: [u8; 19] = [19, 0, 7, 1, 10, 0, 1, 0, 11, 0, 1, 1, 1, 3, 0, 1, 0, 2, 0];
///
/// let mut message = [0];
/// dunefork::read(&SHEET, &[0b0110_1000], &mut message)?;
/// assert_eq!(message, [0b0010]);
/// assert_eq!(dunefork::read(&SHEET, &[0b1000_0000], &mut message), Err(dunefork::Error::NoCodeword));
/// assert_eq!(dunefork::read(&SHEET, &[0b0000_0001], &mut message), Err(dunefork::Error::SpareBit));
/// # Ok::<(), dunefork::Error>(())
/// ```
///
/// # Errors
///
/// Refusals 1 to 12, and [`Error::NoCodeword`] exactly where the word is no codeword; `out` is then as it was.
pub fn read(sheet: &[u8], word: &[u8], out: &mut [u8]) -> Result<(), Error> {
    c::call(c::READ, sheet, word, out).map(|_| ())
}

/// Corrects a received word: the codeword that differs from it in at most t places goes into `out`, and the number of places in
/// which the two differ comes back, 0 to t. There is never more than one such codeword.
///
/// `word` and `out` have exactly `bytes(n)` bytes each.
///
/// If more than t places are wrong, the answer is [`Error::NoneNear`], or another codeword that is within t places of the word:
/// no decoder can tell that one from the one that was sent.
///
/// ```
/// const SHEET: [u8; 19] = [19, 0, 7, 1, 10, 0, 1, 0, 11, 0, 1, 1, 1, 3, 0, 1, 0, 2, 0];
///
/// let mut word = [0];
/// assert_eq!(dunefork::decode(&SHEET, &[0b0101_0000], &mut word)?, 1);
/// assert_eq!(word, [0b1101_0000]);
/// # Ok::<(), dunefork::Error>(())
/// ```
///
/// # Errors
///
/// Refusals 1 to 12, and [`Error::NoneNear`] exactly where no codeword is within t places; `out` is then as it was.
pub fn decode(sheet: &[u8], word: &[u8], out: &mut [u8]) -> Result<usize, Error> {
    c::call(c::DECODE, sheet, word, out)
}

/// Corrects a received word some of whose places are marked, with a 1 in `marks`, as known only as "0 or 1". With r marked places, and d
/// the sheet's distance, that of the certificate at work, the answer is the codeword that differs from the word in e unmarked places with
/// 2·e + r at most d - 1; e comes back, and the codeword. There is never more than one such codeword. What the word has in marked places
/// changes nothing; with no mark the answer is that of [`decode`], and [`Error::NoneWithMarks`] stands for [`Error::NoneNear`].
///
/// `word`, `marks`, `zeros` and `ones` have exactly `bytes(n)` bytes each. The codeword that comes back lies in `zeros` or in `ones`.
/// After an answer `zeros` holds what [`decode`] makes of the word with 0 in all marked places, or that word itself where decoding gives
/// [`Error::NoneNear`]; `ones` likewise with 1 in all marked places. Where both hold the answer, it is that in `zeros`.
///
/// ```
/// // Sheet B of document 01: d = 5, so that one wrong place and two marked ones are put right, or four marked ones.
/// const SHEET: [u8; 20] = [20, 0, 15, 2, 10, 0, 1, 0, 12, 0, 1, 3, 1, 1, 3, 0, 1, 0, 4, 0];
/// const SENT: [u8; 2] = [0b1010_0111, 0b1010_1010];
///
/// let (mut zeros, mut ones) = ([0; 2], [0; 2]);
/// let received = [0b0010_0111, 0b1001_1010]; // place 0 is wrong, and so are the marked ones, 10 and 11
/// let marks = [0b0000_0000, 0b0011_0000];
/// assert_eq!(dunefork::decode_marked(&SHEET, &received, &marks, &mut zeros, &mut ones)?, (1, &SENT[..]));
///
/// let marks = [0b1000_0000, 0b0111_0000];
/// assert_eq!(dunefork::decode_marked(&SHEET, &received, &marks, &mut zeros, &mut ones)?, (0, &SENT[..]));
/// # Ok::<(), dunefork::Error>(())
/// ```
///
/// # Errors
///
/// Refusals 1 to 12, and [`Error::NoneWithMarks`] exactly where there is no such codeword; `zeros` and `ones` are then both as they
/// were.
pub fn decode_marked<'a>(
    sheet: &[u8],
    word: &[u8],
    marks: &[u8],
    zeros: &'a mut [u8],
    ones: &'a mut [u8],
) -> Result<(usize, &'a [u8]), Error> {
    let answer = c::decode_marked(sheet, word, marks, zeros, ones)?;
    Ok((answer / 2, shown(answer % 2, sheet[2].into(), zeros, ones)))
}

/// The part of a trial's buffer that is shown: the first n/8 bytes, rounded up, of `zeros` if the trial is 0 and of `ones` for any
/// other number, or all of that buffer if it is shorter. Nothing is copied and nothing refused. [`decode_marked`] hands this back of its
/// buffers.
///
/// ```
/// let (zeros, ones) = ([1, 2, 3], [4, 5, 6]);
/// assert_eq!(dunefork::shown(0, 15, &zeros, &ones), [1, 2]);
/// assert_eq!(dunefork::shown(7, 17, &zeros, &ones), [4, 5, 6]);
/// assert_eq!(dunefork::shown(1, usize::MAX, &zeros, &ones[..1]), [4]);
/// ```
pub fn shown<'a>(trial: usize, n: usize, zeros: &'a [u8], ones: &'a [u8]) -> &'a [u8] {
    let length = c::shown_length(trial, n, zeros, ones);
    &(if trial == 0 { zeros } else { ones })[..length]
}

/// Encodes a message of a shortened code: the top m message places are 0 and the top m places of the codeword are not sent. The k - m
/// places of the message stand in the places n - k and up of the word, the places below hold the checks.
///
/// `message` has exactly `bytes(k - m)` bytes and `out` exactly `bytes(n - m)`. m is 1 to k - 1.
///
/// ```
/// // sheets/bch-63-51.hex with m = 23: the words of 40 places, 28 of them for the message, of AMPS's forward control channel. t = 2.
/// const SHEET: [u8; 20] = [20, 0, 63, 2, 10, 0, 1, 0, 12, 0, 1, 3, 1, 1, 3, 0, 1, 0, 4, 0];
///
/// let mut word = [0; dunefork::bytes(63 - 23)];
/// dunefork::encode_short(&SHEET, 23, &[0xef, 0xbe, 0xad, 0x0e], &mut word)?;
/// assert_eq!(word, [0x18, 0xcf, 0x77, 0xdb, 0x57]);
///
/// word[0] ^= 0x80; // the wire spoils place 0
/// word[4] ^= 0x01; // and place 39
/// let mut right = [0; 5];
/// assert_eq!(dunefork::decode_short(&SHEET, 23, &word, &mut right)?, 2);
///
/// let mut message = [0; dunefork::bytes(51 - 23)];
/// dunefork::read_short(&SHEET, 23, &right, &mut message)?;
/// assert_eq!(message, [0xef, 0xbe, 0xad, 0x0e]);
/// # Ok::<(), dunefork::Error>(())
/// ```
///
/// # Errors
///
/// Refusals 1 to 12, and [`Error::Shortening`], after those of the sheet, exactly where m is 0 or not below k; `out` is then as it was.
pub fn encode_short(sheet: &[u8], m: usize, message: &[u8], out: &mut [u8]) -> Result<(), Error> {
    c::call_short(c::ENCODE_SHORT, sheet, m, message, out).map(|_| ())
}

/// Reads the message out of a shortened codeword: the n - m lower places of a codeword whose top m places are 0.
///
/// `word` has exactly `bytes(n - m)` bytes and `out` exactly `bytes(k - m)`. m is 1 to k - 1.
///
/// ```
/// // Sheet H of document 01, n = 7 and k = 4, with m = 2.
/// const SHEET: [u8; 19] = [19, 0, 7, 1, 10, 0, 1, 0, 11, 0, 1, 1, 1, 3, 0, 1, 0, 2, 0];
///
/// let mut message = [0];
/// dunefork::read_short(&SHEET, 2, &[0b01101_000], &mut message)?;
/// assert_eq!(message, [0b10]);
/// assert_eq!(dunefork::read_short(&SHEET, 2, &[0b10000_000], &mut message), Err(dunefork::Error::NoCodeword));
/// assert_eq!(dunefork::read_short(&SHEET, 2, &[0b00000_100], &mut message), Err(dunefork::Error::SpareBit));
/// assert_eq!(dunefork::read_short(&SHEET, 4, &[0], &mut message), Err(dunefork::Error::Shortening));
/// # Ok::<(), dunefork::Error>(())
/// ```
///
/// # Errors
///
/// Refusals 1 to 12, [`Error::Shortening`], after those of the sheet, exactly where m is 0 or not below k, and [`Error::NoCodeword`]
/// exactly where the word is no shortened codeword; `out` is then as it was.
pub fn read_short(sheet: &[u8], m: usize, word: &[u8], out: &mut [u8]) -> Result<(), Error> {
    c::call_short(c::READ_SHORT, sheet, m, word, out).map(|_| ())
}

/// Corrects a received word of a shortened code: the shortened codeword that differs from it in at most t places goes into `out`, and the
/// number of places in which the two differ comes back, 0 to t. There is never more than one. t is that of the sheet, as for [`decode`].
///
/// `word` and `out` have exactly `bytes(n - m)` bytes each. m is 1 to k - 1.
///
/// ```
/// // Sheet H of document 01, n = 7 and t = 1, with m = 2.
/// const SHEET: [u8; 19] = [19, 0, 7, 1, 10, 0, 1, 0, 11, 0, 1, 1, 1, 3, 0, 1, 0, 2, 0];
///
/// let mut word = [0];
/// assert_eq!(dunefork::decode_short(&SHEET, 2, &[0b01100_000], &mut word)?, 1);
/// assert_eq!(word, [0b01101_000]);
/// // the only codeword within one place has a 1 in place 5, which is not sent
/// assert_eq!(dunefork::decode(&SHEET, &[0b00110_000], &mut word)?, 1);
/// assert_eq!(word, [0b00110_100]);
/// assert_eq!(dunefork::decode_short(&SHEET, 2, &[0b00110_000], &mut word), Err(dunefork::Error::NoneNear));
/// # Ok::<(), dunefork::Error>(())
/// ```
///
/// # Errors
///
/// Refusals 1 to 12, [`Error::Shortening`], after those of the sheet, exactly where m is 0 or not below k, and [`Error::NoneNear`] exactly
/// where no shortened codeword is within t places, also where another codeword is; `out` is then as it was.
pub fn decode_short(sheet: &[u8], m: usize, word: &[u8], out: &mut [u8]) -> Result<usize, Error> {
    c::call_short(c::DECODE_SHORT, sheet, m, word, out)
}

/// Corrects the m words of a block: bit j·m + i of the block is place j of word i, for i below m and j below n, and bit p has weight
/// 2^(7 - p mod 8) in byte p div 8. Where a codeword is within t places of word i, it goes into the word's bytes of `out`, and
/// `verdicts[i]` is the number of places in which the two differ, 0 to t. There is never more than one. Where there is none,
/// `verdicts[i]` is 255 and the word's bytes of `out` are as they were; the other words are corrected all the same.
///
/// `block` has exactly `bytes(n * m)` bytes, and its spare bits, from n·m on, are 0; `out` has exactly `m * bytes(n)`, the words one
/// after the other in word layout, and `verdicts` exactly m. m is 2 to 16.
///
/// A block of codewords of which at most m·t neighbouring bits are spoiled, none of them spare, always comes back whole: every word is
/// the one sent, and its verdict the number of its wrong places. (The spoiled bits then all lie in a run of m·t bits, any of which may be
/// right.) There is no call that encodes a block: [`encode`] the words one by
/// one, and [`block_put`] each into the block. What [`decode`] says of more than t wrong places holds of each word.
///
/// ```
/// // Sheet B of document 01: n = 15, k = 7, t = 2. One letter to a word, and m = 8 words: a run of 16 bits is put right.
/// const SHEET: [u8; 20] = [20, 0, 15, 2, 10, 0, 1, 0, 12, 0, 1, 3, 1, 1, 3, 0, 1, 0, 4, 0];
///
/// let mut block = [0; dunefork::bytes(15 * 8)];
/// for (i, letter) in b"Dunefork".iter().enumerate() {
///     let mut word = [0; dunefork::bytes(15)];
///     dunefork::encode(&SHEET, &[*letter], &mut word)?;
///     dunefork::block_put(15, 8, i, &word, &mut block);
/// }
///
/// block[4] ^= 0x07; // the wire spoils bits 37 to 52
/// block[5] ^= 0xff;
/// block[6] ^= 0xf8;
/// let (mut out, mut verdicts) = ([0; 8 * dunefork::bytes(15)], [0; 8]);
/// dunefork::decode_block(&SHEET, 8, &block, &mut out, &mut verdicts)?;
/// assert_eq!(verdicts, [2; 8]);
///
/// let mut text = [0; 8];
/// for (word, letter) in out.chunks(dunefork::bytes(15)).zip(text.chunks_mut(1)) {
///     dunefork::read(&SHEET, word, letter)?;
/// }
/// assert_eq!(&text, b"Dunefork");
/// # Ok::<(), dunefork::Error>(())
/// ```
///
/// # Errors
///
/// Refusals 1 to 12, and [`Error::InterleavingDepth`], after those of the sheet, exactly where m is not 2 to 16; `out` and `verdicts`
/// are then both as they were. [`Error::NoneNear`] is none of them: a verdict of 255 says that of a word.
pub fn decode_block(sheet: &[u8], m: usize, block: &[u8], out: &mut [u8], verdicts: &mut [u8]) -> Result<(), Error> {
    c::decode_block(sheet, m, block, out, verdicts).map(|_| ())
}

/// Puts a word of n places into a block of m words, as its word i: bit j·m + i of the block becomes place j of the word, for each j
/// below n. All other bits of the block, the spare ones too, are as they were, so a block is all 0 at first. This is plain Rust and no
/// part of what is proved.
///
/// ```
/// let mut block = [0; dunefork::bytes(7 * 3)];
/// dunefork::block_put(7, 3, 0, &[0b1111_1110], &mut block);
/// dunefork::block_put(7, 3, 1, &[0b1000_0010], &mut block);
/// assert_eq!(block, [0b110_100_10, 0b0_100_100_1, 0b00_110_000]); // places 0 to 6 of words 0 to 2, then three spare bits
/// ```
///
/// # Panics
///
/// If i is not below m, `word` has fewer than `bytes(n)` bytes, or `block` fewer than `bytes(n * m)`; the block is then as it was.
pub fn block_put(n: usize, m: usize, i: usize, word: &[u8], block: &mut [u8]) {
    assert!(i < m, "word {i} of a block of {m} words");
    assert!(word.len() >= bytes(n), "a word of {n} places has {} bytes", word.len());
    let bits = n.checked_mul(m);
    assert!(
        bits.map_or(false, |bits| block.len() >= bytes(bits)),
        "a block of {m} words of {n} places has {} bytes",
        block.len()
    );
    for j in 0..n {
        let (p, place) = (j * m + i, word[j / 8] >> (7 - j % 8) & 1);
        block[p / 8] = block[p / 8] & !(0x80 >> (p % 8)) | place << (7 - p % 8);
    }
}

/// Tells what a sheet amounts to: its listing, the text of the program `linkcard`, written into `out`. The lines are `code N K S`, S
/// being the field's degree, `zeros ..`, `generator ..`, `cert C terms L distance D` for each certificate C, and `radius T from cert C`
/// for the certificate at work, the one with the largest D, then the smallest L, then the first; or `refused R` alone.
///
/// ```
/// const SHEET: [u8; 19] = [19, 0, 7, 1, 10, 0, 1, 0, 11, 0, 1, 1, 1, 3, 0, 1, 0, 2, 0];
///
/// let mut text = [0; dunefork::CARD_BYTES];
/// assert!(dunefork::card(&SHEET, &mut text).starts_with("code 7 4 3\n"));
/// assert_eq!(dunefork::card(&[], &mut text), "refused 1\n");
/// ```
pub fn card<'a>(sheet: &[u8], out: &'a mut [u8; CARD_BYTES]) -> &'a str {
    let size = c::card(sheet, out).expect("a buffer of this length is not refused");
    core::str::from_utf8(&out[..size]).expect("a listing is ASCII text")
}

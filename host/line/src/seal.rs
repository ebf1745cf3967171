//! Sealing: what is sent can be read and made by those alone who have the shared key, and tells which start of which end made it.
//!
//! | bytes | what |
//! |---|---|
//! | 0–1 | "FR" |
//! | 2 | version 3 |
//! | 3–18 | the start: random bytes that it drew |
//! | 19–26 | its counter, big-endian: of each datagram one more |
//! | 27 on | the body (`message`) under ChaCha20-Poly1305, with its tag of 16 bytes at the end |
//!
//! Bytes 0 to 26 stand in clear and are authenticated. The key is derived from the shared one and the start by HKDF with SHA-256, for this version
//! and one direction; the nonce is the counter. So a nonce comes twice under one key only if two starts draw the same 128 bits, and an end does not
//! open what it has sealed itself.
use ring::aead::{Aad, LessSafeKey, Nonce, UnboundKey, CHACHA20_POLY1305, NONCE_LEN};
use ring::hkdf::{Salt, HKDF_SHA256};
use ring::rand::{SecureRandom, SystemRandom};
use std::fmt;

/// No datagram is longer. IPv6 carries so much whole everywhere (1,280 bytes with the heads of IP and UDP), and IPv4 networks do in practice.
pub const LONGEST: usize = 1_232;
const FRONT: [u8; 3] = *b"FR\x03";
const START_AT: usize = FRONT.len();
const COUNTER_AT: usize = START_AT + 16;
const BODY_AT: usize = COUNTER_AT + 8;
const TAG: usize = 16;
/// No body is longer.
pub const BODY: usize = LONGEST - BODY_AT - TAG;

/// Of so many starts that were heard the derived keys are kept, those heard last.
const KEPT: usize = 8;

/// What both ends share beforehand, 256 bits. Whoever has it can forge.
#[derive(Clone, PartialEq, Eq)]
pub struct SharedKey([u8; 32]);

impl SharedKey {
    pub fn draw() -> Self {
        Self(random())
    }

    /// From 64 hexadecimal digits.
    pub fn from_digits(digits: &str) -> Option<Self> {
        let values = digits.chars().map(|digit| Some(digit.to_digit(16)? as u8)).collect::<Option<Vec<_>>>()?;
        let bytes: Vec<u8> = values.chunks_exact(2).map(|pair| pair[0] << 4 | pair[1]).collect();
        let bytes = bytes.try_into().ok()?;
        (values.len() == 64).then_some(Self(bytes))
    }

    pub fn digits(&self) -> String {
        self.0.iter().map(|byte| format!("{byte:02x}")).collect()
    }

    /// The key of one start of one end.
    fn of(&self, start: Start, by: End) -> LessSafeKey {
        let direction: &[u8] = match by {
            End::Candidate => b"candidate to invigilator",
            End::Invigilator => b"invigilator to candidate",
        };
        let info = [b"futonrobin ", &FRONT[..], b" ", direction];
        let pseudorandom = Salt::new(HKDF_SHA256, &start.0).extract(&self.0);
        let derived = pseudorandom.expand(&info, &CHACHA20_POLY1305).expect("32 bytes can be derived");
        LessSafeKey::new(UnboundKey::from(derived))
    }
}

/// It is never printed by mistake.
impl fmt::Debug for SharedKey {
    fn fmt(&self, f: &mut fmt::Formatter) -> fmt::Result {
        write!(f, "SharedKey(..)")
    }
}

/// One start of a program, by the random bytes that it drew.
#[derive(Clone, Copy, PartialEq, Eq, Debug)]
pub struct Start([u8; 16]);

impl Start {
    pub fn draw() -> Self {
        Self(random())
    }

    pub const fn from_bytes(bytes: [u8; 16]) -> Self {
        Self(bytes)
    }

    pub fn bytes(&self) -> &[u8; 16] {
        &self.0
    }
}

fn random<const N: usize>() -> [u8; N] {
    let mut bytes = [0; N];
    SystemRandom::new().fill(&mut bytes).expect("the system has random bytes");
    bytes
}

/// Which end seals.
#[derive(Clone, Copy, PartialEq, Eq, Debug)]
pub enum End {
    Candidate,
    Invigilator,
}

/// Seals what one start of an end sends.
pub struct Sealer {
    start: Start,
    key: LessSafeKey,
    next: u64,
}

impl Sealer {
    /// It draws the start itself, so that none is used twice.
    pub fn new(shared: &SharedKey, end: End) -> Self {
        let start = Start::draw();
        Self { start, key: shared.of(start, end), next: 0 }
    }

    pub fn start(&self) -> Start {
        self.start
    }

    /// The counter of what is sealed next.
    pub fn next(&self) -> u64 {
        self.next
    }

    pub fn seal(&mut self, body: &[u8]) -> Vec<u8> {
        assert!(body.len() <= BODY, "a body of {} bytes", body.len());
        let counter = self.next;
        self.next = counter.checked_add(1).expect("nobody sends so many datagrams");
        let front = [&FRONT[..], &self.start.0, &counter.to_be_bytes()].concat();
        let mut sealed = body.to_vec();
        self.key.seal_in_place_append_tag(nonce(counter), Aad::from(&front), &mut sealed).expect("a short body can be sealed");
        [front, sealed].concat()
    }
}

fn nonce(counter: u64) -> Nonce {
    let mut bytes = [0; NONCE_LEN];
    bytes[NONCE_LEN - 8..].copy_from_slice(&counter.to_be_bytes());
    Nonce::assume_unique_for_key(bytes)
}

/// Opens what the other end has sealed.
pub struct Opener {
    shared: SharedKey,
    by: End,
    /// The starts that were heard, the last one first.
    heard: Vec<(Start, LessSafeKey)>,
}

/// A datagram that the other end made: which start of it, and which of its datagrams.
#[derive(PartialEq, Eq, Debug)]
pub struct Opened {
    pub start: Start,
    pub counter: u64,
    pub body: Vec<u8>,
}

impl Opener {
    /// For what `by` seals.
    pub fn new(shared: &SharedKey, by: End) -> Self {
        Self { shared: shared.clone(), by, heard: Vec::new() }
    }

    /// `None` for what was not sealed by the other end under this key, or was changed on the way.
    pub fn open(&mut self, datagram: &[u8]) -> Option<Opened> {
        if datagram.len() > LONGEST {
            return None;
        }
        let (front, sealed) = datagram.split_at_checked(BODY_AT)?;
        let start = Start(front[START_AT..COUNTER_AT].try_into().ok()?);
        let counter = u64::from_be_bytes(front[COUNTER_AT..].try_into().ok()?);
        if front[..START_AT] != FRONT || sealed.len() < TAG {
            return None;
        }
        let known = self.heard.iter().position(|(heard, _)| *heard == start);
        let (start, key) = known.map_or_else(|| (start, self.shared.of(start, self.by)), |at| self.heard.remove(at));
        let mut body = sealed.to_vec();
        let length = key.open_in_place(nonce(counter), Aad::from(front), &mut body).map(|body| body.len());
        // A start of which nothing opens takes no room.
        if length.is_ok() || known.is_some() {
            self.heard.insert(if length.is_ok() { 0 } else { known.unwrap_or(0) }, (start, key));
            self.heard.truncate(KEPT);
        }
        body.truncate(length.ok()?);
        Some(Opened { start, counter, body })
    }

    /// How many derived keys are kept.
    pub fn kept(&self) -> usize {
        self.heard.len()
    }
}

#[cfg(test)]
mod tests {
    use super::*;

    fn ends() -> (Sealer, Opener) {
        let shared = SharedKey::draw();
        (Sealer::new(&shared, End::Candidate), Opener::new(&shared, End::Candidate))
    }

    #[test]
    fn what_is_sealed_opens_once_and_again() {
        let (mut sealer, mut opener) = ends();
        for (counter, body) in [&b"first"[..], b"", &[7; BODY]].into_iter().enumerate() {
            let datagram = sealer.seal(body);
            assert_eq!(datagram.len(), BODY_AT + body.len() + TAG);
            for _ in 0..2 {
                let opened = opener.open(&datagram).unwrap();
                assert_eq!((opened.start, opened.counter, &opened.body[..]), (sealer.start(), counter as u64, body));
            }
        }
        assert_eq!((sealer.next(), opener.kept()), (3, 1));
    }

    #[test]
    fn every_byte_is_authenticated() {
        let (mut sealer, mut opener) = ends();
        let datagram = sealer.seal(b"WARD 7");
        assert!(!datagram.windows(4).any(|bytes| bytes == b"WARD"));
        for at in 0..datagram.len() {
            for bit in 0..8 {
                let mut damaged = datagram.clone();
                damaged[at] ^= 1 << bit;
                assert_eq!(opener.open(&damaged), None, "bit {bit} of byte {at}");
            }
            assert_eq!(opener.open(&datagram[..at]), None, "cut to {at}");
        }
        assert_eq!(opener.open(&[&datagram[..], b"!"].concat()), None, "a byte more");
        let mut long = vec![7; BODY + 1];
        let front = [&datagram[..COUNTER_AT], &9u64.to_be_bytes()].concat();
        sealer.key.seal_in_place_append_tag(nonce(9), Aad::from(&front), &mut long).unwrap();
        assert_eq!(opener.open(&[front, long].concat()), None, "longer than any");
        assert!(opener.open(&datagram).is_some());
    }

    #[test]
    fn another_key_another_direction() {
        let (shared, mut opener) = (SharedKey::draw(), ends().1);
        let mut sealer = Sealer::new(&shared, End::Candidate);
        let datagram = sealer.seal(b"WARD 7");
        assert_eq!(opener.open(&datagram), None, "another key");
        assert_eq!(Opener::new(&shared, End::Invigilator).open(&datagram), None, "what an end has sealed itself");
        assert!(Opener::new(&shared, End::Candidate).open(&datagram).is_some());
        let again = Sealer::new(&shared, End::Candidate).seal(b"WARD 7");
        assert_ne!(datagram[BODY_AT..], again[BODY_AT..], "another start has another key");
    }

    #[test]
    fn few_derived_keys_are_kept_and_none_for_garbage() {
        let shared = SharedKey::draw();
        let mut opener = Opener::new(&shared, End::Candidate);
        let mut sealers: Vec<_> = (0..KEPT + 3).map(|_| Sealer::new(&shared, End::Candidate)).collect();
        for _ in 0..2 {
            for sealer in &mut sealers {
                assert!(opener.open(&sealer.seal(b"")).is_some(), "one that is not kept is derived again");
            }
        }
        assert_eq!(opener.kept(), KEPT);
        let newest = opener.heard[0].0;
        for _ in 0..100 {
            assert_eq!(opener.open(&Sealer::new(&SharedKey::draw(), End::Candidate).seal(b"")), None);
        }
        assert_eq!((opener.kept(), opener.heard[0].0), (KEPT, newest));
        // Nor does a damaged one count as heard.
        let mut damaged = sealers[KEPT + 1].seal(b"");
        damaged[BODY_AT] ^= 1;
        assert_eq!((opener.open(&damaged), opener.heard[0].0, opener.kept()), (None, newest, KEPT));
    }

    /// Worked out from RFC 5869 and RFC 8439 by other programs: the format cannot change unseen.
    #[test]
    fn the_bytes_are_those_of_the_page() {
        let shared = SharedKey([7; 32]);
        let start = Start([9; 16]);
        let mut sealer = Sealer { start, key: shared.of(start, End::Candidate), next: 5 };
        let datagram = sealer.seal(b"WARD 7");
        let digits: String = datagram.iter().map(|byte| format!("{byte:02x}")).collect();
        assert_eq!(digits, EXAMPLE);
    }

    const EXAMPLE: &str = "465203090909090909090909090909090909090000000000000005b43e6173cb2b23b83bf9fd14277179449693dfe7dbcd";

    #[test]
    fn keys_as_digits() {
        let shared = SharedKey::draw();
        let digits = shared.digits();
        assert_eq!((digits.len(), SharedKey::from_digits(&digits)), (64, Some(shared.clone())));
        assert_eq!(SharedKey::from_digits(&digits.to_uppercase()), Some(shared.clone()));
        for bad in ["", "00", &digits[1..], &format!("{digits}0"), &format!("+{}", &digits[1..]), &"é".repeat(32)] {
            assert_eq!(SharedKey::from_digits(bad), None, "{bad}");
        }
        assert_eq!(format!("{shared:?}"), "SharedKey(..)");
    }
}

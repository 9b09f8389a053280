//! A posting: "64 bits, most significant first: PMFN 24, PTAG 16, POCC 8, PCNT 16". So the
//! four numbers take three, two, one and two of its eight bytes.

use crate::answer::Refusal;

/// Bytes of a posting.
pub const BYTES: usize = 8;

/// The four numbers of a posting. In one that is to be written they may be too wide.
#[derive(Clone, Copy, Debug, PartialEq, Eq, PartialOrd, Ord, Hash, Default)]
#[allow(missing_docs)]
pub struct Posting {
    pub mfn: u32,
    pub tag: u32,
    pub occurrence: u32,
    pub sequence: u32,
}

impl Posting {
    /// A posting of four numbers.
    pub fn of(mfn: u32, tag: u32, occurrence: u32, sequence: u32) -> Posting {
        Posting {
            mfn,
            tag,
            occurrence,
            sequence,
        }
    }

    /// The four numbers in their order.
    pub fn numbers(self) -> [u32; 4] {
        [self.mfn, self.tag, self.occurrence, self.sequence]
    }

    /// The four numbers of eight bytes.
    pub fn of_bytes(bytes: [u8; BYTES]) -> Posting {
        let joined = |part: &[u8]| {
            part.iter()
                .fold(0, |high, &low| high * 256 + u32::from(low))
        };
        Posting::of(
            joined(&bytes[..3]),
            joined(&bytes[3..5]),
            joined(&bytes[5..6]),
            joined(&bytes[6..]),
        )
    }

    /// The eight bytes, unless a number is too wide for its bits.
    pub fn bytes(self) -> Option<[u8; BYTES]> {
        let mut bytes = [0; BYTES];
        let (mfn, rest) = bytes.split_at_mut(3);
        let (tag, rest) = rest.split_at_mut(2);
        let (occurrence, sequence) = rest.split_at_mut(1);
        let all = put(mfn, self.mfn)
            && put(tag, self.tag)
            && put(occurrence, self.occurrence)
            && put(sequence, self.sequence);
        all.then_some(bytes)
    }

    /// The posting as a number of the machine; none of the four may be too wide.
    pub fn bits(self) -> u64 {
        u64::from_be_bytes(self.bytes().expect("numbers that fit"))
    }

    /// The posting of a number of the machine.
    pub fn of_bits(bits: u64) -> Posting {
        Posting::of_bytes(bits.to_be_bytes())
    }

    /// Reads MFN/FIELD/OCCURRENCE/NUMBER, unless a number is too wide.
    pub fn of_word(word: &str) -> Option<Posting> {
        let numbers: Vec<u32> = word
            .split('/')
            .map(|n| n.parse().ok())
            .collect::<Option<_>>()?;
        let [mfn, tag, occurrence, sequence] = numbers[..] else {
            return None;
        };
        let posting = Posting::of(mfn, tag, occurrence, sequence);
        posting.bytes().map(|_| posting)
    }

    /// Reads a line `TERM POSTING...`, of one posting or more; the term may hold spaces.
    pub fn of_line(line: &str) -> Option<(&str, Vec<u64>)> {
        let (mut term, mut list) = (line, Vec::new());
        while let Some((before, posting)) = term
            .rsplit_once(' ')
            .and_then(|(before, word)| Some((before, Posting::of_word(word)?)))
        {
            term = before;
            list.push(posting.bits());
        }
        list.reverse();
        (!list.is_empty()).then_some((term, list))
    }
}

/// Writes a number, most significant byte first; whether it fits.
fn put(part: &mut [u8], number: u32) -> bool {
    let mut rest = number;
    for byte in part.iter_mut().rev() {
        *byte = (rest % 256) as u8;
        rest /= 256;
    }
    rest == 0
}

/// Reads a posting from the first eight bytes: 23 under eight.
pub fn read(bytes: &[u8]) -> Result<Posting, Refusal> {
    let first = bytes.first_chunk().ok_or(Refusal::Postings)?;
    Ok(Posting::of_bytes(*first))
}

/// Writes a posting into the first eight bytes: 23 for a number too wide, then 17 under
/// eight.
pub fn write(posting: Posting, out: &mut [u8]) -> Result<(), Refusal> {
    let bytes = posting.bytes().ok_or(Refusal::Postings)?;
    let first = out.first_chunk_mut().ok_or(Refusal::NoRoomInList)?;
    *first = bytes;
    Ok(())
}

/// Compares two postings by PMFN, then PTAG, then POCC, then PCNT: 0 less, 1 equal, 2
/// greater.
pub fn compare(a: u64, b: u64) -> u32 {
    match Posting::of_bits(a).cmp(&Posting::of_bits(b)) {
        std::cmp::Ordering::Less => 0,
        std::cmp::Ordering::Equal => 1,
        std::cmp::Ordering::Greater => 2,
    }
}

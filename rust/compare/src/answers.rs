//! The fixed list of answers: its binary form (rust/README.md says it in words).

use oracle::Outcome;

use crate::case::Case;

/// A file holds whole records and is never longer than this.
pub const LONGEST_FILE: usize = 65_536;
/// Words before a record's lists.
const HEAD: usize = 26;
/// Stands for a number that one word does not hold; two words follow.
const WIDE: u16 = 0x8000;
/// What fills a text up to its length.
const FILLER: u8 = b'a';
/// What fills a sheet up to its lines.
const FILLER_LINE: [i32; 4] = [5, 0, 0, 0];

/// A case with its answer: what both areas hold follows from the number and these lists.
#[derive(Clone, Debug, Eq, PartialEq)]
pub struct Record {
    pub case: Case,
    pub outcome: Outcome,
    /// After 0: the tokens, five numbers each.
    pub tokens: Vec<u32>,
    /// After 10.
    pub positives: Vec<u32>,
    pub negatives: Vec<u32>,
}

impl Record {
    /// The record as bytes.
    pub fn encode(&self, running: u16) -> Vec<u8> {
        let Case { nodes, literals, text, .. } = &self.case;
        let nodes_given = given(nodes, |at| FILLER_LINE[at % 4]);
        let literals_given = given(literals, |_| FILLER);
        let text_given = given(text, |_| FILLER);

        let mut words = vec![0, running];
        words.extend([self.outcome.number, self.outcome.place, self.outcome.count].map(word));
        words.extend(pair(calls(self.outcome.calls)));
        words.extend(pair(self.case.root));
        words.extend(pair(self.case.depth_limit));
        words.extend(pair(self.case.call_limit));
        words.extend([self.case.tokens, self.case.report, self.case.scratch].map(length));
        words.extend([nodes_given, nodes.len(), literals_given].map(length));
        words.extend(pair(literals.len() as u32));
        words.push(length(text_given));
        words.extend(pair(text.len() as u32));
        words.extend([self.positives.len(), self.negatives.len()].map(length));
        assert_eq!(words.len(), HEAD);

        nodes[..nodes_given].iter().for_each(|number| push_number(&mut words, *number));
        push_bytes(&mut words, &literals[..literals_given]);
        push_bytes(&mut words, &text[..text_given]);
        words.extend(self.tokens.iter().map(|number| word(*number)));
        words.extend(self.positives.iter().chain(&self.negatives).map(|number| word(*number)));
        words[0] = length(words.len());
        words.into_iter().flat_map(u16::to_le_bytes).collect()
    }

    /// All records of a file.
    pub fn decode_all(file: &[u8]) -> Vec<Record> {
        let words: Vec<u16> =
            file.chunks_exact(2).map(|two| u16::from_le_bytes([two[0], two[1]])).collect();
        let mut records = Vec::new();
        let mut rest = &words[..];
        while !rest.is_empty() {
            let (record, others) = rest.split_at(usize::from(rest[0]));
            records.push(Record::decode(record));
            rest = others;
        }
        records
    }

    fn decode(words: &[u16]) -> Record {
        let mut reader = Reader { words: &words[2..] };
        let [number, place, count] = [(); 3].map(|()| reader.word());
        let outcome = Outcome { number, place, count, calls: reader.pair().into() };
        let [root, depth_limit, call_limit] = [(); 3].map(|()| reader.pair());
        let [tokens, report, scratch] = [(); 3].map(|()| reader.word() as usize);
        let [nodes_given, nodes_in_all, literals_given] = [(); 3].map(|()| reader.word() as usize);
        let literals_in_all = reader.pair() as usize;
        let text_given = reader.word() as usize;
        let text_in_all = reader.pair() as usize;
        let [positives, negatives] = [(); 2].map(|()| reader.word() as usize);

        let mut nodes: Vec<i32> = (0..nodes_given).map(|_| reader.number()).collect();
        nodes.extend((nodes_given..nodes_in_all).map(|at| FILLER_LINE[at % 4]));
        let mut literals = reader.bytes(literals_given);
        literals.resize(literals_in_all, FILLER);
        let mut text = reader.bytes(text_given);
        text.resize(text_in_all, FILLER);
        let held = if outcome.number == 0 { 5 * outcome.count as usize } else { 0 };
        let case =
            Case { nodes, literals, text, root, depth_limit, call_limit, tokens, report, scratch };
        let record = Record {
            case,
            outcome,
            tokens: reader.list(held),
            positives: reader.list(positives),
            negatives: reader.list(negatives),
        };
        assert!(reader.words.is_empty(), "a record's length is that of its lists");
        record
    }

    /// What the areas hold after the run, given what fills them before it.
    pub fn areas(&self, fill: u32) -> (Vec<u32>, Vec<u32>) {
        if self.outcome.is_refusal() {
            return (vec![fill; self.case.tokens], vec![fill; self.case.report]);
        }
        let mut tokens = self.tokens.clone();
        tokens.resize(self.case.tokens, 0);
        let mut report = Vec::new();
        if self.outcome.number == 10 {
            let counts = [self.positives.len() as u32, self.negatives.len() as u32];
            report =
                [&[self.outcome.place], &counts[..], &self.positives, &self.negatives].concat();
        }
        report.resize(self.case.report, 0);
        (tokens, report)
    }
}

/// How many items have to be written: a long tail of fillers does not.
fn given<T: PartialEq>(items: &[T], filler: impl Fn(usize) -> T) -> usize {
    const LONG: usize = 400;
    let mut count = items.len();
    while count > 0 && items[count - 1] == filler(count - 1) {
        count -= 1;
    }
    if items.len() - count < LONG {
        items.len()
    } else {
        count
    }
}

fn word(number: u32) -> u16 {
    u16::try_from(number).expect("numbers of an answer are below 65,536")
}

fn calls(count: u64) -> u32 {
    u32::try_from(count).expect("no recorded run enters so many calls")
}

fn length(count: usize) -> u16 {
    u16::try_from(count).expect("lengths of an answer are below 65,536")
}

fn pair(number: u32) -> [u16; 2] {
    [number as u16, (number >> 16) as u16]
}

fn push_number(words: &mut Vec<u16>, number: i32) {
    match i16::try_from(number) {
        Ok(small) if small as u16 != WIDE => words.push(small as u16),
        _ => {
            words.push(WIDE);
            words.extend(pair(number as u32));
        }
    }
}

fn push_bytes(words: &mut Vec<u16>, bytes: &[u8]) {
    words.extend(
        bytes.chunks(2).map(|two| u16::from_le_bytes([two[0], two.get(1).copied().unwrap_or(0)])),
    );
}

struct Reader<'w> {
    words: &'w [u16],
}

impl Reader<'_> {
    fn word(&mut self) -> u32 {
        let (first, rest) = self.words.split_first().expect("a word");
        self.words = rest;
        u32::from(*first)
    }

    fn pair(&mut self) -> u32 {
        self.word() | self.word() << 16
    }

    fn number(&mut self) -> i32 {
        let word = self.word() as u16;
        if word == WIDE {
            self.pair() as i32
        } else {
            i32::from(word as i16)
        }
    }

    fn list(&mut self, count: usize) -> Vec<u32> {
        (0..count).map(|_| self.word()).collect()
    }

    fn bytes(&mut self, count: usize) -> Vec<u8> {
        let words = self.list(count.div_ceil(2));
        let mut bytes: Vec<u8> =
            words.into_iter().flat_map(|word| (word as u16).to_le_bytes()).collect();
        bytes.truncate(count);
        bytes
    }
}

#[cfg(test)]
mod tests {
    use super::*;

    #[test]
    fn a_record_is_read_as_it_was_written() {
        let nodes = [[3, -1, i32::MIN, 0x8000], [16, -32_768, -32_767, 32_767]];
        let case = Case {
            root: 0x8000_0001,
            call_limit: u32::MAX,
            text: [b"b".as_slice(), &[b'a'; 65_536]].concat(),
            ..Case::new(&nodes, "aé", "")
        };
        let outcome = Outcome { number: 10, place: 65_535, count: 3, calls: 0xFFFF_0001 };
        let (positives, negatives) = (vec![1, 65_535], vec![7]);
        let record = Record { case, outcome, tokens: vec![], positives, negatives };
        let file = [record.encode(1), record.encode(2)].concat();
        assert!(file.len() < 200);
        assert_eq!(Record::decode_all(&file), [record.clone(), record]);
    }
}

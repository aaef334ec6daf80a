//! Ten words in two copies, one for the calls under test and one for the reference.

/// How many words lie on either side of the ten, so that one that is written there shows.
const AROUND: usize = 3;

type All = [u64; AROUND + 10 + AROUND];

#[derive(Clone, Copy)]
pub struct Words {
    tested: All,
    expected: All,
}

impl Words {
    pub fn new(words: [u64; 10]) -> Words {
        let mut all = [0xA5A5_A5A5_A5A5_A5A5; AROUND + 10 + AROUND];
        *ten(&mut all) = words;
        Words {
            tested: all,
            expected: all,
        }
    }

    pub fn tested(&mut self) -> &mut [u64; 10] {
        ten(&mut self.tested)
    }

    pub fn expected(&mut self) -> &mut [u64; 10] {
        ten(&mut self.expected)
    }

    /// Both copies with all that is around them, to be compared.
    pub fn both(&self) -> (All, All) {
        (self.tested, self.expected)
    }

    /// The ten, which are the same in both.
    pub fn get(&self) -> [u64; 10] {
        *ten(&mut self.expected.clone())
    }
}

fn ten(all: &mut All) -> &mut [u64; 10] {
    let (_, ten) = all.split_at_mut(AROUND);
    ten.first_chunk_mut().expect("ten words and more")
}

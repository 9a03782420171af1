//! Ready lists as bytes: numbers of eight bytes, the lowest first. First how many names there are;
//! of each name its length and its bytes; 64 start values and 64 loss values; and then of each list
//! its target, 1 for lockout sets or 0 for opening ones, how many sets it has, and these.
#![allow(dead_code)] // One program writes them, the other reads them.

/// A list of sets, not empty.
pub struct List {
    /// Whose list it is.
    pub target: usize,
    /// Lockout sets, or opening ones.
    pub loss: bool,
    /// The sets in order.
    pub sets: Vec<u64>,
}

impl List {
    /// The word that the rows have for it.
    pub fn way(&self) -> &'static str {
        if self.loss {
            "lock"
        } else {
            "open"
        }
    }
}

/// All that the rows are made from.
pub struct Ready {
    /// The vertices' names.
    pub names: Vec<String>,
    /// Start and loss values.
    pub values: [Vec<u64>; 2],
    /// The lists in the rows' order.
    pub lists: Vec<List>,
}

impl Ready {
    /// The values that a list's sums are of.
    pub fn values(&self, list: &List) -> &[u64] {
        &self.values[usize::from(list.loss)]
    }

    /// The bytes.
    pub fn bytes(&self) -> Vec<u8> {
        let mut bytes = Vec::new();
        let mut put = |number: u64| bytes.extend_from_slice(&number.to_le_bytes());
        put(self.names.len() as u64);
        for name in &self.names {
            put(name.len() as u64);
            name.bytes().for_each(|byte| put(u64::from(byte)));
        }
        self.values.iter().flatten().for_each(|&value| put(value));
        for list in &self.lists {
            put(list.target as u64);
            put(u64::from(list.loss));
            put(list.sets.len() as u64);
            list.sets.iter().for_each(|&set| put(set));
        }
        bytes
    }

    /// What the bytes say.
    pub fn read(bytes: &[u8]) -> Ready {
        let mut numbers = numbers(bytes);
        let mut some = |n: usize| -> Vec<u64> { numbers.by_ref().take(n).collect() };
        let names = some(1)[0];
        let names = (0..names)
            .map(|_| {
                let length = some(1)[0];
                some(length as usize).iter().map(|&byte| char::from(byte as u8)).collect()
            })
            .collect();
        let values = [some(64), some(64)];
        let mut lists = Vec::new();
        while let [target, loss, length] = some(3)[..] {
            let sets = some(length as usize);
            lists.push(List { target: target as usize, loss: loss == 1, sets });
        }
        Ready { names, values, lists }
    }
}

/// The numbers in bytes.
pub fn numbers(bytes: &[u8]) -> impl Iterator<Item = u64> + '_ {
    let parts = bytes.chunks_exact(8);
    parts.map(|part| u64::from_le_bytes(part.try_into().expect("a part has eight bytes")))
}

/// The members of a set, lowest first.
pub fn members(set: u64) -> impl Iterator<Item = usize> {
    let mut rest = set;
    std::iter::from_fn(move || {
        let lowest = (rest != 0).then(|| rest.trailing_zeros() as usize);
        rest &= rest.wrapping_sub(1);
        lowest
    })
}

//! The twin: the algorithm of the proved code in plain Rust. All subsets of the chosen vertices are
//! taken at once: bit i of word b of a vertex's family tells whether the subset with the mask
//! b * 64 + i has it. A table is made in blocks of 1,024 masks, each from a settled block with a bit
//! fewer. The parts are those of the crates tables, lanes, family_words, families, sums,
//! family_lists and least_sums; no question is asked of the setup.
//!
//! The twin takes the steps of the proved code one by one. The lean twin (`LEAN`) takes a shortcut
//! besides: a vertex that is in all lanes of a block is not looked at again. Its inner functions are
//! inlined always, as the proved code's are: that is the faster way.

pub use crate::ready::members;

/// The vertices of a setup.
pub const VERTICES: usize = 64;
/// The words of a family: 2^14 masks.
pub const WORDS: usize = 256;
/// The least sum over no set.
pub const NEVER: u64 = 1 << 62;
/// What stands for a blank value among a setup's words.
const BLANK: u64 = u64::MAX;
const COLOURS: usize = 8;
/// The words of a family in one block: 2^10 masks.
const PART: usize = 16;
/// The bits of a mask that tell its lane within a block.
const BLOCK_BITS: usize = 10;

/// A family of masks.
pub type Family = [u64; WORDS];
/// Its part in one block.
type Part = [u64; PART];
/// A part for each vertex.
type Block = [Part; VERTICES];
/// A family for each vertex.
pub type Table = [Family; VERTICES];
/// The needed vertices of one vertex, by colours.
pub type Rows = [u64; COLOURS];
/// The rows of all vertices.
pub type Graph = [Rows; VERTICES];

/// A setup, as far as lists and scores hang on it.
#[derive(Clone)]
pub struct Setup {
    /// How many vertices it has.
    pub count: usize,
    /// Start and loss values.
    values: [[u64; VERTICES]; 2],
    /// All edges.
    pub graph: Graph,
    recovery: Graph,
}

impl Setup {
    /// The setup in the words that the proved calls take.
    pub fn from_words(words: &[u64]) -> Setup {
        let vertex = |v: usize| &words[1 + 4 * v..];
        let value = |place: usize| std::array::from_fn(|v| vertex(v)[place]);
        let rows = |from: usize| -> Graph {
            std::array::from_fn(|v| std::array::from_fn(|c| words[from + v * COLOURS + c]))
        };
        let first_row = 1 + 4 * VERTICES;
        Setup {
            count: words[0] as usize,
            values: [value(1), value(2)],
            graph: rows(first_row),
            recovery: rows(first_row + VERTICES * COLOURS),
        }
    }

    /// The graph without recovery: a row in which an edge is marked is empty.
    pub fn without_recovery(&self) -> Graph {
        let row = |v: usize, c: usize| if self.recovery[v][c] == 0 { self.graph[v][c] } else { 0 };
        std::array::from_fn(|v| std::array::from_fn(|c| row(v, c)))
    }

    /// The initial vertices or, with loss, the losable ones.
    pub fn chosen(&self, loss: bool) -> u64 {
        let values = self.values[usize::from(loss)].iter().enumerate();
        values.filter(|(_, &value)| value != BLANK).fold(0, |set, (v, _)| set | 1 << v)
    }

    /// The start or loss value of a chosen vertex.
    pub fn value(&self, loss: bool, v: usize) -> u64 {
        self.values[usize::from(loss)][v]
    }
}

fn and_in(part: &mut Part, other: &Part) {
    part.iter_mut().zip(other).for_each(|(word, more)| *word &= more);
}

fn or_in(part: &mut Part, other: &Part) {
    part.iter_mut().zip(other).for_each(|(word, more)| *word |= more);
}

/// The part gains what the other has. Was something new?
fn join(part: &mut Part, other: &Part) -> bool {
    let mut fresh = 0;
    for (word, &more) in part.iter_mut().zip(other) {
        fresh |= more & !*word;
        *word |= more;
    }
    fresh != 0
}

/// The masks of the first block that have the bit k.
fn masks_with(k: usize) -> Part {
    const WITHIN: [u64; 6] = [
        0xAAAA_AAAA_AAAA_AAAA,
        0xCCCC_CCCC_CCCC_CCCC,
        0xF0F0_F0F0_F0F0_F0F0,
        0xFF00_FF00_FF00_FF00,
        0xFFFF_0000_FFFF_0000,
        0xFFFF_FFFF_0000_0000,
    ];
    if k < 6 {
        return [WITHIN[k]; PART];
    }
    std::array::from_fn(|b| if b >> (k - 6) & 1 == 1 { u64::MAX } else { 0 })
}

/// The masks of sets that have the whole row or, with loss, some vertex of it, joined to `out` or,
/// with loss, kept in it. An empty row is no colour.
#[inline(always)]
fn take_colour(block: &Block, row: u64, loss: bool, out: &mut Part) {
    if row == 0 {
        return;
    }
    let mut part = block[row.trailing_zeros() as usize];
    for v in members(row & (row - 1)) {
        if loss {
            or_in(&mut part, &block[v]);
        } else {
            and_in(&mut part, &block[v]);
        }
    }
    if loss {
        and_in(out, &part);
    } else {
        or_in(out, &part);
    }
}

/// Adds the vertex in each lane that admits it. Was one new?
#[inline(always)]
fn step(block: &mut Block, v: usize, rows: &Rows, loss: bool) -> bool {
    let coloured = needed(rows) != 0;
    let mut gains = [if loss && coloured { u64::MAX } else { 0 }; PART];
    for &row in rows {
        take_colour(block, row, loss, &mut gains);
    }
    join(&mut block[v], &gains)
}

/// All vertices that some colour needs.
fn needed(rows: &Rows) -> u64 {
    rows.iter().fold(0, |all, row| all | row)
}

/// The vertices that need each vertex.
fn all_users(graph: &Graph) -> [u64; VERTICES] {
    let mut all = [0; VERTICES];
    for (u, rows) in graph.iter().enumerate() {
        members(needed(rows)).for_each(|v| all[v] |= 1 << u);
    }
    all
}

/// Each lane grows to what it opens or, with loss, takes away. At the beginning only the vertices of
/// `todo` can be new; a vertex is looked at again when one that it needs has grown, in sweeps up and
/// down. Gives the number of looks.
#[inline(always)]
fn settle<const LEAN: bool>(
    graph: &Graph,
    users: &[u64; VERTICES],
    loss: bool,
    mut todo: u64,
    block: &mut Block,
) -> usize {
    let (mut after, mut up, mut looks) = (u64::MAX, true, 0);
    while todo != 0 {
        up ^= todo & after == 0;
        let later = if todo & after == 0 { todo } else { todo & after };
        let v = if up { later.trailing_zeros() } else { 63 - later.leading_zeros() } as usize;
        todo &= !(1 << v);
        let below = (1 << v) - 1;
        after = if up { !below } else { below };
        if LEAN && block[v] == [u64::MAX; PART] {
            continue;
        }
        looks += 1;
        if step(block, v, &graph[v], loss) {
            todo |= users[v];
        }
    }
    looks
}

/// The block of the masks below 1,024, and the number of looks.
#[inline(always)]
fn first_block<const LEAN: bool>(
    graph: &Graph,
    users: &[u64; VERTICES],
    chosen: u64,
    loss: bool,
) -> (Block, usize) {
    let mut block = [[0; PART]; VERTICES];
    for (k, v) in members(chosen).enumerate() {
        block[v] = masks_with(k);
    }
    let first = members(chosen).fold(0, |set, v| set | users[v]);
    let looks = settle::<LEAN>(graph, users, loss, first, &mut block);
    (block, looks)
}

/// Fills the table: which vertices are opened by which mask's set or, with loss, lost by its loss.
/// Block b goes on from the block whose number is b without its lowest bit. Gives the number of
/// looks.
#[inline(always)]
pub fn fill<const LEAN: bool>(graph: &Graph, chosen: u64, loss: bool, table: &mut Table) -> usize {
    let users = all_users(graph);
    let (mut block, mut looks) = first_block::<LEAN>(graph, &users, chosen, loss);
    for b in 0..WORDS / PART {
        if b > 0 {
            let from = (b & (b - 1)) * PART;
            for (part, family) in block.iter_mut().zip(table.iter()) {
                part.copy_from_slice(&family[from..from + PART]);
            }
            if let Some(v) = members(chosen).nth(BLOCK_BITS + b.trailing_zeros() as usize) {
                block[v] = [u64::MAX; PART];
                looks += settle::<LEAN>(graph, &users, loss, users[v], &mut block);
            }
        }
        for (part, family) in block.iter().zip(table.iter_mut()) {
            family[b * PART..][..PART].copy_from_slice(part);
        }
    }
    looks
}

/// The family of one target; where at most ten vertices are chosen, by one block alone.
#[inline(always)]
pub fn family<const LEAN: bool>(graph: &Graph, chosen: u64, loss: bool, target: usize) -> Family {
    if chosen.count_ones() as usize <= BLOCK_BITS {
        let (block, _) = first_block::<LEAN>(graph, &all_users(graph), chosen, loss);
        return std::array::from_fn(|b| block[target][b % PART]);
    }
    by_table::<LEAN>(graph, chosen, loss, target)
}

#[inline(never)]
fn by_table<const LEAN: bool>(graph: &Graph, chosen: u64, loss: bool, target: usize) -> Family {
    let mut table = [[0; WORDS]; VERTICES];
    fill::<LEAN>(graph, chosen, loss, &mut table);
    table[target]
}

/// The members in word b of which none has a member one bit smaller.
fn least_word(family: &Family, b: usize) -> u64 {
    let x = family[b];
    let within = (x << 1 & 0xAAAA_AAAA_AAAA_AAAA)
        | (x << 2 & 0xCCCC_CCCC_CCCC_CCCC)
        | (x << 4 & 0xF0F0_F0F0_F0F0_F0F0)
        | (x << 8 & 0xFF00_FF00_FF00_FF00)
        | (x << 16 & 0xFFFF_0000_FFFF_0000)
        | (x << 32 & 0xFFFF_FFFF_0000_0000);
    let smaller = (0..8).filter(|j| b >> j & 1 == 1).map(|j| family[b - (1 << j)]);
    x & !smaller.fold(within, |all, word| all | word)
}

/// The minimal members of a monotone family, which are in the words of the chosen vertices' masks.
pub fn minimal_members(family: &Family, chosen: u64) -> Family {
    let mut minimal = [0; WORDS];
    let words = 1 << chosen.count_ones().saturating_sub(6);
    for (b, word) in minimal[..words].iter_mut().enumerate() {
        *word = least_word(family, b);
    }
    minimal
}

/// Keeps a monotone family's minimal members alone. A word is judged by words of smaller numbers, so
/// the last one goes first.
fn keep_minimal(family: &mut Family) {
    for b in (0..WORDS).rev() {
        family[b] = least_word(family, b);
    }
}

/// The sums of weights over masks, by two tables of 2^7.
pub struct Sums {
    low: [u64; 128],
    high: [u64; 128],
}

impl Sums {
    /// The sums of the chosen vertices' weights.
    pub fn new(chosen: u64, weight: impl Fn(usize) -> u64) -> Sums {
        let mut weights = [0; 14];
        members(chosen).zip(&mut weights).for_each(|(v, place)| *place = weight(v));
        let sums = |from: usize| {
            let mut table = [0; 128];
            for k in 1..128usize {
                table[k] = table[k & (k - 1)] + weights[from + k.trailing_zeros() as usize];
            }
            table
        };
        Sums { low: sums(0), high: sums(7) }
    }

    /// The sum of the mask b * 64 + i.
    fn at(&self, b: usize, i: usize) -> u64 {
        self.high[b / 2] + self.low[b % 2 * 64 + i]
    }

    /// The sum of a mask.
    pub fn of(&self, mask: u64) -> u64 {
        self.high[mask as usize / 128] + self.low[mask as usize % 128]
    }

    /// The least sum over a family.
    pub fn least(&self, family: &Family) -> u64 {
        let mut least = NEVER;
        for (b, &word) in family.iter().enumerate() {
            members(word).for_each(|i| least = least.min(self.at(b, i)));
        }
        least
    }
}

/// At k the places of a word whose number has k bits.
const LAYERS: [u64; 7] = [
    0x0000_0000_0000_0001,
    0x0000_0001_0001_0116,
    0x0001_0116_0116_1668,
    0x0116_1668_1668_6880,
    0x1668_6880_6880_8000,
    0x6880_8000_8000_0000,
    0x8000_0000_0000_0000,
];

/// The places of a word whose number has `k` bits fewer than `size`.
pub fn layer(k: usize, size: usize) -> u64 {
    size.checked_sub(k).and_then(|d| LAYERS.get(d)).copied().unwrap_or(0)
}

/// Writes the sets of a family's masks to the front of `out`, fewer vertices first, then the
/// smaller set number, and gives their number. Sizes that no mask has are passed over.
pub fn write_sets(family: &Family, chosen: u64, out: &mut [u64]) -> usize {
    let numbers = Sums::new(chosen, |v| 1 << v);
    let mut occupied = [0; WORDS];
    let mut words = 0;
    for b in (0..WORDS).filter(|&b| family[b] != 0) {
        occupied[words] = b;
        words += 1;
    }
    let mut joined = [0; 9];
    for &b in &occupied[..words] {
        joined[b.count_ones() as usize] |= family[b];
    }
    let mut next = 0;
    for size in 0..15usize {
        if joined.iter().enumerate().all(|(k, word)| word & layer(k, size) == 0) {
            continue;
        }
        for &b in &occupied[..words] {
            for i in members(family[b] & layer(b.count_ones() as usize, size)) {
                out[next] = numbers.at(b, i);
                next += 1;
            }
        }
    }
    next
}

/// The set that a mask stands for.
pub fn set_of(chosen: u64, mask: u64) -> u64 {
    members(chosen).enumerate().fold(0, |set, (bit, v)| set + ((mask >> bit & 1) << v))
}

/// Both lists of a target in one lent list, and their lengths.
pub fn both_bases<const LEAN: bool>(
    setup: &Setup,
    target: usize,
    out: &mut [u64],
) -> (usize, usize) {
    let base = |loss: bool| {
        let chosen = setup.chosen(loss);
        minimal_members(&family::<LEAN>(&setup.graph, chosen, loss, target), chosen)
    };
    let (opening, lockout) = (base(false), base(true));
    let first = write_sets(&opening, setup.chosen(false), out);
    let second = write_sets(&lockout, setup.chosen(true), &mut out[first..]);
    (first, second)
}

/// The smallest cut sets of a target. All masks are complemented and turned round: what is not in
/// the family of the sets that open the target, with all other bits.
pub fn cuts(setup: &Setup, target: usize, out: &mut [u64]) -> usize {
    let opening = family::<false>(&setup.graph, setup.chosen(false), false, target);
    let mut family = std::array::from_fn(|b| !opening[WORDS - 1 - b].reverse_bits());
    keep_minimal(&mut family);
    write_sets(&family, setup.chosen(false), out)
}

/// The opening and the lockout table of one graph.
pub type Tables = [Table; 2];

/// Fills both tables of the graph, keeps the minimal members of each vertex's family in them, and
/// reads the scores and risks of all vertices.
pub fn scores(setup: &Setup, graph: &Graph, tables: &mut Tables) -> [[u64; VERTICES]; 2] {
    [false, true].map(|loss| {
        let chosen = setup.chosen(loss);
        let sums = Sums::new(chosen, |v| setup.value(loss, v));
        let table = &mut tables[usize::from(loss)];
        fill::<false>(graph, chosen, loss, table);
        std::array::from_fn(|v| {
            keep_minimal(&mut table[v]);
            sums.least(&table[v])
        })
    })
}

/// Reads both lists of every vertex from tables of minimal members; each is handed to `take`.
pub fn lists(
    setup: &Setup,
    tables: &Tables,
    out: &mut [u64],
    mut take: impl FnMut(usize, bool, &[u64]),
) {
    let [opening, lockout] = tables;
    for (target, bases) in opening.iter().zip(lockout).enumerate().take(setup.count) {
        for (loss, base) in [(false, bases.0), (true, bases.1)] {
            let n = write_sets(base, setup.chosen(loss), out);
            take(target, loss, &out[..n]);
        }
    }
}

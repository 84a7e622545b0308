//! The generator, seeds and keys of `docs/formats.md`. Numbers are `u128` modulo 2^128.

/// The key of a ChaCha20 generator: eight words, the least significant byte of each first.
pub type Seed = [u32; 8];

#[inline(always)]
fn quarter_round(words: &mut [u32; 16], a: usize, b: usize, c: usize, d: usize) {
    words[a] = words[a].wrapping_add(words[b]);
    words[d] = (words[d] ^ words[a]).rotate_left(16);
    words[c] = words[c].wrapping_add(words[d]);
    words[b] = (words[b] ^ words[c]).rotate_left(12);
    words[a] = words[a].wrapping_add(words[b]);
    words[d] = (words[d] ^ words[a]).rotate_left(8);
    words[c] = words[c].wrapping_add(words[d]);
    words[b] = (words[b] ^ words[c]).rotate_left(7);
}

/// Two of the twenty rounds on four blocks. As a function of its own the loop is not unrolled, and so the compiler makes vectors of it.
#[inline(never)]
fn double_round(state: &mut [[u32; 4]; 16]) {
    for block in 0..4 {
        let mut words: [u32; 16] = std::array::from_fn(|word| state[word][block]);
        quarter_round(&mut words, 0, 4, 8, 12);
        quarter_round(&mut words, 1, 5, 9, 13);
        quarter_round(&mut words, 2, 6, 10, 14);
        quarter_round(&mut words, 3, 7, 11, 15);
        quarter_round(&mut words, 0, 5, 10, 15);
        quarter_round(&mut words, 1, 6, 11, 12);
        quarter_round(&mut words, 2, 7, 8, 13);
        quarter_round(&mut words, 3, 4, 9, 14);
        for (lanes, word) in state.iter_mut().zip(words) {
            lanes[block] = word;
        }
    }
}

/// Four blocks of a seed, each by its own stream and counter; word w of block j is `blocks[j][w]`.
pub fn blocks(seed: &Seed, streams: [u64; 4], counters: [u64; 4]) -> [[u32; 16]; 4] {
    let mut start = [[0; 4]; 16];
    for (lanes, word) in start.iter_mut().zip([0x61707865, 0x3320646e, 0x79622d32, 0x6b206574].iter().chain(seed)) {
        *lanes = [*word; 4];
    }
    start[12] = counters.map(|counter| counter as u32);
    start[13] = counters.map(|counter| (counter >> 32) as u32);
    start[14] = streams.map(|stream| stream as u32);
    start[15] = streams.map(|stream| (stream >> 32) as u32);
    let mut state = start;
    for _ in 0..10 {
        double_round(&mut state);
    }
    let mut blocks = [[0; 16]; 4];
    for (word, (lanes, before)) in state.iter().zip(&start).enumerate() {
        for (block, (lane, before)) in blocks.iter_mut().zip(lanes.iter().zip(before)) {
            block[word] = lane.wrapping_add(*before);
        }
    }
    blocks
}

fn block(seed: &Seed, stream: u64) -> [u32; 16] {
    blocks(seed, [stream; 4], [0; 4])[0]
}

/// The number of four words, the least significant first.
#[inline(always)]
pub fn number(words: &[u32]) -> u128 {
    u128::from(words[0]) | u128::from(words[1]) << 32 | u128::from(words[2]) << 64 | u128::from(words[3]) << 96
}

/// Fills a list with the pads of a seed from `first` on; `first` is a multiple of 4.
pub fn fill_pads(seed: &Seed, first: u64, pads: &mut [u128]) {
    let mut counter = first / 4;
    for sixteen in pads.chunks_mut(16) {
        let blocks = blocks(seed, [2; 4], [counter, counter + 1, counter + 2, counter + 3]);
        for (pad, words) in sixteen.iter_mut().zip(blocks.iter().flat_map(|block| block.chunks_exact(4))) {
            *pad = number(words);
        }
        counter += 4;
    }
}

fn derived_stream(kind: u64, a: u64, b: u64) -> u64 {
    kind << 56 | a << 40 | b
}

fn first_half(block: &[u32; 16]) -> Seed {
    std::array::from_fn(|word| block[word])
}

/// The seed of a kind, a and b under another seed.
pub fn derive(seed: &Seed, kind: u64, a: u64, b: u64) -> Seed {
    first_half(&block(seed, derived_stream(kind, a, b)))
}

/// The seeds of rows i to i + 3 of an input under the master seed.
pub fn row_seeds(master: &Seed, i: u64) -> [Seed; 4] {
    let streams = [i, i + 1, i + 2, i + 3].map(|row| derived_stream(1, 0, row));
    blocks(master, streams, [0; 4]).map(|block| first_half(&block))
}

/// The secret odd weight of predicate j of a query.
pub fn weight(query: &Seed, j: u64) -> u128 {
    let seed = derive(query, 18, j, 0);
    u128::from(seed[0]) | u128::from(seed[1]) << 32 | 1
}

/// A seed as two numbers.
pub fn seed_words(seed: &Seed) -> [u128; 2] {
    [number(&seed[..4]), number(&seed[4..])]
}

/// The seed of two numbers.
pub fn seed_of(words: &[u128]) -> Seed {
    std::array::from_fn(|word| (words[word / 4] >> (32 * (word % 4))) as u32)
}

/// What a pair of keys stands for, on the numbers of some bits.
#[derive(Clone, Copy)]
pub enum Shape {
    Point(u8),
    AtMost(u8),
    Interval(u8, u8),
}

impl Shape {
    /// How many words a key has.
    pub fn key_length(self, bits: usize) -> usize {
        match self {
            Shape::Point(_) => 3 + 3 * bits,
            Shape::AtMost(_) => 3 + 4 * bits,
            Shape::Interval(..) => 6 + 8 * bits,
        }
    }
}

/// A seed and its control bit.
#[derive(Clone, Copy)]
struct Node {
    seed: Seed,
    bit: bool,
}

impl Node {
    /// The children on the left and on the right, before any correction.
    fn children(&self) -> [Node; 2] {
        let block = block(&self.seed, 0);
        [0, 8].map(|first| {
            let mut seed: Seed = std::array::from_fn(|word| block[first + word]);
            let bit = seed[0] & 1 == 1;
            seed[0] &= !1;
            Node { seed, bit }
        })
    }

    /// The number of the leaf, and the strands on the left and on the right.
    fn numbers(&self) -> (u128, [u128; 2]) {
        let block = block(&self.seed, 1);
        (number(&block[..4]), [number(&block[4..8]), number(&block[8..12])])
    }
}

/// What both parties change at a level where their bit is set; the value is 0 in a point key.
struct Correction {
    seed: Seed,
    bits: [bool; 2],
    value: u128,
}

impl Correction {
    /// The child of a node on a side.
    fn corrected(&self, node: &Node, mut child: Node, side: usize) -> Node {
        if node.bit {
            child.seed = std::array::from_fn(|word| child.seed[word] ^ self.seed[word]);
            child.bit ^= self.bits[side];
        }
        child
    }
}

fn signed(negative: bool, number: u128) -> u128 {
    if negative { number.wrapping_neg() } else { number }
}

/// The words of both parties' keys behind the root: a point key at `a`, or a comparison key up to `a`.
fn walk_down(bits: usize, a: u8, weight: u128, roots: [Seed; 2], comparison: bool) -> Vec<u128> {
    let mut words = Vec::new();
    let mut nodes = [Node { seed: roots[0], bit: false }, Node { seed: roots[1], bit: true }];
    let mut sum = 0u128;
    for level in (0..bits).rev() {
        let keep = usize::from(a >> level & 1);
        let lose = 1 - keep;
        let children = nodes.map(|node| node.children());
        let mut correction = Correction {
            seed: std::array::from_fn(|word| children[0][lose].seed[word] ^ children[1][lose].seed[word]),
            bits: [0, 1].map(|side| children[0][side].bit ^ children[1][side].bit ^ (side == keep)),
            value: 0,
        };
        words.extend(seed_words(&correction.seed));
        words.push(u128::from(correction.bits[0]) + 2 * u128::from(correction.bits[1]));
        if comparison {
            let strands = nodes.map(|node| node.numbers().1);
            let passed = if lose == 0 { weight } else { 0 };
            let value = strands[1][lose].wrapping_sub(strands[0][lose]).wrapping_sub(sum).wrapping_add(passed);
            correction.value = signed(nodes[1].bit, value);
            sum = sum.wrapping_sub(strands[1][keep]).wrapping_add(strands[0][keep]);
            sum = sum.wrapping_add(signed(nodes[1].bit, correction.value));
            words.push(correction.value);
        }
        nodes = [0, 1].map(|party| correction.corrected(&nodes[party], children[party][keep], keep));
    }
    let [zero, one] = nodes.map(|node| node.numbers().0);
    words.push(signed(nodes[1].bit, one.wrapping_sub(zero).wrapping_sub(sum).wrapping_add(weight)));
    words
}

/// The words of the keys of party 0 and party 1; `roots` gives the root of a half and a party.
pub fn key_pair(shape: Shape, bits: usize, weight: u128, roots: impl Fn(u64, u64) -> Seed) -> [Vec<u128>; 2] {
    let halves = match shape {
        Shape::Point(a) => vec![(a, weight, false)],
        Shape::AtMost(a) => vec![(a, weight, true)],
        Shape::Interval(0, high) => vec![(high, weight, true), (0, 0, true)],
        Shape::Interval(low, high) => vec![(high, weight, true), (low - 1, weight, true)],
    };
    let mut keys = [Vec::new(), Vec::new()];
    for (half, (a, weight, comparison)) in (0..).zip(halves) {
        let ends = [roots(half, 0), roots(half, 1)];
        let words = walk_down(bits, a, weight, ends, comparison);
        for (key, root) in keys.iter_mut().zip(&ends) {
            key.extend(seed_words(root));
            key.extend(&words);
        }
    }
    keys
}

/// A party's values of a point or comparison key at each number, by one walk of the tree, level by level.
fn walk_all(bits: usize, words: &[u128], party: usize, comparison: bool) -> Vec<u128> {
    let mut nodes = vec![(Node { seed: seed_of(words), bit: party == 1 }, 0u128)];
    let step = if comparison { 4 } else { 3 };
    for words in words[2..].chunks_exact(step).take(bits) {
        let value = if comparison { words[3] } else { 0 };
        let correction = Correction { seed: seed_of(words), bits: [words[2] & 1 == 1, words[2] & 2 == 2], value };
        let mut below = Vec::with_capacity(2 * nodes.len());
        for (node, sum) in &nodes {
            let strands = if comparison { node.numbers().1 } else { [0; 2] };
            let added = if node.bit { correction.value } else { 0 };
            for (side, child) in node.children().into_iter().enumerate() {
                let sum = sum.wrapping_add(strands[side]).wrapping_add(added);
                below.push((correction.corrected(node, child, side), sum));
            }
        }
        nodes = below;
    }
    let last = words[words.len() - 1];
    let leaf = |(node, sum): &(Node, u128)| {
        let value = sum.wrapping_add(node.numbers().0).wrapping_add(if node.bit { last } else { 0 });
        signed(party == 1, value)
    };
    nodes.iter().map(leaf).collect()
}

/// A party's values of a key at each number.
pub fn table(shape: Shape, bits: usize, words: &[u128], party: usize) -> Vec<u128> {
    match shape {
        Shape::Point(_) => walk_all(bits, words, party, false),
        Shape::AtMost(_) => walk_all(bits, words, party, true),
        Shape::Interval(..) => {
            let (upper, lower) = words.split_at(words.len() / 2);
            let (upper, lower) = (walk_all(bits, upper, party, true), walk_all(bits, lower, party, true));
            upper.iter().zip(&lower).map(|(u, l)| u.wrapping_sub(*l)).collect()
        }
    }
}

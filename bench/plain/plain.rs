//! Waldo's `ask` and `make` as a plain program without proofs, to be timed beside the proved one. It follows
//! `docs/formats.md` and `docs/protocol.md`: the same seeds, shares, keys, messages and printed lines.
//!
//! `plain ask|make SCHEMA --query QUERY .. [--seed HEX] [--number N --rows N] [--workers N] [--sharers N] [--messages]`
//! `--workers` scans, multiplies and opens on N threads, `--sharers` splits the rows on N threads, and `--messages`
//! prints every message, word by word, before the answers.
//!
//! Its input is CSV without quotes; what is refused gives one line on standard error and status 2.

mod keys;

use keys::{Seed, Shape};
use std::io::{Read, Write};
use std::ops::Range;
use std::thread;

type Outcome<T> = Result<T, String>;

const MOST_ROWS: usize = 65_536;
const MOST_CELLS: usize = 4_194_304;
/// Rows are given to threads in multiples of so many.
const CHUNK: usize = 64;

struct Column {
    name: String,
    bits: usize,
    start: u64,
    step: u64,
}

impl Column {
    fn read(text: &str) -> Outcome<Column> {
        let fault = || format!("bad column {text}");
        let (name, rest) = text.split_once(':').ok_or_else(fault)?;
        let (rest, step) = rest.split_once('/').unwrap_or((rest, "1"));
        let (bits, start) = rest.split_once('@').unwrap_or((rest, "0"));
        let number = |text: &str| text.parse::<u64>().map_err(|_| fault());
        let column = Column { name: name.into(), bits: number(bits)? as usize, start: number(start)?, step: number(step)? };
        let is_good = (1..=8).contains(&column.bits) && column.step > 0;
        is_good.then_some(column).ok_or_else(fault)
    }

    fn width(&self) -> usize {
        1 << self.bits
    }

    /// The bucket of a raw number.
    fn bucket(&self, text: &str) -> Outcome<u8> {
        let fault = || format!("{text} has no bucket in {}", self.name);
        let raw: u64 = text.parse().map_err(|_| fault())?;
        let bucket = raw.checked_sub(self.start).ok_or_else(fault)? / self.step;
        if bucket < self.width() as u64 { Ok(bucket as u8) } else { Err(fault()) }
    }
}

struct Predicate {
    column: usize,
    shape: Shape,
}

struct Query {
    is_sum: bool,
    predicates: Vec<Predicate>,
}

fn read_predicate(columns: &[Column], text: &str) -> Outcome<Predicate> {
    let fault = || format!("bad predicate {text}");
    let (name, value, is_most) = match text.split_once("<=") {
        Some((name, value)) => (name, value, true),
        None => text.split_once('=').map(|(name, value)| (name, value, false)).ok_or_else(fault)?,
    };
    let column = columns.iter().position(|column| column.name == name).ok_or_else(fault)?;
    let bucket = |text: &str| columns[column].bucket(text);
    let shape = match value.split_once("..") {
        Some((low, high)) if !is_most => Shape::Interval(bucket(low)?, bucket(high)?),
        _ if is_most => Shape::AtMost(bucket(value)?),
        _ => Shape::Point(bucket(value)?),
    };
    Ok(Predicate { column, shape })
}

fn read_query(columns: &[Column], text: &str) -> Outcome<Query> {
    let mut pieces = text.split(' ');
    let is_sum = match pieces.next() {
        Some("sum") => true,
        Some("count") => false,
        _ => return Err(format!("bad query {text}")),
    };
    let predicates = pieces.map(|piece| read_predicate(columns, piece)).collect::<Outcome<Vec<_>>>()?;
    if predicates.is_empty() { Err(format!("bad query {text}")) } else { Ok(Query { is_sum, predicates }) }
}

/// The words of a command.
struct Command {
    makes: bool,
    columns: Vec<Column>,
    queries: Vec<Query>,
    seed: Seed,
    number: u64,
    rows: usize,
    workers: usize,
    sharers: usize,
    prints_messages: bool,
}

fn read_seed(hex: &str) -> Outcome<Seed> {
    let fault = || format!("bad seed {hex}");
    if hex.len() != 64 || !hex.bytes().all(|digit| digit.is_ascii_hexdigit()) {
        return Err(fault());
    }
    let mut seed = [0; 8];
    for (word, digits) in seed.iter_mut().zip(hex.as_bytes().chunks_exact(8)) {
        let digits = std::str::from_utf8(digits).map_err(|_| fault())?;
        *word = u32::from_str_radix(digits, 16).map_err(|_| fault())?.swap_bytes();
    }
    Ok(seed)
}

fn read_words(words: &[String]) -> Outcome<Command> {
    let [command, schema, options @ ..] = words else { return Err("a command and a schema are required".into()) };
    let makes = match command.as_str() {
        "make" => true,
        "ask" => false,
        _ => return Err(format!("unknown command {command}")),
    };
    let columns = schema.split(',').map(Column::read).collect::<Outcome<Vec<_>>>()?;
    let (queries, seed) = (Vec::new(), [0; 8]);
    let mut read = Command { makes, columns, queries, seed, number: 0, rows: 0, workers: 1, sharers: 1, prints_messages: false };
    let mut options = options.iter();
    while let Some(option) = options.next() {
        if option == "--messages" {
            read.prints_messages = true;
            continue;
        }
        let value = options.next().ok_or_else(|| format!("{option} needs a value"))?;
        let number = || value.parse::<usize>().map_err(|_| format!("bad number {value}"));
        match option.as_str() {
            "--query" => read.queries.push(read_query(&read.columns, value)?),
            "--seed" => read.seed = read_seed(value)?,
            "--number" => read.number = number()? as u64,
            "--rows" => read.rows = number()?,
            "--workers" => read.workers = number()?.clamp(1, 16),
            "--sharers" => read.sharers = number()?.clamp(1, 16),
            _ => return Err(format!("unknown option {option}")),
        }
    }
    Ok(read)
}

struct Row {
    buckets: [u8; 4],
    value: u32,
}

fn made_rows(columns: &[Column], number: u64, count: usize) -> Vec<Row> {
    let row = |i: u64| {
        let mut buckets = [0; 4];
        for ((bucket, column), c) in buckets.iter_mut().zip(columns).zip(1..) {
            *bucket = ((number + i * c) % column.width() as u64) as u8;
        }
        Row { buckets, value: (1000 * number + i) as u32 }
    };
    (0..count as u64).map(row).collect()
}

fn read_row(columns: &[Column], record: &str) -> Outcome<Row> {
    let mut fields = record.split(',');
    let mut field = || fields.next().ok_or_else(|| format!("too few fields in {record}"));
    let mut buckets = [0; 4];
    for (bucket, column) in buckets.iter_mut().zip(columns) {
        *bucket = column.bucket(field()?)?;
    }
    let value = field()?.parse().map_err(|_| format!("bad value in {record}"))?;
    if fields.next().is_some() { Err(format!("too many fields in {record}")) } else { Ok(Row { buckets, value }) }
}

fn read_rows(columns: &[Column]) -> Outcome<Vec<Row>> {
    let mut text = String::new();
    std::io::stdin().read_to_string(&mut text).map_err(|fault| fault.to_string())?;
    let mut records = text.lines();
    let names: Vec<&str> = columns.iter().map(|column| column.name.as_str()).chain(["value"]).collect();
    if records.next() != Some(names.join(",").as_str()) {
        return Err("bad header".into());
    }
    records.map(|record| read_row(columns, record)).collect()
}

/// A server's cells: each column, and then the value, row after row, of its own shares and of the next server's.
struct Server {
    firsts: Vec<Vec<u128>>,
    seconds: Vec<Vec<u128>>,
}

/// The cells of a stretch of rows in one column: the shares 0, 1 and 2, each at two servers.
struct Stretch<'a> {
    width: usize,
    shares: [[&'a mut [u128]; 2]; 3],
}

impl<'a> Stretch<'a> {
    /// Cuts off the cells of the first rows.
    fn split_off(&mut self, rows: usize) -> Stretch<'a> {
        let width = self.width;
        let shares = self.shares.each_mut().map(|places| {
            places.each_mut().map(|cells| {
                let (front, rest) = std::mem::take(cells).split_at_mut(rows * width);
                *cells = rest;
                front
            })
        });
        Stretch { width, shares }
    }

    /// Splits the code of a column of a row by two pads a number.
    fn share(&mut self, row: usize, code: impl Fn(usize) -> u128, pads: &[u128]) {
        let cells = row * self.width..(row + 1) * self.width;
        let [zero, one, two] = self.shares.each_mut().map(|places| places.each_mut().map(|place| &mut place[cells.clone()]));
        let ([zero, zero_again], [one, one_again], [two, two_again]) = (zero, one, two);
        for (i, pair) in pads.chunks_exact(2).enumerate() {
            let rest = code(i).wrapping_sub(pair[0]).wrapping_sub(pair[1]);
            (zero[i], zero_again[i]) = (pair[0], pair[0]);
            (one[i], one_again[i]) = (pair[1], pair[1]);
            (two[i], two_again[i]) = (rest, rest);
        }
    }
}

/// Splits rows, of which the first has the number `first`, into the columns of all servers.
fn share_rows(rows: &[Row], first: usize, seed: &Seed, columns: &mut [Stretch]) {
    let cells: usize = columns.iter().map(|column| column.width).sum();
    let mut pads = vec![0; 2 * cells];
    for (group, four) in rows.chunks(4).enumerate() {
        let seeds = keys::row_seeds(seed, (first + 4 * group) as u64);
        for (place, (row, seed)) in four.iter().zip(&seeds).enumerate() {
            keys::fill_pads(seed, 0, &mut pads);
            let mut rest = pads.as_slice();
            let (value, buckets) = columns.split_last_mut().expect("a table has values");
            for (column, bucket) in buckets.iter_mut().zip(row.buckets) {
                let (pads, later) = rest.split_at(2 * column.width);
                column.share(4 * group + place, |i| u128::from(i == usize::from(bucket)), pads);
                rest = later;
            }
            value.share(4 * group + place, |_| u128::from(row.value), rest);
        }
    }
}

/// Rows for each of some threads, a multiple of `CHUNK`.
fn rows_each(rows: usize, threads: usize) -> usize {
    rows.div_ceil(threads).next_multiple_of(CHUNK).max(CHUNK)
}

/// The three servers' cells of all rows.
fn share_table(rows: &[Row], widths: &[usize], seed: &Seed, threads: usize) -> [Server; 3] {
    let room = || widths.iter().map(|width| vec![0; rows.len() * width]).collect::<Vec<_>>();
    let mut servers = [(); 3].map(|()| Server { firsts: room(), seconds: room() });
    let [zero, one, two] = &mut servers;
    let zero_places = zero.firsts.iter_mut().zip(&mut two.seconds);
    let one_places = one.firsts.iter_mut().zip(&mut zero.seconds);
    let two_places = two.firsts.iter_mut().zip(&mut one.seconds);
    let places = zero_places.zip(one_places).zip(two_places).zip(widths);
    let mut columns: Vec<Stretch> = places
        .map(|(((zero, one), two), width)| {
            let shares = [zero, one, two].map(|(own, other)| [own.as_mut_slice(), other.as_mut_slice()]);
            Stretch { width: *width, shares }
        })
        .collect();
    let size = rows_each(rows.len(), threads);
    thread::scope(|scope| {
        for (thread, part) in rows.chunks(size).enumerate() {
            let mut stretch: Vec<Stretch> = columns.iter_mut().map(|column| column.split_off(part.len())).collect();
            let mut job = move || share_rows(part, thread * size, seed, &mut stretch);
            if (thread + 1) * size >= rows.len() { job() } else { drop(scope.spawn(job)) }
        }
    });
    servers
}

/// Carries messages, and prints them where that is wanted.
struct Wire {
    prints: bool,
    carried: u64,
}

impl Wire {
    /// The words that the receiver gets.
    fn carry(&mut self, sender: &str, receiver: &str, words: &[u128]) -> Vec<u128> {
        if self.prints {
            let words: Vec<String> = words.iter().map(u128::to_string).collect();
            println!("{} {sender} {receiver} {}", self.carried, words.join(" "));
        }
        self.carried += 1;
        words.to_vec()
    }
}

const SERVERS: [&str; 3] = ["server0", "server1", "server2"];

/// What a server knows of a query: its seed of zero parts, the next server's, and its two tables of each run and predicate.
struct Known {
    zero_seeds: [Seed; 2],
    tables: [Vec<[Vec<u128>; 2]>; 2],
}

/// A query, its seed, and its weights.
struct Plan<'a> {
    query: &'a Query,
    columns: &'a [Column],
    seed: Seed,
    weights: Vec<u128>,
}

impl Plan<'_> {
    fn key_pair(&self, run: usize, j: usize, pair: usize) -> [Vec<u128>; 2] {
        let predicate = &self.query.predicates[j];
        let weight = if run == 0 { 1 } else { self.weights[j] };
        let root = |half, party| keys::derive(&self.seed, 17, (4 * run + j) as u64, 4 * pair as u64 + 2 * half + party);
        keys::key_pair(predicate.shape, self.columns[predicate.column].bits, weight, root)
    }

    /// The key messages to servers 0, 1 and 2.
    fn key_messages(&self) -> [Vec<u128>; 3] {
        let zero_seeds = [0, 1, 2].map(|k| keys::seed_words(&keys::derive(&self.seed, 16, k, 0)));
        let mut messages = [0, 1, 2].map(|k| [zero_seeds[k], zero_seeds[(k + 1) % 3]].concat());
        for run in 0..2 {
            for j in 0..self.query.predicates.len() {
                let pairs = [0, 1, 2].map(|pair| self.key_pair(run, j, pair));
                for (k, message) in messages.iter_mut().enumerate() {
                    message.extend(&pairs[k][0]);
                    message.extend(&pairs[(k + 1) % 3][1]);
                }
            }
        }
        messages
    }

    /// What a server reads in its key message.
    fn read_message(&self, message: &[u128]) -> Known {
        let (seeds, mut rest) = message.split_at(4);
        let mut next = |predicate: &Predicate, party| {
            let bits = self.columns[predicate.column].bits;
            let (key, later) = rest.split_at(predicate.shape.key_length(bits));
            rest = later;
            keys::table(predicate.shape, bits, key, party)
        };
        let tables = [0, 1].map(|_| self.query.predicates.iter().map(|predicate| [next(predicate, 0), next(predicate, 1)]).collect());
        Known { zero_seeds: [keys::seed_of(&seeds[..2]), keys::seed_of(&seeds[2..])], tables }
    }
}

/// Fills a list with a server's parts of zero from a counter on, a multiple of 4.
fn fill_zero_parts(known: &Known, counter: u64, parts: &mut [u128]) {
    let mut next = [0; 64];
    for (chunk, parts) in parts.chunks_mut(64).enumerate() {
        let first = counter + 64 * chunk as u64;
        keys::fill_pads(&known.zero_seeds[0], first, parts);
        keys::fill_pads(&known.zero_seeds[1], first, &mut next[..parts.len()]);
        for (part, pad) in parts.iter_mut().zip(&next) {
            *part = part.wrapping_sub(*pad);
        }
    }
}

fn dot(a: &[u128], b: &[u128]) -> u128 {
    a.iter().zip(b).fold(0, |sum, (a, b)| sum.wrapping_add(a.wrapping_mul(*b)))
}

/// The server's part of the product of two numbers, from its pairs.
#[inline(always)]
fn product_part(a: (u128, u128), b: (u128, u128)) -> u128 {
    a.0.wrapping_mul(b.0.wrapping_add(b.1)).wrapping_add(a.1.wrapping_mul(b.0))
}

/// A number a row at each server, its own and what it received of the next server.
struct Pairs {
    own: [Vec<u128>; 3],
    received: [Vec<u128>; 3],
}

impl Pairs {
    fn at(&self, k: usize, row: usize) -> (u128, u128) {
        (self.own[k][row], self.received[k][row])
    }
}

/// One run of a query.
struct Run<'a> {
    plan: &'a Plan<'a>,
    servers: &'a [Server; 3],
    known: &'a [Known; 3],
    run: usize,
    workers: usize,
}

impl Run<'_> {
    fn counter(&self, group: usize) -> u64 {
        ((2 * self.plan.query.predicates.len() * self.run + group) * MOST_ROWS) as u64
    }

    /// Fills a list of words a server by stretches of rows on some threads: `work` gets the server, the first row and the stretch.
    fn fill(&self, words: &mut [Vec<u128>; 3], work: impl Fn(usize, usize, &mut [u128]) + Sync) {
        let rows = words[0].len();
        let size = rows_each(rows, self.workers);
        let work = &work;
        let [zero, one, two] = words.each_mut().map(|words| words.chunks_mut(size));
        thread::scope(|scope| {
            for (thread, ((zero, one), two)) in zero.zip(one).zip(two).enumerate() {
                let job = move || [zero, one, two].into_iter().enumerate().for_each(|(k, words)| work(k, thread * size, words));
                if (thread + 1) * size >= rows { job() } else { drop(scope.spawn(job)) }
            }
        });
    }

    /// Sends each server's words to the server before it.
    fn reshare(&self, own: [Vec<u128>; 3], wire: &mut Wire) -> Pairs {
        let [zero, one, two] = [0, 1, 2].map(|k| wire.carry(SERVERS[k], SERVERS[(k + 2) % 3], &own[k]));
        Pairs { own, received: [one, two, zero] }
    }

    fn bits(&self, j: usize, group: usize, rows: usize, wire: &mut Wire) -> Pairs {
        let column = self.plan.query.predicates[j].column;
        let width = self.plan.columns[column].width();
        let mut words = [(); 3].map(|()| vec![0; rows]);
        self.fill(&mut words, |k, first, words| {
            fill_zero_parts(&self.known[k], self.counter(group) + first as u64, words);
            let [zero, one] = &self.known[k].tables[self.run][j];
            let firsts = self.servers[k].firsts[column][first * width..].chunks_exact(width);
            let seconds = self.servers[k].seconds[column][first * width..].chunks_exact(width);
            for ((word, firsts), seconds) in words.iter_mut().zip(firsts).zip(seconds) {
                *word = word.wrapping_add(dot(zero, firsts)).wrapping_add(dot(one, seconds));
            }
        });
        self.reshare(words, wire)
    }

    fn product(&self, chain: &Pairs, bits: &Pairs, group: usize, wire: &mut Wire) -> Pairs {
        let mut words = [(); 3].map(|()| vec![0; chain.own[0].len()]);
        self.fill(&mut words, |k, first, words| {
            fill_zero_parts(&self.known[k], self.counter(group) + first as u64, words);
            for (i, word) in words.iter_mut().enumerate() {
                *word = word.wrapping_add(product_part(chain.at(k, first + i), bits.at(k, first + i)));
            }
        });
        self.reshare(words, wire)
    }

    /// Over a stretch of rows, server k's share of the sum of the chain, or of the chain times the values.
    fn share_of_stretch(&self, k: usize, chain: &Pairs, rows: Range<usize>) -> u128 {
        let own = &chain.own[k][rows.clone()];
        if !self.plan.query.is_sum {
            return own.iter().fold(0, |sum, word| sum.wrapping_add(*word));
        }
        let value = self.plan.columns.len();
        let firsts = &self.servers[k].firsts[value][rows.clone()];
        let values = firsts.iter().zip(&self.servers[k].seconds[value][rows.clone()]);
        let pairs = own.iter().zip(&chain.received[k][rows]);
        pairs.zip(values).fold(0, |sum, ((a, b), (c, d))| sum.wrapping_add(product_part((*a, *b), (*c, *d))))
    }

    /// The three servers' shares over all rows, by stretches on some threads.
    fn shares_of_total(&self, chain: &Pairs) -> [u128; 3] {
        let rows = chain.own[0].len();
        let size = rows_each(rows, self.workers);
        let shares = |first: usize| [0, 1, 2].map(|k| self.share_of_stretch(k, chain, first..rows.min(first + size)));
        let shares = &shares;
        thread::scope(|scope| {
            let others: Vec<_> = (size..rows).step_by(size).map(|first| scope.spawn(move || shares(first))).collect();
            others.into_iter().fold(shares(0), |sum, other| {
                let other = other.join().expect("a thread that adds ends");
                [0, 1, 2].map(|k| sum[k].wrapping_add(other[k]))
            })
        })
    }

    fn open(&self, chain: &Pairs, group: usize, wire: &mut Wire) -> u128 {
        let mut total = 0u128;
        for (k, share) in self.shares_of_total(chain).into_iter().enumerate() {
            let mut zero = [0];
            fill_zero_parts(&self.known[k], self.counter(group), &mut zero);
            let word = share.wrapping_add(zero[0]);
            total = total.wrapping_add(wire.carry(SERVERS[k], "client", &[word])[0]);
        }
        total
    }

    fn total(&self, rows: usize, wire: &mut Wire) -> u128 {
        let mut chain = self.bits(0, 0, rows, wire);
        let predicates = self.plan.query.predicates.len();
        for j in 1..predicates {
            let bits = self.bits(j, 2 * j - 1, rows, wire);
            chain = self.product(&chain, &bits, 2 * j, wire);
        }
        self.open(&chain, 2 * predicates - 1, wire)
    }
}

/// The line of query i.
fn answer(command: &Command, servers: &[Server; 3], rows: usize, i: usize, wire: &mut Wire) -> String {
    let query = &command.queries[i];
    let seed = keys::derive(&command.seed, 2, 0, i as u64);
    let weights: Vec<u128> = (0..query.predicates.len() as u64).map(|j| keys::weight(&seed, j)).collect();
    let plan = Plan { query, columns: &command.columns, seed, weights };
    wire.carried = 0;
    let messages = plan.key_messages();
    let known = [0, 1, 2].map(|k| plan.read_message(&wire.carry("client", SERVERS[k], &messages[k])));
    let known = &known;
    let [total, weighted] = [0, 1].map(|run| Run { plan: &plan, servers, known, run, workers: command.workers }.total(rows, wire));
    let key = plan.weights.iter().fold(1u128, |key, weight| key.wrapping_mul(*weight));
    if total < 1 << 64 && weighted == key.wrapping_mul(total) {
        format!("ask {i} rows {rows} {} {total}\n", if query.is_sum { "sum" } else { "count" })
    } else {
        format!("ask {i} rows {rows} altered total {total} weighted {weighted}\n")
    }
}

fn run(words: &[String]) -> Outcome<()> {
    let command = read_words(words)?;
    let rows = if command.makes { made_rows(&command.columns, command.number, command.rows) } else { read_rows(&command.columns)? };
    let widths: Vec<usize> = command.columns.iter().map(Column::width).chain([1]).collect();
    if command.columns.len() > 4 || rows.len() > MOST_ROWS || rows.len() * widths.iter().sum::<usize>() > MOST_CELLS {
        return Err("more columns, rows or cells than there is room for".into());
    }
    let servers = share_table(&rows, &widths, &command.seed, command.sharers);
    let mut wire = Wire { prints: command.prints_messages, carried: 0 };
    let lines: String = (0..command.queries.len()).map(|i| answer(&command, &servers, rows.len(), i, &mut wire)).collect();
    std::io::stdout().write_all(lines.as_bytes()).map_err(|fault| fault.to_string())
}

fn main() {
    let words: Vec<String> = std::env::args().skip(1).collect();
    if let Err(fault) = run(&words) {
        eprintln!("plain: {fault}");
        std::process::exit(2);
    }
}

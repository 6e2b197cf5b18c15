//! A sample of the reference's answers, as a list that a program replays without any Rust.

use reference::address::{BalanceInfo, IndexedAddress};
use reference::calls::{self, UndoTable};
use reference::segment::Segment;
use reference::segment_id::{box_segment_id, tx_segment_id};
use reference::store::undo::UndoEntry;
use reference::{blake2b256, Digest32, VlqReader};

use crate::call::Call;
use crate::checks::{damage, padded, rows};
use crate::codes;
use crate::index::{Direction, Kind, Lists, TOKENS};
use crate::random::Random;
use crate::report::{hex, Report};
use crate::sides::Sides;

const HEADER: &str = "\
# Answers of the reference Rust (arkadianet/ergo, ergo-indexer), made by 'compare --sample' in compare/: the reference's files, unchanged, built
# with the stand-ins of compare/stand-ins, on inputs from fixed seeds, none of them with a padded number. Made anew by 'make compare-sample'.
#
# A line is a name, its inputs, '=', and its answers. Inputs and answers are bytes in hex, '-' for none; a number is eight bytes, high byte first,
# signed; a list of numbers is their bytes in a row. Where an answer begins with one byte, that is document 01's code; what follows stands only
# where the code is 00.
#
# i64 BYTES = CODE NUMBER TAKEN                             a coded 64-bit number, and how many bytes it took
# i32 BYTES = CODE NUMBER TAKEN                             a coded 32-bit number
# row BYTES = CODE TXS BOXES BOX_COUNT TX_COUNT             a segment row
# wrs TXS BOXES BOX_COUNT TX_COUNT = BYTES                  a segment, written
# b2b BYTES = DIGEST                                        BLAKE2b-256
# box PARENT NUMBER = KEY                                   a row key of boxes
# txs PARENT NUMBER = KEY                                   a row key of transactions
# adr BYTES = CODE HASH FLAG NANOS IDS AMOUNTS TXS BOXES BOX_COUNT TX_COUNT   an address record; FLAG is one byte
# und BYTES = CODE FLAG HEADER TXS BOXES                    an undo entry; FLAG is one byte
# prn HEIGHTS CURRENT 01 WINDOW = HEIGHTS                   pruning; the window is always named
# add NANOS IDS AMOUNTS NANOS IDS AMOUNTS = NANOS IDS AMOUNTS   a balance, a box added to it, the balance after
# sub NANOS IDS AMOUNTS NANOS IDS AMOUNTS = NANOS IDS AMOUNTS   the same, subtracted
# run CALLS = ANSWERS STATE                                 calls in the runner's form; each answer is a code, and the number of an accepted pop;
#                                                           the state is per parent box head length, box spill count, the same two for
#                                                           transactions, nanoErgs, token count
";

fn number(n: i64) -> String {
    hex(&n.to_be_bytes())
}

fn numbers(list: &[i64]) -> String {
    bytes(&list.iter().flat_map(|n| n.to_be_bytes()).collect::<Vec<u8>>())
}

fn bytes(bytes: &[u8]) -> String {
    if bytes.is_empty() {
        "-".into()
    } else {
        hex(bytes)
    }
}

fn segment(s: &Segment) -> String {
    let counts = (number(s.box_segment_count.into()), number(s.tx_segment_count.into()));
    format!("{} {} {} {}", numbers(&s.txs), numbers(&s.boxes), counts.0, counts.1)
}

fn balance(b: &BalanceInfo) -> String {
    let ids: Vec<u8> = b.tokens.iter().flat_map(|(id, _)| *id.as_bytes()).collect();
    let amounts: Vec<i64> = b.tokens.iter().map(|(_, amount)| *amount).collect();
    format!("{} {} {}", number(b.nano_ergs), bytes(&ids), numbers(&amounts))
}

fn coded(input: &[u8]) {
    let mut reader = VlqReader::new(input);
    let answer = match reader.get_i64() {
        Ok(n) => format!("00 {} {}", number(n), number(reader.position() as i64)),
        Err(e) => format!("{:02x}", codes::of_read(&e)),
    };
    if !padded::long(input, 0) {
        println!("i64 {} = {answer}", bytes(input));
    }
    let mut reader = VlqReader::new(input);
    let answer = match reader.get_i32() {
        Ok(n) => format!("00 {} {}", number(n.into()), number(reader.position() as i64)),
        Err(e) => format!("{:02x}", codes::of_read(&e)),
    };
    if !padded::int(input, 0) {
        println!("i32 {} = {answer}", bytes(input));
    }
}

fn row(input: &[u8]) {
    if padded::row(input) {
        return;
    }
    let answer = match rows::of_reference(input) {
        Ok(s) => format!("00 {}", segment(&s)),
        Err(code) => format!("{code:02x}"),
    };
    println!("row {} = {answer}", bytes(input));
}

/// An address record within the domain: no 8, no 24, no padded number.
fn address(input: &[u8]) {
    if padded::record(input) {
        return;
    }
    let answer = match calls::read_indexed_address(input) {
        Ok((_, taken)) if taken < input.len() => return,
        Ok((a, _)) if a.balance.as_ref().is_some_and(|b| b.tokens.len() > TOKENS) => return,
        Ok((a, _)) => {
            let flag = u8::from(a.balance.is_some());
            let held = balance(&a.balance.unwrap_or_default());
            format!("00 {:?} {flag:02x} {held} {}", a.tree_hash, segment(&a.segment))
        }
        Err(e) => format!("{:02x}", codes::of_read(&e)),
    };
    println!("adr {} = {answer}", bytes(input));
}

fn undo(input: &[u8]) {
    let answer = match UndoEntry::decode(input) {
        Ok(e) => {
            let flag = u8::from(e.prev_indexed_header_id.is_some());
            let id = e.prev_indexed_header_id.unwrap_or_default();
            let (txs, boxes) = (e.prev_global_tx_index as i64, e.prev_global_box_index as i64);
            format!("00 {flag:02x} {id:?} {} {}", number(txs), number(boxes))
        }
        Err(e) => format!("{:02x}", codes::of_error(&e, true)),
    };
    println!("und {} = {answer}", bytes(input));
}

/// On named windows only: the default of the index is another than the reference's.
fn prune(heights: &[u64], current: u64, window: Option<u64>) {
    let Some(window) = window else { return };
    let kept = UndoTable::new(heights).prune(current, window);
    let list = |h: &[u64]| bytes(&h.iter().flat_map(|n| n.to_be_bytes()).collect::<Vec<u8>>());
    let window = number(window as i64);
    println!(
        "prn {} {} 01 {window} = {}",
        list(heights),
        number(current as i64),
        list(&kept)
    );
}

/// Steps of a random balance, each a line, within 64 signed bits and 128 tokens.
fn balances(random: &mut Random) {
    let mut held = BalanceInfo::default();
    for step in 0..8 {
        let ids = if step == 0 { 1 + random.below(4) } else { 3 };
        let tokens: Vec<(Digest32, i64)> = (0..ids)
            .map(|_| (Digest32::from_bytes([random.below(5) as u8; 32]), random.below(9) as i64))
            .collect();
        let nanos = random.below(2000) as i64;
        let given = BalanceInfo {
            nano_ergs: nanos,
            tokens: tokens.clone(),
        };
        let before = balance(&held);
        let name = if random.once_in(2) || step == 0 {
            held.add_box(nanos, &tokens);
            "add"
        } else {
            held.subtract_box(nanos, &tokens);
            "sub"
        };
        println!("{name} {before} {} = {}", balance(&given), balance(&held));
    }
}

/// A call in the runner's form.
fn put_call(out: &mut Vec<u8>, parent: usize, call: &Call) {
    let (kind, body): (u8, Vec<u8>) = match call {
        Call::Append(Kind::Box, n) => (1, n.to_be_bytes().to_vec()),
        Call::Append(Kind::Tx, n) => (2, n.to_be_bytes().to_vec()),
        Call::Flip(Direction::Spend, n) => (3, n.to_be_bytes().to_vec()),
        Call::Flip(Direction::Unspend, n) => (4, n.to_be_bytes().to_vec()),
        Call::Pop(Kind::Box) => (5, Vec::new()),
        Call::Pop(Kind::Tx) => (6, Vec::new()),
        Call::Flush => (7, Vec::new()),
        Call::Credit(nanos, tokens) | Call::Debit(nanos, tokens) => {
            let (id, amount) = tokens[0];
            let kind = if matches!(call, Call::Credit(..)) { 8 } else { 9 };
            (kind, [&nanos.to_be_bytes()[..], &[id[0]], &amount.to_be_bytes()].concat())
        }
    };
    out.push(kind);
    if kind != 7 {
        out.push(parent as u8);
    }
    out.extend(body);
}

/// Calls on two parents with the runner's lists: a table of 2, staged spills of 1, deleted spills of 2. A run that meets a full list is left out,
/// since the reference's lists have no end.
fn run(calls: &[(usize, Call)]) -> bool {
    let mut sides = Sides::new(Lists::new(1, 2, 2));
    sides.add_parent([0; 32], Segment::empty());
    sides.add_parent([1; 32], Segment::empty());
    let mut report = Report::default();
    let (mut input, mut answers) = (Vec::new(), Vec::new());
    for (parent, call) in calls {
        let answer = sides.call(*parent, call, &mut report).expect("both sides agree");
        if report.named.keys().any(|name| !name.starts_with("pop: a failed pop")) {
            return false;
        }
        put_call(&mut input, *parent, call);
        answers.push(answer.code);
        if answer.code == 0 && matches!(call, Call::Pop(_)) {
            answers.extend(answer.number.to_be_bytes());
        }
    }
    let state = |a: &IndexedAddress| {
        let (s, b) = (&a.segment, a.balance.as_ref().expect("a balance"));
        let lengths = [
            s.boxes.len() as i64,
            s.box_segment_count.into(),
            s.txs.len() as i64,
            s.tx_segment_count.into(),
        ];
        [&lengths[..], &[b.nano_ergs, b.tokens.len() as i64]].concat()
    };
    let state: Vec<i64> = sides.addresses.iter().flat_map(state).collect();
    println!("run {} = {} {}", bytes(&input), bytes(&answers), numbers(&state));
    true
}

fn short_run(random: &mut Random) -> Vec<(usize, Call)> {
    let mut newest = 0;
    (0..6 + random.below(30))
        .map(|_| {
            let target = random.below(8) as i64;
            let token = vec![([random.below(3) as u8; 32], random.below(5) as i64)];
            let call = match random.below(11) {
                0..=2 => {
                    newest += random.below(2) as i64;
                    Call::Append(Kind::Box, newest)
                }
                3 => Call::Append(Kind::Tx, target),
                4 | 5 => Call::Flip(Direction::Spend, random.below(newest as u64 + 2) as i64),
                6 => Call::Flip(Direction::Unspend, random.below(newest as u64 + 2) as i64),
                7 => Call::Pop(random.pick(&[Kind::Box, Kind::Tx])),
                8 => Call::Flush,
                9 => Call::Credit(target, token),
                _ => Call::Debit(target, token),
            };
            (random.index(2), call)
        })
        .collect()
}

/// Past 512 numbers of one kind, a spend in the row, a flush, and back again.
fn long_run(kind: Kind, extra: i64, flushed: bool) -> Vec<(usize, Call)> {
    let mut calls: Vec<(usize, Call)> = (0..512 + extra).map(|n| (0, Call::Append(kind, n / 2))).collect();
    let flip = |direction, target| (0, Call::Flip(direction, target));
    if kind == Kind::Box {
        calls.extend([
            flip(Direction::Spend, 3),
            flip(Direction::Spend, 3),
            flip(Direction::Spend, 3),
            flip(Direction::Spend, 400),
        ]);
    }
    if flushed {
        calls.push((0, Call::Flush));
    }
    if kind == Kind::Box {
        calls.extend([
            flip(Direction::Unspend, 3),
            flip(Direction::Spend, 0),
            flip(Direction::Unspend, 255),
        ]);
    }
    calls.extend((0..extra + 3).map(|_| (0, Call::Pop(kind))));
    calls.extend([
        (0, Call::Flush),
        (0, Call::Append(kind, 300)),
        (0, Call::Flush),
        (0, Call::Pop(kind)),
    ]);
    calls
}

pub fn print() {
    print!("{HEADER}");
    let mut random = Random::new(8);
    for n in [
        0i64,
        63,
        64,
        -64,
        -65,
        i64::MIN,
        i64::MAX,
        i32::MAX.into(),
        i32::MIN.into(),
        1 << 31,
    ] {
        let mut writer = reference::VlqWriter::new();
        writer.put_i64(n);
        coded(writer.as_slice());
    }
    for input in [
        &[][..],
        &[0x80],
        &[0x80, 0x00],
        &[0xff; 9],
        &[0xff; 10],
        &[0x80; 10],
        &[0x80, 0x80, 0x80, 0x80, 0x90, 0x00],
    ] {
        coded(input);
    }
    for _ in 0..16 {
        let mut input: Vec<u8> = (0..1 + random.below(11)).map(|_| random.word() as u8 | 0x80).collect();
        input.push(random.below(3) as u8);
        coded(&input);
    }
    let wide = (0..512).map(|n| if n % 3 == 0 { -n } else { n }).collect::<Vec<i64>>();
    for i in 0..44 {
        let mut s = rows::segment(&mut random);
        s.txs.truncate(4);
        s.boxes.truncate(4);
        if i == 0 {
            s.boxes.clone_from(&wide);
        }
        let mut input = calls::write_segment(&s);
        println!("wrs {} = {}", segment(&s), bytes(&input));
        row(&input);
        if i % 2 == 1 {
            damage(&mut input, &mut random);
            row(&input);
        }
    }
    for length in [0, 1, 3, 64, 127, 128, 129, 255, 256, 257, 384] {
        let input: Vec<u8> = (0..length).map(|i| i as u8).collect();
        println!("b2b {} = {:?}", bytes(&input), blake2b256(&input));
    }
    for n in [0, 1, 9, 10, 99, 511, 512, 4095, i32::MAX, -1, i32::MIN] {
        let parent = Digest32::from_bytes(random.bytes());
        println!("box {parent:?} {} = {:?}", number(n.into()), box_segment_id(&parent, n));
        println!("txs {parent:?} {} = {:?}", number(n.into()), tx_segment_id(&parent, n));
    }
    for i in 0..48 {
        let mut s = rows::segment(&mut random);
        s.txs.truncate(3);
        s.boxes.truncate(3);
        let tokens = (0..random.below(4))
            .map(|_| (Digest32::from_bytes([random.word() as u8; 32]), random.long()))
            .collect();
        let held = BalanceInfo {
            nano_ergs: random.long(),
            tokens,
        };
        let mut input = calls::write_indexed_address(&IndexedAddress {
            tree_hash: Digest32::from_bytes(random.bytes()),
            balance: (i % 4 > 0).then_some(held),
            segment: s,
        });
        if i % 2 == 1 {
            let mut rest = input.split_off(32);
            damage(&mut rest, &mut random);
            input.extend(rest);
        }
        address(&input);
    }
    undo(&[]);
    for i in 0..40 {
        let mut input = UndoEntry {
            prev_indexed_header_id: random.once_in(2).then(|| Digest32::from_bytes(random.bytes())),
            prev_global_tx_index: random.word(),
            prev_global_box_index: random.word(),
        }
        .encode();
        if i % 2 == 1 {
            damage(&mut input, &mut random);
        }
        undo(&input);
    }
    for _ in 0..24 {
        let mut heights: Vec<u64> = (0..random.below(7)).map(|_| random.below(460)).collect();
        heights.sort();
        heights.dedup();
        let window = (!random.once_in(3)).then(|| random.below(300));
        prune(&heights, random.below(500), window);
    }
    for _ in 0..6 {
        balances(&mut random);
    }
    run(&[]);
    let mut runs = 0;
    while runs < 40 {
        runs += usize::from(run(&short_run(&mut random)));
    }
    for (kind, extra, flushed) in [(Kind::Box, 1, true), (Kind::Box, 2, false), (Kind::Tx, 1, true)] {
        assert!(
            run(&long_run(kind, extra, flushed)),
            "a long run stays within the runner's lists"
        );
    }
}

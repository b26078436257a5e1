//! Does the library answer as `docs/RULES.md` and `docs/FORMATS.md` say, called from Rust?

mod cases;
mod rules;

use cases::Cases;
use locktable::{
    check, shard_of, Access, Call, CheckError, Fault, LockTable, Refused, Reply, Request, Step, Through, Ticket,
    Timestamp, TxnId,
};
use rules::PlainTable;

macro_rules! worked {
    ($($name:literal,)*) => { &[$(($name, include_str!(concat!("../../worked/", $name))),)*] };
}

/// Worked examples, most of them from the documents, as texts of histories.
const WORKED: &[(&str, &str)] = worked![
    "a-bound-and-no-transaction",
    "a-bound-does-not-count-the-reservation",
    "a-key-from-its-first-lock-to-its-last-waiter",
    "a-queued-writer-is-not-refused",
    "a-raise-lets-earlier-readers-through",
    "a-reader-at-the-lock-timestamp-waits",
    "a-scan-over-three-keys",
    "a-write-without-a-transaction-passes-over",
    "an-inactive-writer-gets-the-reservation",
    "bounds-at-a-held-and-a-reserved-lock",
    "nobody-waits-for-himself",
    "the-distinguished-waiter-leaves",
    "two-wait-for-a-reservation",
    "writers-go-by-number",
    "writers-without-a-transaction-go-first",
    "writers-without-a-transaction-to-the-end",
];

fn text_of(name: &str) -> &'static str {
    WORKED.iter().find(|(of, _)| *of == name).unwrap().1
}

/// Makes the call of a line, and answers the line as this table has it.
fn play_line(table: &mut LockTable, line: &str, lets: &mut Vec<Through>) -> String {
    let words: Vec<&str> = line.split(" = ").next().unwrap().split(' ').collect();
    let (key, pass) = (words[0].as_bytes(), words[2].parse().unwrap());
    let txn = |word: &str| word.parse::<TxnId>().unwrap();
    let call = match (words[3], &words[4..]) {
        ("visit", [ticket, by, ts, access, bound @ ..]) => Call::Visit(Request {
            txn: (*by != "-").then(|| txn(by)),
            longest: bound.first().map_or(0, |word| word.strip_prefix("max=").unwrap().parse().unwrap()),
            ..Request::new(
                ticket.parse().unwrap(),
                pass,
                ts.parse().unwrap(),
                if *access == "w" { Access::Write } else { Access::Read },
            )
        }),
        ("acquire", [by, ts]) => Call::Acquire { txn: txn(by), ts: ts.parse().unwrap() },
        ("update", [by, ts]) => Call::Update { txn: txn(by), ts: ts.parse().unwrap() },
        ("finish", [by]) => Call::Finish { txn: txn(by) },
        ("leave", [number]) => Call::Leave { number: number.parse().unwrap() },
        ("look", [number]) => {
            let found = table.look(key, number.parse().unwrap()).unwrap();
            return format!("{} = {found}", words.join(" "));
        }
        _ => panic!("{line}"),
    };
    let reply = match call {
        Call::Visit(request) => table.visit(key, &request, lets),
        Call::Acquire { txn, ts } => table.acquire(key, txn, ts, lets),
        Call::Update { txn, ts } => table.update(key, txn, ts, lets),
        Call::Finish { txn } => table.finish(key, txn, lets),
        Call::Leave { number } => table.leave(key, number, lets),
        _ => panic!("{line}"),
    };
    let step = Step { key, pass, call, reply: reply.unwrap(), lets }.to_string();
    let (_, behind_key) = step.split_once(' ').unwrap();
    format!("{} {} {behind_key}", words[0], words[1])
}

#[test]
fn the_worked_examples() {
    let mut lets = Vec::new();
    for (name, text) in WORKED {
        let mut table = LockTable::open().unwrap();
        for line in text.lines().skip(1) {
            assert_eq!(play_line(&mut table, line, &mut lets), line, "{name}");
        }
        let report = check(text.as_bytes()).unwrap();
        assert_eq!((report.version, report.steps), (2, text.lines().count() - 1), "{name}");
    }
}

#[test]
fn the_changed_texts() {
    let rows = [
        ("writers-go-by-number", " let 1.1", "", 5, Fault::WrongLets),
        ("writers-go-by-number", "let 1.1", "let 2.1", 5, Fault::WrongLets),
        ("writers-go-by-number", "1 10.0 w = wait", "1 10.0 w = pass", 4, Fault::WrongReply),
        ("writers-go-by-number", "a 3 1 visit", "a 4 1 visit", 4, Fault::Index),
        ("writers-go-by-number", "a 3 1 visit", "a 03 1 visit", 4, Fault::Shape),
        ("writers-go-by-number", "1 reserved\n", "1 reserved", 6, Fault::Shape),
        ("writers-go-by-number", "locks 2", "locks 3", 1, Fault::Header),
        ("a-bound-and-no-transaction", "locks 2", "locks 1", 3, Fault::Shape),
        ("a-bound-and-no-transaction", "1.1 - 1.0", "1.1 9 1.0", 3, Fault::WrongReply),
        ("a-bound-and-no-transaction", " max=1", "", 4, Fault::WrongReply),
        ("a-bound-and-no-transaction", "max=1", "max=0", 4, Fault::Shape),
        ("a-bound-and-no-transaction", " 3.1\n", "\n", 6, Fault::WrongLets),
        ("a-scan-over-three-keys", "c 1 1", "A 1 1", 8, Fault::KeyOrder),
    ];
    for (name, old, new, line, fault) in rows {
        let text = text_of(name).replacen(old, new, 1);
        assert_eq!(check(text.as_bytes()), Err(CheckError::Refused { line, fault }), "{name}: {old} is {new}");
    }
    let shorter = text_of("writers-go-by-number").replacen("a 5 2 look 2 = first 1 reserved\n", "", 1);
    assert_eq!(check(shorter.as_bytes()).unwrap().steps, 4);
    let first = text_of("writers-go-by-number").replacen("locks 2", "locks 1", 1);
    assert_eq!(check(first.as_bytes()).unwrap().version, 1);
    assert_eq!(check(b""), Err(CheckError::Refused { line: 1, fault: Fault::Header }));
}

#[test]
fn a_refused_call_changes_nothing() {
    let ts = Timestamp { wall: 10, logical: 0 };
    let (nine, mut lets) = (TxnId::new(9).unwrap(), Vec::new());
    let mut table = LockTable::open().unwrap();
    assert_eq!(table.acquire(b"a", nine, ts, &mut lets), Ok(Reply::Taken));
    let before = table.key_state(b"a").unwrap();
    let good = Request::new(Ticket { number: 1, wait: 1 }, 1, ts, Access::Write);
    let requests = [
        (Request { number: 0, wait: 0, pass: 0, ..good }, Refused::Number),
        (Request { number: 1 << 40, ..good }, Refused::Number),
        (Request { wait: 0, pass: 0, ..good }, Refused::Wait),
        (Request { wait: 1 << 24, ..good }, Refused::Wait),
        (Request { pass: 0, ..good }, Refused::Pass),
        (Request { pass: 1025, ..good }, Refused::Pass),
    ];
    for (request, refused) in requests {
        assert_eq!(table.visit(b"", &request, &mut lets), Err(refused));
    }
    let keys: [(&[u8], Refused); 5] = [
        (b"", Refused::KeyEmpty),
        (&[b' '; 65], Refused::KeyLong),
        (b"a b", Refused::KeyByte),
        (b"a\x7F", Refused::KeyByte),
        (b"\xFF", Refused::KeyByte),
    ];
    for (key, refused) in keys {
        assert_eq!(table.visit(key, &good, &mut lets), Err(refused));
        assert_eq!(table.acquire(key, nine, ts, &mut lets), Err(refused));
        assert_eq!(table.update(key, nine, ts, &mut lets), Err(refused));
        assert_eq!(table.finish(key, nine, &mut lets), Err(refused));
        assert_eq!(table.leave(key, 1, &mut lets), Err(refused));
        assert_eq!(table.look(key, 1), Err(refused));
        assert_eq!(table.key_state(key), Err(refused));
    }
    assert_eq!(table.key_state(b"a").unwrap(), before);
    assert_eq!(table.keys().unwrap(), [b"a"]);
    let most = Request {
        number: (1 << 40) - 1,
        txn: TxnId::new(u64::MAX),
        ts: Timestamp { wall: u64::MAX, logical: u32::MAX },
        access: Access::Write,
        wait: (1 << 24) - 1,
        pass: 1024,
        longest: u32::MAX,
    };
    assert_eq!(table.visit(b"a", &most, &mut lets), Ok(Reply::MustWait));
    let queued = table.key_state(b"a").unwrap().writers[0].request;
    assert_eq!((queued.number, queued.txn, queued.ts), (most.number, most.txn, most.ts));
    assert_eq!((queued.wait, queued.pass), (most.wait, most.pass));
}

#[test]
fn a_step_gives_all_of_its_lets() {
    let (nine, ts, mut lets) = (TxnId::new(9).unwrap(), Timestamp::default(), Vec::new());
    for waiting in [0, 1, 15, 16, 17, 32, 100] {
        let mut table = LockTable::open().unwrap();
        assert_eq!(table.acquire(b"a", nine, ts, &mut lets), Ok(Reply::Taken));
        for number in 1..=waiting {
            let request = Request::new(Ticket { number, wait: 1 }, number as u32, ts, Access::Read);
            assert_eq!(table.visit(b"a", &request, &mut lets), Ok(Reply::MustWait));
        }
        assert_eq!(table.finish(b"a", nine, &mut lets), Ok(Reply::Freed));
        let numbers: Vec<u64> = lets.iter().map(|through| through.number).collect();
        assert_eq!(numbers, (1..=waiting).rev().collect::<Vec<_>>());
        assert!(lets.iter().all(|through| u64::from(through.pass) == through.number && through.wait == 1));
        assert_eq!(table.acquire(b"a", nine, ts, &mut lets), Ok(Reply::Taken));
        assert!(lets.is_empty());
    }
}

#[test]
fn a_timestamp_and_a_ticket_are_read_as_they_are_written() {
    let rows = [
        ("0.0", Some((0, 0))),
        ("18446744073709551615.4294967295", Some((u64::MAX, u32::MAX))),
        ("7.02", None),
        ("07.2", None),
        ("+7.2", None),
        ("7.", None),
        (".2", None),
        ("7", None),
        ("7.2.1", None),
        ("7.4294967296", None),
        ("", None),
    ];
    for (text, numbers) in rows {
        assert_eq!(text.parse().ok(), numbers.map(|(wall, logical)| Timestamp { wall, logical }), "{text}");
        assert_eq!(text.parse().ok(), numbers.map(|(number, wait)| Ticket { number, wait }), "{text}");
    }
}

#[test]
fn a_table_moves_to_another_thread() {
    let (nine, ts) = (TxnId::new(9).unwrap(), Timestamp::default());
    let mut table = LockTable::open().unwrap();
    let taken = table.acquire(b"a-key-of-more-than-22-bytes", nine, ts, &mut Vec::new());
    assert_eq!(taken, Ok(Reply::Taken));
    let moved = std::thread::spawn(move || table.finish(b"a-key-of-more-than-22-bytes", nine, &mut Vec::new()));
    assert_eq!(moved.join().unwrap(), Ok(Reply::Freed));
}

#[test]
fn a_key_has_one_shard() {
    assert_eq!(shard_of(b"\xFF\xFF\xFF", 64), 3 * 255 % 64);
    assert_eq!(shard_of(&[b'k'; 64], 1000), 64 * usize::from(b'k') % 1000);
    assert_eq!((shard_of(&[b'k'; 65], 1000), shard_of(b"a", 0), shard_of(b"", 7)), (0, 0, 0));
}

struct Random(u64);

impl Random {
    fn below(&mut self, bound: u64) -> u64 {
        self.0 ^= self.0 << 13;
        self.0 ^= self.0 >> 7;
        self.0 ^= self.0 << 17;
        (self.0 >> 11) % bound
    }
}

/// In byte order. Two of them need an allocation.
const KEYS: [&[u8]; 6] = [
    b"a",
    b"a!",
    b"b-has-22-bytes-exactly",
    b"b-has-23-bytes-exactly-",
    b"c",
    b"d-has-64-bytes-which-is-the-most-that-a-key-may-have-----------",
];

#[test]
fn a_million_random_calls_as_in_plain_rust() {
    let mut random = Random(0x2545_F491_4F6C_DD1D);
    let (mut table, mut plain) = (LockTable::open().unwrap(), PlainTable::default());
    let (mut lets, mut plain_lets, mut most_lets) = (Vec::new(), Vec::new(), 0);
    let mut cases = Cases::default();
    for call in 0..1_000_000 {
        let key = KEYS[random.below(6) as usize];
        let number = 1 + random.below(12);
        let txn = TxnId::new(1 + random.below(5)).unwrap();
        let ts = Timestamp { wall: random.below(4), logical: random.below(2) as u32 };
        let before = plain.key_state(key);
        let (reply, plain_reply) = match random.below(10) {
            0 => (table.acquire(key, txn, ts, &mut lets), plain.acquire(key, txn, ts, &mut plain_lets)),
            1 => (table.update(key, txn, ts, &mut lets), plain.update(key, txn, ts, &mut plain_lets)),
            2 => (table.finish(key, txn, &mut lets), plain.finish(key, txn, &mut plain_lets)),
            3 => (table.leave(key, number, &mut lets), plain.leave(key, number, &mut plain_lets)),
            4 => {
                let found = plain.look(key, number).unwrap();
                assert_eq!(table.look(key, number), Ok(found), "call {call}");
                cases.look(found);
                continue;
            }
            _ => {
                let ticket = Ticket { number, wait: 1 + random.below(1000) as u32 };
                let pass = 1 + random.below(1024) as u32;
                let access = if random.below(2) == 0 { Access::Write } else { Access::Read };
                let request = Request {
                    txn: TxnId::new(random.below(6)),
                    longest: (random.below(3) * random.below(4)) as u32,
                    ..Request::new(ticket, pass, ts, access)
                };
                cases.visit(&before, &request);
                (table.visit(key, &request, &mut lets), plain.visit(key, &request, &mut plain_lets))
            }
        };
        assert_eq!(reply.ok(), plain_reply, "call {call}");
        assert_eq!(lets, plain_lets, "call {call}");
        cases.lets(&before, plain_reply.unwrap(), &plain_lets, &plain.key_state(key));
        most_lets = most_lets.max(lets.len());
        if call % 101 == 0 {
            for key in KEYS {
                assert_eq!(table.key_state(key).unwrap(), plain.key_state(key), "call {call}");
            }
            assert_eq!(table.keys().unwrap(), plain.keys(), "call {call}");
        }
        if call % 20_000 == 19_999 {
            (table, plain) = (LockTable::open().unwrap(), PlainTable::default());
        }
    }
    assert!(most_lets > 4);
    assert_eq!(cases.missing(), []);
}

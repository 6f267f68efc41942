//! rows ROW TURNS [SIZE]: the work of ../rows.c by the original, with the same answers. What a turn needs is made
//! before the first turn, and for MOST turns whatever TURNS is. `rows list` reads a payload from standard input and
//! lists its TLVs, as tlvlist does.

use pnet::datalink::MacAddr;
use rows::cmdu::{CMDU, TLV};
use rows::cmdu_codec::{AlMacAddress, ApOperationalBss, Ipv4, MacAddress};
use rows::cmdu_reassembler::{CmduReassembler, Made};
use rows::tlv_cmdu_codec::TLVTrait;
use std::hint::black_box;
use std::io::{Read, Write};
use std::time::Duration;
use tokio::runtime::{Builder, Runtime};

const MOST: usize = 64;
const STORE: usize = 47_744;

fn add(payload: &mut Vec<u8>, kind: u8, length: usize) {
    let at = payload.len();
    payload.extend([kind, (length >> 8) as u8, length as u8]);
    payload.extend((0..length).map(|i| (at + i) as u8));
}

fn tlvs(many: usize, kind: u8, length: usize, last: usize) -> Vec<u8> {
    let mut payload = vec![];
    for _ in 1..many {
        add(&mut payload, kind, length);
    }
    add(&mut payload, kind, last);
    payload
}

fn bytes(value: &mut Vec<u8>, n: usize) {
    value.extend((0..n).rev().map(|i| i as u8));
}

fn ipv4() -> Vec<u8> {
    let mut value = vec![8];
    for _ in 0..8 {
        bytes(&mut value, 6);
        value.push(16);
        bytes(&mut value, 16 * 9);
    }
    value
}

fn operational_bss() -> Vec<u8> {
    let mut value = vec![2];
    for _ in 0..2 {
        bytes(&mut value, 6);
        value.push(4);
        for _ in 0..4 {
            bytes(&mut value, 6);
            value.push(32);
            bytes(&mut value, 32);
        }
    }
    value
}

fn cmdu(key: usize, number: u8, last: bool, payload: &[u8]) -> CMDU {
    CMDU {
        message_version: 0,
        reserved: 0,
        message_type: 2,
        message_id: key as u16,
        fragment: number,
        flags: if last { 0x80 } else { 0 },
        payload: payload.to_vec(),
    }
}

/// Four keys are of one sender.
fn sender(key: usize) -> MacAddr {
    MacAddr(2, 0, 0, 0, 0, (key / 4) as u8)
}

fn sum(bytes: &[u8]) -> u64 {
    bytes.iter().fold(0u64, |s, b| s.wrapping_mul(31).wrapping_add(*b as u64))
}

fn walk(turns: usize, payload: &[u8]) {
    let mut count = 0;
    for _ in 0..turns {
        count = 0;
        let mut rest = black_box(payload);
        while !rest.is_empty() {
            let (behind, tlv) = TLV::parse(rest).expect("a TLV");
            black_box(&tlv);
            rest = behind;
            count += 1;
        }
    }
    println!("{count} 0");
}

fn list(turns: usize, payload: Vec<u8>) {
    let message = cmdu(0, 0, true, &payload);
    let mut tlvs = vec![];
    for _ in 0..turns {
        tlvs = black_box(&message).get_tlvs().expect("TLVs");
    }
    let last = tlvs.last().expect("a TLV");
    println!("{} 0, last {} {}", tlvs.len(), last.tlv_type, last.tlv_length);
}

fn read<T: TLVTrait>(turns: usize, value: &[u8], entries: fn(&T) -> usize) {
    let mut answer = (0, 0);
    for _ in 0..turns {
        let (rest, record) = T::parse(black_box(value)).ok().expect("a value");
        black_box(&record);
        answer = (entries(&record), rest.len());
    }
    println!("{} {} {} 0", answer.0, value.len() - answer.1, answer.1);
}

fn find<T: TLVTrait>(turns: usize, address: fn(&T) -> [u8; 6]) {
    let tlvs = cmdu(0, 0, true, &tlvs(166, 2, 6, 4)).get_tlvs().expect("TLVs");
    let mut found = None;
    for _ in 0..turns {
        found = T::find(black_box(&tlvs));
    }
    match found {
        Some(record) => println!("{}", sum(&address(&record))),
        None => println!("none"),
    }
}

fn runtime() -> Runtime {
    Builder::new_current_thread().enable_time().start_paused(true).build().expect("a runtime")
}

/// The first so many of: numbers 0 and 1 of key 0, of key 1, ..
fn filled(places: usize, store: &[u8]) -> Vec<(MacAddr, CMDU)> {
    (0..places).map(|i| (sender(i / 2), cmdu(i / 2, (i % 2) as u8, false, &store[..16]))).collect()
}

fn complete(turns: usize, store: &[u8], n: usize) {
    let mut messages: Vec<[CMDU; 3]> = (0..MOST)
        .map(|_| [0usize, 1, 2].map(|k| cmdu(1, k as u8, k == 2, &store[k * n..(k + 1) * n])))
        .collect();
    runtime().block_on(async {
        let table = CmduReassembler::new();
        let mut message = vec![];
        for _ in 0..turns {
            for fragment in messages.pop().expect("a message") {
                if let Some(answer) = table.push_fragment(sender(1), fragment).await {
                    message = answer.expect("a whole message").payload;
                }
            }
        }
        println!("{} {}, keys {}", message.len(), sum(&message), table.keys().await);
        std::process::exit(0);
    });
}

fn waiting(turns: usize, store: &[u8], places: usize, n: usize) {
    let mut made: Vec<Made> = (0..MOST).map(|_| Made::of(&filled(places, store), 0)).collect();
    let mut fragments: Vec<CMDU> =
        (0..MOST).map(|_| cmdu(places / 2, (places % 2) as u8, false, &store[..n])).collect();
    runtime().block_on(async {
        let table = CmduReassembler::new();
        let mut said = "something else";
        for _ in 0..turns {
            table.take(made.pop().expect("contents")).await;
            let answer = table.push_fragment(sender(places / 2), fragments.pop().expect("a fragment")).await;
            said = if answer.is_none() { "waiting" } else { "something else" };
        }
        println!("{said}, keys {}", table.keys().await);
        std::process::exit(0);
    });
}

fn sweep(turns: usize, store: &[u8], age: i64) {
    let mut made: Vec<Made> = (0..MOST).map(|_| Made::of(&filled(32, store), age)).collect();
    runtime().block_on(async {
        let table = CmduReassembler::new();
        tokio::task::yield_now().await;
        let mut keys = 0;
        for _ in 0..turns {
            table.take(made.pop().expect("contents")).await;
            tokio::time::advance(Duration::from_secs(3)).await;
            tokio::task::yield_now().await;
            keys = table.keys().await;
        }
        println!("dropped {}, keys {keys}", 16 - keys);
        std::process::exit(0);
    });
}

fn tlv_lines() -> std::io::Result<()> {
    let mut payload = vec![];
    std::io::stdin().read_to_end(&mut payload)?;
    let mut out = std::io::BufWriter::new(std::io::stdout().lock());
    let mut rest = payload.as_slice();
    while !rest.is_empty() {
        let (behind, tlv) = TLV::parse(rest).expect("a TLV");
        writeln!(out, "{} {}", tlv.tlv_type, tlv.tlv_length)?;
        rest = behind;
    }
    writeln!(out, "end {}", payload.len())
}

fn main() {
    let words: Vec<String> = std::env::args().collect();
    if words[1] == "list" {
        return tlv_lines().expect("lines");
    }
    let turns: usize = words[2].parse().expect("turns");
    let many: usize = words.get(3).map_or(0, |w| w.parse().expect("a size"));
    let store: Vec<u8> = (0..STORE).map(|i| (i * 7) as u8).collect();
    match words[1].as_str() {
        "walk-497" => walk(turns, &tlvs(497, 1, 0, 1)),
        "walk-165" => walk(turns, &tlvs(165, 1, 6, 13)),
        "list-497" => list(turns, tlvs(497, 1, 0, 1)),
        "list-165" => list(turns, tlvs(165, 1, 6, 13)),
        "walk" => walk(turns, &tlvs(many, 1, 0, 0)),
        "ipv4" => read::<Ipv4>(turns, &ipv4(), |v| v.entries.len()),
        "bss" => read::<ApOperationalBss>(turns, &operational_bss(), |v| v.radios.len()),
        "find-none" => find::<AlMacAddress>(turns, |v| v.al_mac_address.octets()),
        "find-first" => find::<MacAddress>(turns, |v| v.mac_address.octets()),
        "push-1492" => complete(turns, &store, 1492),
        "push-16" => complete(turns, &store, 16),
        "wait" => waiting(turns, &store, many, 16),
        "wait-1492" => waiting(turns, &store, many, 1492),
        "sweep-none" => sweep(turns, &store, -1_000_000),
        "sweep-all" => sweep(turns, &store, 10),
        other => panic!("no row {other}"),
    }
}

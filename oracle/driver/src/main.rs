//! Answers the commands of ../COMMANDS.md, a line each, through the original. Usage: driver [LEVEL] < COMMANDS

mod clock;
mod kinds;
mod table;
mod words;

use driver::cmdu::{CMDU, TLV};
use kinds::{Ask, Entry, Pairs, Shown, from_fields, of_kind};
use pnet::datalink::MacAddr;
use std::io::{BufRead, Write};
use std::panic::{AssertUnwindSafe, catch_unwind};
use table::Table;
use words::{Bad, Fields, LONGEST_LINE, bytes, checksum, number, shown, six, word};

const NO: &str = "no";
/// Pairs that a report is over, at most (rule Q4).
const MOST_PAIRS: usize = 1024;
/// The longest payload of a fragment (rule M3), and the eight bytes of its header.
const LONGEST_FRAGMENT: usize = 1492 + 8;

/// TLVs from the start up to the end marker, or until no byte is left: each with its offset; or the offset of the one
/// that doesn't read.
fn walk(payload: &[u8]) -> Result<Vec<(usize, TLV)>, usize> {
    let mut found = Vec::new();
    let mut rest = payload;
    while !rest.is_empty() {
        let offset = payload.len() - rest.len();
        let (behind, tlv) = TLV::parse(rest).map_err(|_| offset)?;
        let marker = tlv.tlv_type == 0 && tlv.tlv_length == 0;
        found.push((offset, tlv));
        if marker {
            break;
        }
        rest = behind;
    }
    Ok(found)
}

fn value(tlv: &TLV) -> &[u8] {
    tlv.tlv_value.as_deref().unwrap_or_default()
}

fn read_tlv(input: &[u8]) -> String {
    match TLV::parse(input) {
        Err(_) => NO.into(),
        Ok((rest, tlv)) => {
            let consumed = input.len() - rest.len();
            format!("ok {} {} {consumed} {}", tlv.tlv_type, tlv.tlv_length, shown(value(&tlv)))
        }
    }
}

fn written(tlv: TLV, room: usize) -> String {
    let bytes = tlv.serialize();
    if bytes.len() > room { NO.into() } else { format!("ok {}", shown(&bytes)) }
}

fn write_tlv(tlv_type: u8, room: usize, value: Vec<u8>) -> String {
    let tlv_length = value.len() as u16;
    written(TLV { tlv_type, tlv_length, tlv_value: Some(value) }, room)
}

fn header(input: &[u8]) -> String {
    match CMDU::parse(input) {
        Err(_) => NO.into(),
        Ok((_, m)) => format!(
            "ok {} {} {} {} {} {} {}",
            m.message_version,
            m.reserved,
            m.message_type,
            m.message_id,
            m.fragment,
            m.flags,
            m.is_last_fragment() as u8
        ),
    }
}

/// What follows the last TLV of so many bytes is padding.
fn listed(tlvs: &[(usize, TLV)], size: usize) -> String {
    let end = tlvs.last().map_or(0, |(offset, tlv)| offset + tlv.total_size());
    let mut text = format!("ok {} {}", tlvs.len(), size - end);
    if tlvs.len() <= 16 {
        for (offset, tlv) in tlvs {
            text += &format!(" {}:{offset}:{}", tlv.tlv_type, tlv.tlv_length);
        }
        return text;
    }
    let mut all = Vec::new();
    for (offset, tlv) in tlvs {
        all.push(tlv.tlv_type);
        all.extend((*offset as u32).to_be_bytes());
        all.extend(tlv.tlv_length.to_be_bytes());
    }
    text + &format!(" {:016x}", checksum(&all))
}

fn walked(payload: &[u8]) -> String {
    match walk(payload) {
        Err(offset) => format!("no - {offset}"),
        Ok(tlvs) => listed(&tlvs, payload.len()),
    }
}

/// The original's own walk, which stops at the first end marker.
fn get_tlvs(payload: &[u8]) -> String {
    let whole = CMDU {
        message_version: 0,
        reserved: 0,
        message_type: 0,
        message_id: 0,
        fragment: 0,
        flags: 0x80,
        payload: payload.to_vec(),
    };
    let Ok(tlvs) = whole.get_tlvs() else {
        return NO.into();
    };
    let mut offset = 0;
    let mut placed = Vec::new();
    for tlv in tlvs {
        let size = tlv.total_size();
        placed.push((offset, tlv));
        offset += size;
    }
    listed(&placed, payload.len())
}

/// Where the fragments end that the original cuts a message into. Anything but fragments that are numbered from 0, alike,
/// and marked at the end alone is a panic.
fn cut(payload: &[u8], room: usize) -> String {
    let whole = CMDU {
        message_version: 1,
        reserved: 0,
        message_type: 2,
        message_id: 3,
        fragment: 0,
        flags: 0,
        payload: payload.to_vec(),
    };
    let Ok(fragments) = whole.fragment_tlv_boundary(LONGEST_FRAGMENT) else {
        return NO.into();
    };
    if fragments.len() > room {
        return NO.into();
    }
    let (mut end, mut ends) = (0, String::new());
    for (number, part) in fragments.iter().enumerate() {
        let last = number + 1 == fragments.len();
        assert_eq!((part.fragment as usize, part.is_last_fragment()), (number, last));
        assert_eq!((part.message_version, part.message_type, part.message_id), (1, 2, 3));
        let start = end;
        end += part.payload.len();
        assert_eq!(part.payload, payload[start..end]);
        ends += &format!(" {end}");
    }
    format!("ok {}{ends}", fragments.len())
}

struct Read<'a>(&'a [u8]);

impl Ask for Read<'_> {
    type Answer = String;
    fn ask<T: Shown>(self) -> String {
        match T::parse(self.0) {
            Err(_) => NO.into(),
            Ok((rest, record)) => {
                let consumed = self.0.len() - rest.len();
                let text = format!("ok {consumed} {} {}", rest.len(), record.fields());
                text.trim_end().into()
            }
        }
    }
}

struct Rewrite<'a>(&'a [u8], usize);

impl Ask for Rewrite<'_> {
    type Answer = String;
    fn ask<T: Shown>(self) -> String {
        match T::parse(self.0) {
            Err(_) => NO.into(),
            Ok((_, record)) => written(record.into(), self.1),
        }
    }
}

struct Entries<'a>(&'a [u8]);

impl Ask for Entries<'_> {
    type Answer = Option<Vec<Entry>>;
    fn ask<T: Shown>(self) -> Option<Vec<Entry>> {
        T::parse(self.0).ok().map(|(_, record)| record.entries())
    }
}

fn entry(kind: u8, numbers: &str, input: &[u8]) -> Result<String, Bad> {
    let Some(Some(mut level)) = of_kind(kind, Entries(input)) else {
        return Ok(NO.into());
    };
    let mut found = None;
    for text in numbers.split('.').filter(|text| *text != "-") {
        let index: usize = text.parse().map_err(|_| Bad)?;
        if index >= level.len() {
            return Ok(NO.into());
        }
        let at = level.swap_remove(index);
        level = at.below;
        found = Some(at.bytes);
    }
    Ok(found.map_or(NO.into(), |bytes| format!("ok {}", shown(&bytes))))
}

/// A text by its number, of the value itself or of its radios.
struct Text<'a>(&'a [u8], bool, usize);

impl Ask for Text<'_> {
    type Answer = Option<String>;
    fn ask<T: Shown>(self) -> Option<String> {
        let (_, record) = T::parse(self.0).ok()?;
        let texts = record.texts()?;
        let asked = if self.1 { texts.radios } else { texts.own };
        asked.get(self.2).map(|text| format!("ok {}", shown(text.as_bytes())))
    }
}

fn text(kind: u8, of_radio: bool, number: usize, input: &[u8]) -> String {
    of_kind(kind, Text(input, of_radio, number)).flatten().unwrap_or(NO.into())
}

/// A report over the pairs as the original reads them. It has no report of its own: limit and sums are the driver's.
struct Report<'a>(&'a [u8]);

impl Ask for Report<'_> {
    type Answer = Option<String>;
    fn ask<T: Shown>(self) -> Option<String> {
        let (_, record) = T::parse(self.0).ok()?;
        let Pairs { figures, signals } = record.pairs().filter(|pairs| pairs.figures.len() <= MOST_PAIRS)?;
        let errors: u64 = figures.iter().map(|pair| u64::from(pair.0)).sum();
        let packets: u64 = figures.iter().map(|pair| u64::from(pair.1)).sum();
        let strength = signals.map_or(String::new(), |signals| {
            let lowest = signals.iter().min().map_or("-".into(), i8::to_string);
            let sum: i32 = signals.iter().map(|signal| i32::from(*signal)).sum();
            format!(" {lowest} {sum}")
        });
        Some(format!("ok {} {errors} {packets}{strength}", figures.len()))
    }
}

/// Every entry in order, each before those below it: its numbers, its length, its bytes.
fn gather(entries: &[Entry], path: &mut Vec<u16>, count: &mut usize, all: &mut Vec<u8>) {
    for (index, entry) in entries.iter().enumerate() {
        path.push(index as u16);
        *count += 1;
        all.push(path.len() as u8);
        path.iter().for_each(|number| all.extend(number.to_be_bytes()));
        all.extend((entry.bytes.len() as u16).to_be_bytes());
        all.extend(&entry.bytes);
        gather(&entry.below, path, count, all);
        path.pop();
    }
}

fn every_entry(kind: u8, input: &[u8]) -> String {
    let Some(Some(entries)) = of_kind(kind, Entries(input)) else {
        return NO.into();
    };
    let (mut count, mut all) = (0, Vec::new());
    gather(&entries, &mut Vec::new(), &mut count, &mut all);
    format!("ok {count} {:016x}", checksum(&all))
}

struct Find<'a>(&'a [TLV]);

impl Ask for Find<'_> {
    type Answer = Option<(usize, Vec<u8>)>;
    fn ask<T: Shown>(self) -> Option<(usize, Vec<u8>)> {
        let record = T::find(self.0)?;
        // The original doesn't say which one: the shortest start of the list in which it finds any.
        let (mut without, mut with) = (0, self.0.len());
        while with - without > 1 {
            let middle = (without + with) / 2;
            match T::find(&self.0[..middle]) {
                Some(_) => with = middle,
                None => without = middle,
            }
        }
        Some((with - 1, record.serialize()))
    }
}

struct FindAll<'a>(&'a [TLV]);

impl Ask for FindAll<'_> {
    type Answer = String;
    fn ask<T: Shown>(self) -> String {
        let (mut count, mut all) = (0, Vec::new());
        for record in T::find_all(self.0) {
            let bytes = record.serialize();
            count += 1;
            all.extend((bytes.len() as u16).to_be_bytes());
            all.extend(bytes);
        }
        format!("ok {count} {:016x}", checksum(&all))
    }
}

/// The place in the list, and how many were looked at up to it.
fn found(place: usize, value: &[u8]) -> String {
    format!("ok {place} {} {}", place + 1, shown(value))
}

/// Find over a list of records that the command gives. The original has no such list: it gets the TLVs that lie inside
/// the payload, each with the record's type and the value behind its offset, and its answer is taken back to the place
/// in the list.
fn find_listed(kind: u8, records: &str, payload: &[u8]) -> Result<String, Bad> {
    let (mut tlvs, mut places) = (Vec::new(), Vec::new());
    for (place, record) in records.split(',').filter(|text| *text != "-").enumerate() {
        let mut parts = record.split(':');
        let tlv_type = number(&mut parts)?;
        let (offset, length): (usize, usize) = (number(&mut parts)?, number(&mut parts)?);
        if let Some(value) = payload.get(offset + 3..offset + 3 + length) {
            tlvs.push(TLV { tlv_type, tlv_length: length as u16, tlv_value: Some(value.to_vec()) });
            places.push(place);
        }
    }
    Ok(match of_kind(kind, Find(&tlvs)) {
        None | Some(None) => NO.into(),
        Some(Some((index, value))) => found(places[index], &value),
    })
}

fn tlvs_of(payload: &[u8]) -> Option<Vec<TLV>> {
    Some(walk(payload).ok()?.into_iter().map(|(_, tlv)| tlv).collect())
}

fn push(table: &mut Table, fields: &mut Fields) -> Result<String, Bad> {
    let sender = MacAddr::from(six(word(fields)?)?);
    let message_id = number(fields)?;
    let message_version = number(fields)?;
    let message_type = number(fields)?;
    let fragment = number(fields)?;
    let flags = number(fields)?;
    let time = number(fields)?;
    let payload = bytes(word(fields)?)?;
    let cmdu = CMDU { message_version, reserved: 0, message_type, message_id, fragment, flags, payload };
    Ok(table.push(sender, cmdu, time))
}

fn answer(table: &mut Table, line: &str) -> Result<String, Bad> {
    if line.len() > LONGEST_LINE {
        return Err(Bad);
    }
    let mut fields = line.split(' ');
    let known = |kind: Option<String>| kind.unwrap_or(NO.into());
    Ok(match word(&mut fields)? {
        "t" => read_tlv(&bytes(word(&mut fields)?)?),
        "w" => {
            let (tlv_type, room) = (number(&mut fields)?, number(&mut fields)?);
            write_tlv(tlv_type, room, bytes(word(&mut fields)?)?)
        }
        "h" => header(&bytes(word(&mut fields)?)?),
        "k" => walked(&bytes(word(&mut fields)?)?),
        "g" => get_tlvs(&bytes(word(&mut fields)?)?),
        "Q" => {
            let room = number(&mut fields)?;
            cut(&bytes(word(&mut fields)?)?, room)
        }
        "r" => {
            let kind = number(&mut fields)?;
            known(of_kind(kind, Read(&bytes(word(&mut fields)?)?)))
        }
        "s" => {
            let (kind, room) = (number(&mut fields)?, number(&mut fields)?);
            known(of_kind(kind, Rewrite(&bytes(word(&mut fields)?)?, room)))
        }
        "f" => {
            let (kind, room) = (number(&mut fields)?, number(&mut fields)?);
            written(from_fields(kind, &mut fields)?, room)
        }
        "e" => {
            let (kind, numbers) = (number(&mut fields)?, word(&mut fields)?);
            entry(kind, numbers, &bytes(word(&mut fields)?)?)?
        }
        "a" => {
            let kind = number(&mut fields)?;
            every_entry(kind, &bytes(word(&mut fields)?)?)
        }
        "u" => {
            let (kind, which) = (number(&mut fields)?, number(&mut fields)?);
            text(kind, false, which, &bytes(word(&mut fields)?)?)
        }
        "U" => {
            let which = number(&mut fields)?;
            text(0xd4, true, which, &bytes(word(&mut fields)?)?)
        }
        "m" => {
            let kind = number(&mut fields)?;
            of_kind(kind, Report(&bytes(word(&mut fields)?)?)).flatten().unwrap_or(NO.into())
        }
        "d" => {
            let kind = number(&mut fields)?;
            match tlvs_of(&bytes(word(&mut fields)?)?) {
                None => NO.into(),
                Some(tlvs) => match of_kind(kind, Find(&tlvs)) {
                    None | Some(None) => NO.into(),
                    Some(Some((index, value))) => found(index, &value),
                },
            }
        }
        "l" => {
            let (kind, records) = (number(&mut fields)?, word(&mut fields)?);
            find_listed(kind, records, &bytes(word(&mut fields)?)?)?
        }
        "D" => {
            let kind = number(&mut fields)?;
            match tlvs_of(&bytes(word(&mut fields)?)?) {
                None => NO.into(),
                Some(tlvs) => known(of_kind(kind, FindAll(&tlvs))),
            }
        }
        "z" => {
            table.fresh();
            "ok".into()
        }
        "p" => push(table, &mut fields)?,
        "v" => table.sweep(number(&mut fields)?),
        "c" => table.contents(),
        _ => return Err(Bad),
    })
}

fn main() {
    tracing::subscriber::set_global_default(table::Log).expect("no other subscriber");
    std::panic::set_hook(Box::new(|_| ()));
    if let Some(level) = std::env::args().nth(1) {
        kinds::LEVEL.store(level.parse().expect("a level from 0 to 14"), std::sync::atomic::Ordering::Relaxed);
    }
    let mut table = Table::new();
    let mut out = std::io::BufWriter::with_capacity(1 << 16, std::io::stdout().lock());
    for line in std::io::stdin().lock().lines() {
        let line = line.expect("commands are ASCII");
        let said = catch_unwind(AssertUnwindSafe(|| answer(&mut table, &line)));
        let text = match said {
            Ok(Ok(text)) => text,
            Ok(Err(Bad)) => "bad".into(),
            Err(_) => "panic".into(),
        };
        if writeln!(out, "{text}").is_err() {
            return;
        }
    }
}

//! Each kind of rule K2: its fields and entries in the words of ../COMMANDS.md, read, written and found by the
//! original's own code.

use crate::words::{Bad, Fields, number, shown, six, word};
use driver::cmdu_codec::*;
use driver::tlv_cmdu_codec::{TLV, TLVTrait};
use pnet::datalink::MacAddr;
use std::sync::atomic::{AtomicU8, Ordering};

/// An entry of a list: its bytes, the lists under it included, and the entries of the level below.
pub struct Entry {
    pub bytes: Vec<u8>,
    pub below: Vec<Entry>,
}

fn leaf(bytes: Vec<u8>) -> Entry {
    Entry { bytes, below: Vec::new() }
}

fn leaves(bytes: &[u8]) -> Vec<Entry> {
    bytes.iter().map(|byte| leaf(vec![*byte])).collect()
}

/// What a kind shows. The bytes of an entry come from the original's writer: that of the entry where it is public, else
/// that of a value that holds this entry alone, without what stands in front of it.
pub trait Shown: TLVTrait {
    fn fields(&self) -> String;

    fn entries(&self) -> Vec<Entry> {
        Vec::new()
    }

    /// Of a kind that holds text, its texts and those of its radios.
    fn texts(&self) -> Option<Texts<'_>> {
        None
    }

    /// Of link metrics, their pairs.
    fn pairs(&self) -> Option<Pairs> {
        None
    }
}

/// Texts as the original keeps them.
pub struct Texts<'a> {
    pub own: Vec<&'a String>,
    pub radios: Vec<&'a String>,
}

/// The fields of pairs that a report is over, as the original reads them: errors and packets, and the signal strengths
/// of what was received.
pub struct Pairs {
    pub figures: Vec<(u32, u32)>,
    pub signals: Option<Vec<i8>>,
}

fn mac(address: MacAddr) -> String {
    shown(&address.octets())
}

/// A code with a name, or `r` and the code.
fn coded(code: u8, reserved: bool) -> String {
    format!("{}{code}", if reserved { "r" } else { "" })
}

impl Shown for EndOfMessage {
    fn fields(&self) -> String {
        String::new()
    }
}

impl Shown for AlMacAddress {
    fn fields(&self) -> String {
        mac(self.al_mac_address)
    }
}

impl Shown for MacAddress {
    fn fields(&self) -> String {
        mac(self.mac_address)
    }
}

impl Shown for SearchedRole {
    fn fields(&self) -> String {
        self.role.to_string()
    }
}

impl Shown for SupportedRole {
    fn fields(&self) -> String {
        self.role.to_string()
    }
}

impl Shown for SupportedFreqBand {
    fn fields(&self) -> String {
        coded(self.to_u8(), matches!(self, Self::Reserved(_)))
    }
}

impl Shown for Ieee1905ProfileVersion {
    fn fields(&self) -> String {
        coded(self.to_u8(), matches!(self, Self::Reserved(_)))
    }
}

impl Shown for LinkMetricResultCode {
    fn fields(&self) -> String {
        match self {
            Self::InvalidNeighbor => "0".into(),
            Self::UnknownCode(code) => coded(*code, true),
        }
    }
}

impl Shown for LinkMetricQuery {
    fn fields(&self) -> String {
        let address = self.neighbor_mac.map_or("-".into(), mac);
        format!("{} {address} {}", self.neighbor_type, self.requested_metrics)
    }
}

impl Shown for ClientAssociation {
    fn fields(&self) -> String {
        let joined = self.association_state == AssociationState::JoinedBss;
        format!("{} {} {}", mac(self.sta_mac), mac(self.ap_mac), joined as u8)
    }
}

impl Shown for MultiApProfile {
    fn fields(&self) -> String {
        coded(self.to_u8(), matches!(self, Self::Reserved(_)))
    }
}

impl Shown for Profile2ApCapability {
    fn fields(&self) -> String {
        format!(
            "{} {} {} {} {} {} {} {}",
            self.max_prioritization_rules,
            self.reserved,
            self.byte_counter_units.to_u8(),
            self.prioritization as u8,
            self.dpp_onboarding as u8,
            self.traffic_separation as u8,
            self.flags_reserved,
            self.max_vids
        )
    }
}

/// A list kind's fields: what stands in front of the list, and the number of its entries.
fn list(front: &[u8], entries: usize) -> String {
    format!("{} {entries}", shown(front))
}

impl Shown for SupportedService {
    fn fields(&self) -> String {
        list(&[], self.services.len())
    }

    fn entries(&self) -> Vec<Entry> {
        self.services.iter().map(|s| leaf(vec![s.to_u8()])).collect()
    }
}

impl Shown for NonIeee1905NeighborDevices {
    fn fields(&self) -> String {
        list(&self.local_mac_address.octets(), self.neighborhood_list.len())
    }

    fn entries(&self) -> Vec<Entry> {
        self.neighborhood_list.iter().map(|m| leaf(m.octets().to_vec())).collect()
    }
}

impl Shown for Ieee1905NeighborDevice {
    fn fields(&self) -> String {
        list(&self.local_mac_address.octets(), self.neighborhood_list.len())
    }

    fn entries(&self) -> Vec<Entry> {
        self.neighborhood_list.iter().map(|n| leaf(n.serialize())).collect()
    }
}

impl Shown for Ipv4 {
    fn fields(&self) -> String {
        list(&[], self.entries.len())
    }

    fn entries(&self) -> Vec<Entry> {
        let alone = |entry: Ipv4Entry| Ipv4 { entries: vec![entry] }.serialize().split_off(1);
        let entry = |e: &Ipv4Entry| Entry {
            bytes: alone(e.clone()),
            below: e
                .addresses
                .iter()
                .map(|a| leaf(alone(Ipv4Entry { mac: e.mac, addresses: vec![a.clone()] }).split_off(7)))
                .collect(),
        };
        self.entries.iter().map(entry).collect()
    }
}

impl Shown for Ipv6 {
    fn fields(&self) -> String {
        list(&[], self.entries.len())
    }

    fn entries(&self) -> Vec<Entry> {
        let alone = |entry: Ipv6Entry| Ipv6 { entries: vec![entry] }.serialize().split_off(1);
        let entry = |e: &Ipv6Entry| Entry {
            bytes: alone(e.clone()),
            below: e
                .routable_addresses
                .iter()
                .map(|a| {
                    let one = Ipv6Entry { routable_addresses: vec![a.clone()], ..e.clone() };
                    leaf(alone(one).split_off(23))
                })
                .collect(),
        };
        self.entries.iter().map(entry).collect()
    }
}

impl Shown for DeviceBridgingCapability {
    fn fields(&self) -> String {
        list(&[], self.bridging_tuples_list.len())
    }

    fn entries(&self) -> Vec<Entry> {
        let entry = |tuple: &BridgingTuple| Entry {
            bytes: tuple.serialize(),
            below: tuple.bridging_mac_list.iter().map(|m| leaf(m.octets().to_vec())).collect(),
        };
        self.bridging_tuples_list.iter().map(entry).collect()
    }
}

impl Shown for ApOperationalBss {
    fn fields(&self) -> String {
        list(&[], self.radios.len())
    }

    fn entries(&self) -> Vec<Entry> {
        let alone = |radio: ApOperationalBssRadio| ApOperationalBss { radios: vec![radio] }.serialize().split_off(1);
        let entry = |radio: &ApOperationalBssRadio| Entry {
            bytes: alone(radio.clone()),
            below: radio
                .bss
                .iter()
                .map(|bss| {
                    let one = ApOperationalBssRadio { bss: vec![bss.clone()], ..radio.clone() };
                    Entry { bytes: alone(one).split_off(7), below: leaves(&bss.ssid) }
                })
                .collect(),
        };
        self.radios.iter().map(entry).collect()
    }
}

impl Shown for BssConfigurationReport {
    fn fields(&self) -> String {
        list(&[], self.radios.len())
    }

    fn entries(&self) -> Vec<Entry> {
        let alone = |radio: BssConfigurationReportRadio| {
            BssConfigurationReport { radios: vec![radio] }.serialize().split_off(1)
        };
        let entry = |radio: &BssConfigurationReportRadio| Entry {
            bytes: alone(radio.clone()),
            below: radio
                .bss
                .iter()
                .map(|bss| {
                    let one = BssConfigurationReportRadio { bss: vec![bss.clone()], ..radio.clone() };
                    Entry { bytes: alone(one).split_off(7), below: leaves(&bss.ssid) }
                })
                .collect(),
        };
        self.radios.iter().map(entry).collect()
    }
}

// Kinds of later requests: 2026-04 (texts), 2026-08 (link metrics).

impl Shown for DeviceIdentificationType {
    fn fields(&self) -> String {
        let texts = [&self.friendly_name, &self.manufacturer_name, &self.manufacturer_model];
        texts.map(|text| shown(text.as_bytes())).join(" ")
    }

    fn texts(&self) -> Option<Texts<'_>> {
        Some(Texts {
            own: vec![&self.friendly_name, &self.manufacturer_name, &self.manufacturer_model],
            radios: Vec::new(),
        })
    }
}

impl Shown for ControlUrl {
    fn fields(&self) -> String {
        shown(self.url.as_bytes())
    }

    fn texts(&self) -> Option<Texts<'_>> {
        Some(Texts { own: vec![&self.url], radios: Vec::new() })
    }
}

impl Shown for DeviceInventory {
    fn fields(&self) -> String {
        let texts = [&self.serial_number, &self.software_version, &self.execution_env];
        format!("{} {}", texts.map(|text| shown(text.as_bytes())).join(" "), self.radios.len())
    }

    fn entries(&self) -> Vec<Entry> {
        let alone = |radio: &DeviceInventoryRadio| DeviceInventory {
            serial_number: String::new(),
            software_version: String::new(),
            execution_env: String::new(),
            radios: vec![DeviceInventoryRadio {
                radio_uid: radio.radio_uid,
                chipset_vendor: radio.chipset_vendor.clone(),
            }],
        };
        self.radios.iter().map(|radio| leaf(alone(radio).serialize().split_off(4))).collect()
    }

    fn texts(&self) -> Option<Texts<'_>> {
        Some(Texts {
            own: vec![&self.serial_number, &self.software_version, &self.execution_env],
            radios: self.radios.iter().map(|radio| &radio.chipset_vendor).collect(),
        })
    }
}

impl Shown for LinkMetricTx {
    fn fields(&self) -> String {
        let front = [self.source_al_mac.octets(), self.neighbour_al_mac.octets()].concat();
        list(&front, self.interface_pairs.len())
    }

    fn entries(&self) -> Vec<Entry> {
        self.interface_pairs.iter().map(|pair| leaf(pair.serialize())).collect()
    }

    fn pairs(&self) -> Option<Pairs> {
        let figures = self.interface_pairs.iter().map(|pair| (pair.packet_errors, pair.transmitted_packets)).collect();
        Some(Pairs { figures, signals: None })
    }
}

impl Shown for LinkMetricRx {
    fn fields(&self) -> String {
        let front = [self.source_al_mac.octets(), self.neighbour_al_mac.octets()].concat();
        list(&front, self.interface_pairs.len())
    }

    fn entries(&self) -> Vec<Entry> {
        self.interface_pairs.iter().map(|pair| leaf(pair.serialize())).collect()
    }

    fn pairs(&self) -> Option<Pairs> {
        let figures = self.interface_pairs.iter().map(|pair| (pair.packet_errors, pair.packets_received)).collect();
        Some(Pairs { figures, signals: Some(self.interface_pairs.iter().map(|pair| pair.rssi).collect()) })
    }
}

/// The last request that counts; it decides which kinds there are. Without one that is named, the one that `model.py`
/// takes.
pub static LEVEL: AtomicU8 = AtomicU8::new(8);

/// What is asked of a kind; one match on the code for all of it.
pub trait Ask {
    type Answer;
    fn ask<T: Shown>(self) -> Self::Answer;
}

/// `None`: the code isn't among the kinds.
pub fn of_kind<A: Ask>(code: u8, ask: A) -> Option<A::Answer> {
    let level = LEVEL.load(Ordering::Relaxed);
    Some(match code {
        9 if level >= 8 => ask.ask::<LinkMetricTx>(),
        10 if level >= 8 => ask.ask::<LinkMetricRx>(),
        21 if level >= 4 => ask.ask::<DeviceIdentificationType>(),
        22 if level >= 4 => ask.ask::<ControlUrl>(),
        0xd4 if level >= 4 => ask.ask::<DeviceInventory>(),
        0 => ask.ask::<EndOfMessage>(),
        1 => ask.ask::<AlMacAddress>(),
        2 => ask.ask::<MacAddress>(),
        4 => ask.ask::<DeviceBridgingCapability>(),
        6 => ask.ask::<NonIeee1905NeighborDevices>(),
        7 => ask.ask::<Ieee1905NeighborDevice>(),
        8 => ask.ask::<LinkMetricQuery>(),
        12 => ask.ask::<LinkMetricResultCode>(),
        13 => ask.ask::<SearchedRole>(),
        15 => ask.ask::<SupportedRole>(),
        16 => ask.ask::<SupportedFreqBand>(),
        23 => ask.ask::<Ipv4>(),
        24 => ask.ask::<Ipv6>(),
        26 => ask.ask::<Ieee1905ProfileVersion>(),
        0x80 => ask.ask::<SupportedService>(),
        0x83 => ask.ask::<ApOperationalBss>(),
        0x92 => ask.ask::<ClientAssociation>(),
        0xb3 => ask.ask::<MultiApProfile>(),
        0xb4 => ask.ask::<Profile2ApCapability>(),
        0xb7 => ask.ask::<BssConfigurationReport>(),
        _ => return None,
    })
}

fn code_of(text: &str) -> Result<(bool, u8), Bad> {
    let reserved = text.starts_with('r');
    let digits = text.strip_prefix('r').unwrap_or(text);
    Ok((reserved, digits.parse().map_err(|_| Bad)?))
}

fn address(fields: &mut Fields) -> Result<MacAddr, Bad> {
    Ok(MacAddr::from(six(word(fields)?)?))
}

fn flag(fields: &mut Fields) -> Result<bool, Bad> {
    Ok(number::<u8>(fields)? != 0)
}

/// A record kind's TLV from its fields. A named code that has no name, as band 7, can't be made: `Err`.
pub fn from_fields(code: u8, fields: &mut Fields) -> Result<TLV, Bad> {
    let named = |(reserved, code): (bool, u8), names: std::ops::Range<u8>| {
        if reserved || names.contains(&code) { Ok((reserved, code)) } else { Err(Bad) }
    };
    Ok(match code {
        0 => EndOfMessage.into(),
        1 => AlMacAddress { al_mac_address: address(fields)? }.into(),
        2 => MacAddress { mac_address: address(fields)? }.into(),
        8 => {
            let neighbor_type = number(fields)?;
            let neighbor_mac = match word(fields)? {
                "-" => None,
                text => Some(MacAddr::from(six(text)?)),
            };
            let requested_metrics = number(fields)?;
            LinkMetricQuery { neighbor_type, neighbor_mac, requested_metrics }.into()
        }
        12 => match named(code_of(word(fields)?)?, 0..1)? {
            (true, code) => LinkMetricResultCode::UnknownCode(code).into(),
            (false, _) => LinkMetricResultCode::InvalidNeighbor.into(),
        },
        13 => SearchedRole { role: number(fields)? }.into(),
        15 => SupportedRole { role: number(fields)? }.into(),
        16 => match named(code_of(word(fields)?)?, 0..3)? {
            (true, code) => SupportedFreqBand::Reserved(code).into(),
            (false, code) => SupportedFreqBand::from_u8(code).into(),
        },
        26 => match named(code_of(word(fields)?)?, 0..2)? {
            (true, code) => Ieee1905ProfileVersion::Reserved(code).into(),
            (false, code) => Ieee1905ProfileVersion::from_u8(code).into(),
        },
        0x92 => {
            let (sta_mac, ap_mac) = (address(fields)?, address(fields)?);
            let association_state = match flag(fields)? {
                true => AssociationState::JoinedBss,
                false => AssociationState::LeftBss,
            };
            ClientAssociation { sta_mac, ap_mac, association_state }.into()
        }
        0xb3 => match named(code_of(word(fields)?)?, 1..4)? {
            (true, code) => MultiApProfile::Reserved(code).into(),
            (false, code) => MultiApProfile::from_u8(code).ok_or(Bad)?.into(),
        },
        0xb4 => Profile2ApCapability {
            max_prioritization_rules: number(fields)?,
            reserved: number(fields)?,
            byte_counter_units: ByteCounterUnits::from_u8(number(fields)?),
            prioritization: flag(fields)?,
            dpp_onboarding: flag(fields)?,
            traffic_separation: flag(fields)?,
            flags_reserved: number(fields)?,
            max_vids: number(fields)?,
        }
        .into(),
        _ => return Err(Bad),
    })
}

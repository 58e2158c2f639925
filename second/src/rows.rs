//! The rows of a payload, as docs/listing.md has them. Pairs are read by the strict choice.

use crate::device_services::{self, MAX_CIDS};
use crate::packet_service::{self, Form};
use crate::pair::{Range, ZeroSize};
use crate::payload::Kind;
use crate::pin;
use crate::refusal::Refusal;
use crate::registration;
use crate::signal_state::{self, RsrpSnr};
use crate::version::{Version, MBIM};
use crate::version_info;
use std::fmt::{self, Display, Write};

/// Rows of text that all begin alike.
pub struct Table<'a> {
    pub start: &'a str,
    pub text: &'a mut String,
}

impl Table<'_> {
    pub fn row(&mut self, field: impl Display, value: impl Display) {
        let _ = writeln!(self.text, "{}{field}\t{value}", self.start);
    }

    /// A row whose value is the refusal's number, with its place.
    pub fn refused(&mut self, field: &str, refusal: Refusal) {
        self.row(field, format_args!("{}\t{}", refusal.number, refusal.place));
    }
}

/// Bytes in lower case hexadecimal.
pub struct Hex<'a>(pub &'a [u8]);

impl Display for Hex<'_> {
    fn fmt(&self, formatter: &mut fmt::Formatter) -> fmt::Result {
        self.0.iter().try_for_each(|byte| write!(formatter, "{byte:02x}"))
    }
}

/// The word of a kind.
pub const fn kind_word(kind: Kind) -> &'static str {
    match kind {
        Kind::RegisterState => "registration",
        Kind::PacketService => "packet_service",
        Kind::SignalState => "signal_state",
        Kind::DeviceServices => "device_services",
        Kind::Version => "version",
        Kind::SetPin => "set_pin",
        Kind::PinInfo => "pin_info",
    }
}

pub const fn version_word(version: Version) -> &'static str {
    match version {
        Version::V1 => "1.00",
        Version::V2 => "2.00",
    }
}

/// Lists a payload. A refused one has no row.
pub fn list(
    kind: Kind,
    version: Version,
    payload: &[u8],
    table: &mut Table,
) -> Result<(), Refusal> {
    match kind {
        Kind::RegisterState => list_registration(version, payload, table),
        Kind::PacketService => list_packet_service(version, payload, table),
        Kind::SignalState => list_signal_state(version, payload, table),
        Kind::DeviceServices => list_device_services(payload, table),
        Kind::Version => list_version(payload, table),
        Kind::SetPin => list_set_pin(payload, table),
        Kind::PinInfo => list_pin_info(payload, table),
    }
}

fn list_version(payload: &[u8], table: &mut Table) -> Result<(), Refusal> {
    let version = version_info::read(payload)?;
    table.row("bcdMBIMVersion", MBIM);
    table.row("bcdMBIMExtendedVersion", version.bcd());
    Ok(())
}

fn list_packet_service(version: Version, payload: &[u8], table: &mut Table) -> Result<(), Refusal> {
    let record = packet_service::read(version, payload)?;
    table.row("NwError", record.nw_error);
    table.row("PacketServiceState", record.packet_service_state);
    match record.form {
        Form::V1 { highest_available_data_class: class } => {
            table.row("HighestAvailableDataClass", class);
        }
        Form::V2 { current_data_class: class, .. } => table.row("CurrentDataClass", class),
    }
    table.row("UplinkSpeed", record.uplink_speed);
    table.row("DownlinkSpeed", record.downlink_speed);
    if let Form::V2 { frequency_range, .. } = record.form {
        table.row("FrequencyRange", frequency_range);
    }
    Ok(())
}

fn list_registration(version: Version, payload: &[u8], table: &mut Table) -> Result<(), Refusal> {
    let record = registration::read_with(version, ZeroSize::Strict, payload)?;
    let text = |range: Range| Hex(range.of(payload));
    table.row("NwError", record.nw_error);
    table.row("RegisterState", record.register_state);
    table.row("RegisterMode", record.register_mode);
    table.row("AvailableDataClass", record.available_data_class);
    table.row("CellularClass", record.cellular_class);
    table.row("ProviderId", text(record.provider_id));
    table.row("ProviderName", text(record.provider_name));
    table.row("RoamingText", text(record.roaming_text));
    table.row("RegistrationFlag", record.registration_flag);
    if let Some(class) = record.preferred_data_class {
        table.row("PreferredDataClass", class);
    }
    Ok(())
}

fn list_signal_state(version: Version, payload: &[u8], table: &mut Table) -> Result<(), Refusal> {
    let record = signal_state::read_with(version, ZeroSize::Strict, payload)?;
    table.row("Rssi", record.rssi);
    table.row("ErrorRate", record.error_rate);
    table.row("SignalStrengthInterval", record.signal_strength_interval);
    table.row("RssiThreshold", record.rssi_threshold);
    table.row("ErrorRateThreshold", record.error_rate_threshold);
    for (i, entry) in record.rsrp_snr.iter().flat_map(|list| list.iter()).enumerate() {
        list_entry(i, &entry, table);
    }
    Ok(())
}

fn list_entry(i: usize, entry: &RsrpSnr, table: &mut Table) {
    table.row(format_args!("RSRP[{i}]"), entry.rsrp);
    table.row(format_args!("SNR[{i}]"), entry.snr);
    table.row(format_args!("RSRPThreshold[{i}]"), entry.rsrp_threshold);
    table.row(format_args!("SNRThreshold[{i}]"), entry.snr_threshold);
    table.row(format_args!("SystemType[{i}]"), entry.system_type);
}

fn list_device_services(payload: &[u8], table: &mut Table) -> Result<(), Refusal> {
    let services = device_services::read_with(ZeroSize::Strict, payload)?;
    table.row("DeviceServicesCount", services.count());
    table.row("MaxDssSessions", services.max_dss_sessions());
    let mut cids = [0; MAX_CIDS];
    for i in 0..services.count() {
        let element =
            device_services::element_with(ZeroSize::Strict, payload, i as u32, &mut cids)?;
        let Some(element) = element else { continue };
        table.row(format_args!("DeviceServiceId[{i}]"), Hex(&element.device_service_id));
        table.row(format_args!("DssPayload[{i}]"), element.dss_payload);
        table.row(format_args!("MaxDssInstances[{i}]"), element.max_dss_instances);
        table.row(format_args!("CidCount[{i}]"), element.cid_count);
        for (j, cid) in cids.iter().take(element.cid_count).enumerate() {
            table.row(format_args!("Cid[{i}][{j}]"), cid);
        }
    }
    Ok(())
}

fn list_set_pin(payload: &[u8], table: &mut Table) -> Result<(), Refusal> {
    let record = pin::read_set_with(ZeroSize::Strict, payload)?;
    table.row("PinType", record.pin_type);
    table.row("PinOperation", record.pin_operation);
    table.row("Pin", Hex(record.pin.of(payload)));
    table.row("NewPin", Hex(record.new_pin.of(payload)));
    Ok(())
}

fn list_pin_info(payload: &[u8], table: &mut Table) -> Result<(), Refusal> {
    let record = pin::read_info(payload)?;
    table.row("PinType", record.pin_type);
    table.row("PinState", record.pin_state);
    table.row("RemainingAttempts", record.remaining_attempts);
    Ok(())
}

#[cfg(test)]
mod tests {
    use super::*;
    use crate::payload::{BASIC_CONNECT, EXTENSIONS};
    use crate::signal_state::SignalState;

    fn listed(kind: Kind, version: Version, payload: &[u8]) -> Result<String, Refusal> {
        let mut text = String::new();
        let answer = list(kind, version, payload, &mut Table { start: "", text: &mut text });
        assert!(answer.is_ok() || text.is_empty());
        answer.map(|()| text.replace('\t', " ").replace('\n', ", "))
    }

    #[test]
    fn a_registration_at_both_versions() {
        let record = registration::Registration {
            nw_error: 1,
            register_state: 3,
            register_mode: 2,
            available_data_class: 0x28,
            cellular_class: 1,
            provider_id: b"0\x001\0".as_slice(),
            provider_name: &[],
            roaming_text: &[0xAB, 0xCD],
            registration_flag: 2,
            preferred_data_class: Some(0x40),
        };
        let mut out = [0; 60];
        assert_eq!(registration::write(&record, &mut out), Ok(60));
        let shared = "NwError 1, RegisterState 3, RegisterMode 2, AvailableDataClass 40, \
            CellularClass 1, ProviderId 30003100, ProviderName , RoamingText abcd, \
            RegistrationFlag 2, ";
        let kind = Kind::RegisterState;
        assert_eq!(listed(kind, Version::V1, &out), Ok(shared.to_string()));
        assert_eq!(listed(kind, Version::V2, &out), Ok(format!("{shared}PreferredDataClass 64, ")));
        out[28] = 60;
        assert_eq!(listed(kind, Version::V2, &out), Err(Refusal::new(18, 28)));
    }

    #[test]
    fn the_packet_case() {
        let payload = [
            0, 0, 0, 0, 2, 0, 0, 0, 0x40, 0, 0, 0, 0x80, 0xF0, 0xFA, 2, 0, 0, 0, 0, 0x80, 0xD1,
            0xF0, 8, 0, 0, 0, 0, 1, 0, 0, 0,
        ];
        let rows = "NwError 0, PacketServiceState 2, CurrentDataClass 64, \
            UplinkSpeed 50000000, DownlinkSpeed 150000000, FrequencyRange 1, ";
        let kind = Kind::PacketService;
        assert_eq!(listed(kind, Version::V2, &payload), Ok(rows.to_string()));
        assert_eq!(listed(kind, Version::V1, &payload), Err(Refusal::new(2, 32)));
    }

    #[test]
    fn signal_entries_are_numbered() {
        let entry =
            |rsrp| RsrpSnr { rsrp, snr: 128, rsrp_threshold: 1, snr_threshold: 2, system_type: 64 };
        let record = SignalState {
            rssi: 99,
            error_rate: 7,
            signal_strength_interval: 5,
            rssi_threshold: 6,
            error_rate_threshold: 8,
            rsrp_snr: Some(&[entry(0), entry(126)][..]),
        };
        let mut out = [0; 72];
        assert_eq!(signal_state::write(&record, &mut out), Ok(72));
        let fixed = "Rssi 99, ErrorRate 7, SignalStrengthInterval 5, RssiThreshold 6, \
            ErrorRateThreshold 8, ";
        let rows = "RSRP[0] 0, SNR[0] 128, RSRPThreshold[0] 1, SNRThreshold[0] 2, \
            SystemType[0] 64, RSRP[1] 126, SNR[1] 128, RSRPThreshold[1] 1, SNRThreshold[1] 2, \
            SystemType[1] 64, ";
        let kind = Kind::SignalState;
        assert_eq!(listed(kind, Version::V2, &out), Ok([fixed, rows].concat()));
        assert_eq!(listed(kind, Version::V1, &out[..20]), Ok(fixed.to_string()));
        out[24..28].fill(0);
        assert_eq!(listed(kind, Version::V2, &out), Err(Refusal::new(18, 20)));
    }

    #[test]
    fn services_with_their_cids() {
        let element = |device_service_id, cids| device_services::Element {
            device_service_id,
            dss_payload: 1,
            max_dss_instances: 2,
            cids,
        };
        let elements = [element(BASIC_CONNECT, &[]), element(EXTENSIONS, &[15, u32::MAX])];
        let mut out = [0; 88];
        assert_eq!(device_services::write(9, &elements, &mut out), Ok(88));
        let rows = "DeviceServicesCount 2, MaxDssSessions 9, \
            DeviceServiceId[0] a289cc33bcbb8b4fb6b0133ec2aae6df, DssPayload[0] 1, \
            MaxDssInstances[0] 2, CidCount[0] 0, \
            DeviceServiceId[1] 3d01dcc5fef54d050d3abef7058e9aaf, DssPayload[1] 1, \
            MaxDssInstances[1] 2, CidCount[1] 2, Cid[1][0] 15, Cid[1][1] 4294967295, ";
        for version in [Version::V1, Version::V2] {
            assert_eq!(listed(Kind::DeviceServices, version, &out), Ok(rows.to_string()));
        }
        out[20] = 0;
        assert_eq!(listed(Kind::DeviceServices, Version::V1, &out), Err(Refusal::new(18, 16)));
    }
}

//! The payloads but those of PINs, decibels and bars.

use crate::c::{self, Refusal};
use crate::{
    DeviceService, DeviceServices, PacketService, Registration, RsrpSnr, ServiceElement, ServiceId,
    ServiceList, SignalState, VersionInfo,
};

impl VersionInfo {
    pub fn read(payload: &[u8]) -> Result<VersionInfo, Refusal> {
        let answer = c::version_info_read(payload);
        answer.refusal.or(answer.info)
    }

    /// Gives how many bytes were written at the front of the output, as every writer does.
    pub fn write(&self, out: &mut [u8]) -> Result<usize, Refusal> {
        written(c::version_info_write(*self, out))
    }
}

impl PacketService {
    pub fn read(version: u16, payload: &[u8]) -> Result<PacketService, Refusal> {
        let answer = c::packet_service_read(version, payload);
        answer.refusal.or(answer.info)
    }

    pub fn write(&self, out: &mut [u8]) -> Result<usize, Refusal> {
        written(c::packet_service_write(*self, out))
    }
}

/// What an offset/size pair of size 0 is to a reader: the choice that `.._with` takes. The readers
/// without it, and both ends of the handshake, read by the default, a PIN entry is read strictly.
#[repr(u32)]
#[derive(Clone, Copy, Debug, Default, PartialEq, Eq)]
pub enum ZeroSize {
    /// Absent, whatever its offset. For modems in the field, of which some write an offset beside it.
    #[default]
    Absent = 0,
    /// Absent with offset 0; with any other, refused by
    /// [`OFFSET_WITH_ZERO_SIZE`](crate::refusals::OFFSET_WITH_ZERO_SIZE). For judging a payload by the
    /// standard's letter.
    Strict = 1,
}

/// The texts of a registration, UTF-16LE, not judged beyond their size. An absent one is empty.
#[derive(Clone, Copy, Debug, Default, PartialEq, Eq)]
pub struct Texts<'a> {
    pub provider_id: &'a [u8],
    pub provider_name: &'a [u8],
    pub roaming_text: &'a [u8],
}

impl Registration {
    pub fn read(version: u16, payload: &[u8]) -> Result<(Registration, Texts<'_>), Refusal> {
        with_texts(c::registration_read(version, payload), payload)
    }

    /// The same by a choice.
    pub fn read_with(
        version: u16,
        zero_size: ZeroSize,
        payload: &[u8],
    ) -> Result<(Registration, Texts<'_>), Refusal> {
        with_texts(c::registration_read_with(version, zero_size as u32, payload), payload)
    }

    pub fn write(&self, texts: &Texts, out: &mut [u8]) -> Result<usize, Refusal> {
        let Texts { provider_id, provider_name, roaming_text } = *texts;
        written(c::registration_write(*self, provider_id, provider_name, roaming_text, out))
    }
}

impl SignalState {
    pub fn read(version: u16, payload: &[u8]) -> Result<SignalState, Refusal> {
        signal_state(c::signal_state_read(version, payload))
    }

    /// The same by a choice.
    pub fn read_with(
        version: u16,
        zero_size: ZeroSize,
        payload: &[u8],
    ) -> Result<SignalState, Refusal> {
        signal_state(c::signal_state_read_with(version, zero_size as u32, payload))
    }

    pub fn write(&self, out: &mut [u8]) -> Result<usize, Refusal> {
        written(c::signal_state_write(*self, out))
    }

    /// The entries that count.
    pub fn entries(&self) -> &[RsrpSnr] {
        &self.entries[..self.entries.len().min(self.count as usize)]
    }
}

/// Where a CID stands in a list: the number of its element and its own in that, both from 0.
#[derive(Clone, Copy, Debug, PartialEq, Eq)]
pub struct Position {
    pub element_number: u32,
    pub cid_number: u32,
}

/// Each `.._with` is the one before it by a choice. Every reader but `ask` judges the whole list first.
impl DeviceServices {
    pub fn read(payload: &[u8]) -> Result<DeviceServices, Refusal> {
        head(c::device_services_read(payload))
    }

    pub fn read_with(zero_size: ZeroSize, payload: &[u8]) -> Result<DeviceServices, Refusal> {
        head(c::device_services_read_with(zero_size as u32, payload))
    }

    /// The element with this number, from 0; its CIDs go to the front of the list.
    pub fn element(
        payload: &[u8],
        number: u32,
        cids: &mut [u32],
    ) -> Result<Option<DeviceService>, Refusal> {
        shown(c::device_services_element(payload, number, cids))
    }

    pub fn element_with(
        zero_size: ZeroSize,
        payload: &[u8],
        number: u32,
        cids: &mut [u32],
    ) -> Result<Option<DeviceService>, Refusal> {
        shown(c::device_services_element_with(zero_size as u32, payload, number, cids))
    }

    /// The first element of the service; its CIDs go to the front of the list.
    pub fn cids(
        payload: &[u8],
        service: ServiceId,
        cids: &mut [u32],
    ) -> Result<Option<DeviceService>, Refusal> {
        shown(c::device_services_cids(payload, service, cids))
    }

    pub fn cids_with(
        zero_size: ZeroSize,
        payload: &[u8],
        service: ServiceId,
        cids: &mut [u32],
    ) -> Result<Option<DeviceService>, Refusal> {
        shown(c::device_services_cids_with(zero_size as u32, payload, service, cids))
    }

    /// All elements, each as the seven numbers of a `DeviceService`, and all CIDs, element by element, at
    /// the fronts of the lists: how many of each.
    pub fn all(
        payload: &[u8],
        fields: &mut [u32],
        cids: &mut [u32],
    ) -> Result<(u32, u64), Refusal> {
        counted(c::device_services_all(payload, fields, cids))
    }

    pub fn all_with(
        zero_size: ZeroSize,
        payload: &[u8],
        fields: &mut [u32],
        cids: &mut [u32],
    ) -> Result<(u32, u64), Refusal> {
        counted(c::device_services_all_with(zero_size as u32, payload, fields, cids))
    }

    /// Writes the lists that `all` fills: seven numbers for each element, and all CIDs, element by element.
    pub fn write_all(
        max_dss_sessions: u32,
        fields: &[u32],
        cids: &[u32],
        out: &mut [u8],
    ) -> Result<usize, Refusal> {
        written(c::device_services_write_all(max_dss_sessions, fields, cids, out))
    }

    /// Whether any element of the service holds the CID. The one to call where the whole list must be good:
    /// one that you serve or keep.
    pub fn is_listed(payload: &[u8], service: ServiceId, cid: u32) -> Result<bool, Refusal> {
        listed(c::device_services_listed(payload, service, cid))
    }

    pub fn is_listed_with(
        zero_size: ZeroSize,
        payload: &[u8],
        service: ServiceId,
        cid: u32,
    ) -> Result<bool, Refusal> {
        listed(c::device_services_listed_with(zero_size as u32, payload, service, cid))
    }

    /// Where the service and the CID stand first; none where they are not listed. The one to call at
    /// start-up, and wherever one fact is wanted of a list that was received: each element is judged in full
    /// before its CIDs count, and those behind the match are not looked at, so that a list with a fault there
    /// has its answer.
    pub fn ask(payload: &[u8], service: ServiceId, cid: u32) -> Result<Option<Position>, Refusal> {
        position(c::device_services_ask(payload, service, cid))
    }

    pub fn ask_with(
        zero_size: ZeroSize,
        payload: &[u8],
        service: ServiceId,
        cid: u32,
    ) -> Result<Option<Position>, Refusal> {
        position(c::device_services_ask_with(zero_size as u32, payload, service, cid))
    }
}

impl ServiceList {
    pub fn empty() -> ServiceList {
        let none = ServiceElement { fields: DeviceService::default(), cids: [0; c::MOST_CIDS] };
        let elements = [none; c::MOST_SERVICES];
        ServiceList { device_services_count: 0, max_dss_sessions: 0, elements }
    }

    /// Adds an element; false if the list or the element has no room for it.
    pub fn add(&mut self, service: ServiceId, cids: &[u32]) -> bool {
        let Some(element) = self.elements.get_mut(self.device_services_count as usize) else {
            return false;
        };
        let Some(front) = element.cids.get_mut(..cids.len()) else {
            return false;
        };
        front.copy_from_slice(cids);
        element.fields.device_service_id = service;
        element.fields.cid_count = cids.len() as u32;
        self.device_services_count += 1;
        true
    }

    pub fn write(&self, out: &mut [u8]) -> Result<usize, Refusal> {
        written(c::device_services_write(*self, out))
    }
}

/// A reading of RSRP or SNR; below the range it carries the range's lower edge.
#[derive(Clone, Copy, Debug, PartialEq)]
pub enum Reading {
    Dbm(f32),
    Db(f32),
    BelowRange(f32),
    Unknown,
}

pub fn rsrp(code: u32) -> Result<Reading, Refusal> {
    reading(c::rsrp(code))
}

pub fn snr(code: u32) -> Result<Reading, Refusal> {
    reading(c::snr(code))
}

/// The bars of an RSSI; none where it is unknown.
pub fn bars(rssi: u32) -> Result<Option<u32>, Refusal> {
    let answer = c::bars(rssi);
    answer.refusal.or((answer.reading != 0).then_some(answer.bars))
}

pub(crate) fn written(answer: c::WrittenAnswer) -> Result<usize, Refusal> {
    answer.refusal.or(answer.length as usize)
}

fn with_texts(
    answer: c::RegistrationAnswer,
    payload: &[u8],
) -> Result<(Registration, Texts<'_>), Refusal> {
    let texts = Texts {
        provider_id: text(payload, answer.texts.provider_id),
        provider_name: text(payload, answer.texts.provider_name),
        roaming_text: text(payload, answer.texts.roaming_text),
    };
    answer.refusal.or((answer.info, texts))
}

pub(crate) fn text(payload: &[u8], range: c::Range) -> &[u8] {
    let rest = payload.get(range.start as usize..).unwrap_or_default();
    rest.get(..range.length as usize).unwrap_or_default()
}

fn signal_state(answer: c::SignalStateAnswer) -> Result<SignalState, Refusal> {
    answer.refusal.or(answer.info)
}

fn head(answer: c::DeviceServicesAnswer) -> Result<DeviceServices, Refusal> {
    answer.refusal.or(answer.info)
}

fn shown(answer: c::ElementAnswer) -> Result<Option<DeviceService>, Refusal> {
    answer.refusal.or((answer.listed != 0).then_some(answer.element))
}

fn counted(answer: c::AllAnswer) -> Result<(u32, u64), Refusal> {
    answer.refusal.or((answer.elements, answer.cids))
}

fn listed(answer: c::ListedAnswer) -> Result<bool, Refusal> {
    answer.refusal.or(answer.listed != 0)
}

fn position(answer: c::PositionAnswer) -> Result<Option<Position>, Refusal> {
    let c::PositionAnswer { refusal, listed, element_number, cid_number } = answer;
    refusal.or((listed != 0).then_some(Position { element_number, cid_number }))
}

fn reading(answer: c::ReadingAnswer) -> Result<Reading, Refusal> {
    answer.refusal.or(match answer.kind {
        1 => Reading::Dbm(answer.value),
        2 => Reading::Db(answer.value),
        3 => Reading::BelowRange(answer.value),
        _ => Reading::Unknown,
    })
}

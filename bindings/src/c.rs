//! The C interface: its structs and its functions, one a call, over slices. What each member and each
//! function means stands in include/culvertroost.h. This is the only module with `unsafe`: a slice is
//! valid for its length, and Rust's borrows keep what is written apart from everything else.
//! Slices cross as a pointer and a length, a reader's choice as any number.

/// How many bytes of memory each state takes.
pub const ASSEMBLY_SIZE: usize = 4144;
pub const STREAM_SIZE: usize = 4104;
pub const HOST_SIZE: usize = 6;
pub const MODEM_SIZE: usize = 10;
pub const PINS_SIZE: usize = 748;

pub const MOST_ENTRIES: usize = 16;
pub const MOST_SERVICES: usize = 32;
pub const MOST_CIDS: usize = 128;
pub const MOST_PIN: usize = 32;
pub const PIN_TYPES: usize = 17;

/// A struct in C's layout, with its size and the offset of its last member.
macro_rules! layout {
    ($(#[$note:meta])* $name:ident, $size:literal, $last:literal, { $($member:ident: $type:ty),+ $(,)? }) => {
        $(#[$note])*
        #[repr(C)]
        #[derive(Clone, Copy, Debug, PartialEq)]
        pub struct $name {
            $(pub $member: $type),+
        }

        const _: () = {
            let places = [$(std::mem::offset_of!($name, $member)),+];
            assert!(size_of::<$name>() == $size);
            assert!(places[places.len() - 1] == $last);
        };
    };
}

layout!(#[derive(Default, Eq)] Refusal, 16, 8, { number: u32, place: u64 });
layout!(#[derive(Default)] WrittenAnswer, 24, 16, { refusal: Refusal, length: u64 });
layout!(
    /// A service id: its 16 bytes in printed order, as four little-endian words.
    #[derive(Default, Eq)]
    ServiceId, 16, 12, { word0: u32, word1: u32, word2: u32, word3: u32 }
);

layout!(#[derive(Default, Eq)] VersionInfo, 4, 2, {
    bcd_mbim_version: u16,
    bcd_mbim_extended_version: u16,
});
layout!(#[derive(Default)] VersionInfoAnswer, 24, 16, { refusal: Refusal, info: VersionInfo });

layout!(#[derive(Default, Eq)] PacketService, 40, 32, {
    version: u16,
    nw_error: u32,
    packet_service_state: u32,
    highest_available_data_class: u32,
    current_data_class: u32,
    frequency_range: u32,
    uplink_speed: u64,
    downlink_speed: u64,
});
layout!(#[derive(Default)] PacketServiceAnswer, 56, 16, { refusal: Refusal, info: PacketService });

layout!(#[derive(Default, Eq)] Registration, 32, 28, {
    version: u16,
    nw_error: u32,
    register_state: u32,
    register_mode: u32,
    available_data_class: u32,
    cellular_class: u32,
    registration_flag: u32,
    preferred_data_class: u32,
});
layout!(#[derive(Default, Eq)] Range, 8, 4, { start: u32, length: u32 });
layout!(#[derive(Default, Eq)] RegistrationTexts, 24, 16, {
    provider_id: Range,
    provider_name: Range,
    roaming_text: Range,
});
layout!(#[derive(Default)] RegistrationAnswer, 72, 48, {
    refusal: Refusal,
    info: Registration,
    texts: RegistrationTexts,
});

layout!(#[derive(Default, Eq)] RsrpSnr, 20, 16, {
    rsrp: u32,
    snr: u32,
    rsrp_threshold: u32,
    snr_threshold: u32,
    system_type: u32,
});
layout!(#[derive(Default, Eq)] SignalState, 348, 28, {
    version: u16,
    rssi: u32,
    error_rate: u32,
    signal_strength_interval: u32,
    rssi_threshold: u32,
    error_rate_threshold: u32,
    count: u32,
    entries: [RsrpSnr; MOST_ENTRIES],
});
layout!(#[derive(Default)] SignalStateAnswer, 368, 16, { refusal: Refusal, info: SignalState });

layout!(#[derive(Default)] ReadingAnswer, 24, 20, { refusal: Refusal, kind: u32, value: f32 });
layout!(#[derive(Default)] BarsAnswer, 24, 20, { refusal: Refusal, reading: u32, bars: u32 });

layout!(#[derive(Default, Eq)] DeviceServices, 8, 4, {
    device_services_count: u32,
    max_dss_sessions: u32,
});
layout!(#[derive(Default)] DeviceServicesAnswer, 24, 16, { refusal: Refusal, info: DeviceServices });
layout!(#[derive(Default, Eq)] DeviceService, 28, 24, {
    device_service_id: ServiceId,
    dss_payload: u32,
    max_dss_instances: u32,
    cid_count: u32,
});
layout!(#[derive(Default)] ElementAnswer, 48, 20, { refusal: Refusal, listed: u32, element: DeviceService });
layout!(#[derive(Default)] AllAnswer, 32, 24, { refusal: Refusal, elements: u32, cids: u64 });
layout!(#[derive(Default)] ListedAnswer, 24, 16, { refusal: Refusal, listed: u32 });
layout!(#[derive(Default)] PositionAnswer, 32, 24, {
    refusal: Refusal,
    listed: u32,
    element_number: u32,
    cid_number: u32,
});
layout!(
    /// An element with its CIDs, of which the first `fields.cid_count` count.
    #[derive(Eq)]
    ServiceElement, 540, 28, { fields: DeviceService, cids: [u32; MOST_CIDS] }
);
layout!(
    /// A list to be written, of whose elements the first `device_services_count` count.
    #[derive(Eq)]
    ServiceList, 17288, 8, {
        device_services_count: u32,
        max_dss_sessions: u32,
        elements: [ServiceElement; MOST_SERVICES],
    }
);

layout!(#[derive(Default, Eq)] SetPin, 8, 4, { pin_type: u32, pin_operation: u32 });
layout!(#[derive(Default, Eq)] SetPinTexts, 16, 8, { pin: Range, new_pin: Range });
layout!(#[derive(Default)] SetPinAnswer, 40, 24, {
    refusal: Refusal,
    info: SetPin,
    texts: SetPinTexts,
});
layout!(#[derive(Default, Eq)] PinInfo, 12, 8, {
    pin_type: u32,
    pin_state: u32,
    remaining_attempts: u32,
});
layout!(#[derive(Default)] PinInfoAnswer, 32, 16, { refusal: Refusal, info: PinInfo });
layout!(
    /// What a row of a table of PINs is made of.
    #[derive(Default, Eq)]
    Pin, 48, 16, {
        present: u32,
        enabled: u32,
        starting_tries: u32,
        secret_length: u32,
        secret: Secret,
    }
);
layout!(
    /// What a table of PINs is made of: the row of a type is `rows[pin_type - 1]`.
    #[derive(Default, Eq)]
    Pins, 816, 0, { rows: [Pin; PIN_TYPES] }
);
layout!(#[derive(Default)] PinAnswer, 40, 24, {
    refusal: Refusal,
    status: u32,
    shown: u32,
    info: PinInfo,
});

/// The bytes of a PIN's text; `Debug` doesn't show them.
#[repr(transparent)]
#[derive(Clone, Copy, Default, PartialEq, Eq)]
pub struct Secret(pub [u8; MOST_PIN]);

impl std::fmt::Debug for Secret {
    fn fmt(&self, f: &mut std::fmt::Formatter) -> std::fmt::Result {
        f.write_str("..")
    }
}

layout!(#[derive(Default)] WholeAnswer, 32, 24, {
    refusal: Refusal,
    message_type: u32,
    transaction: u32,
    word: u32,
});
layout!(
    /// What the first fragment of a message says besides lengths. `word` is a command's type or a
    /// reply's status; an indication has none.
    #[derive(Default, Eq)]
    MessageHeader, 32, 28, {
        message_type: u32,
        transaction: u32,
        service: ServiceId,
        cid: u32,
        word: u32,
    }
);
layout!(#[derive(Default)] CutAnswer, 32, 24, { refusal: Refusal, count: u32, length: u64 });
layout!(#[derive(Default)] KindAnswer, 24, 16, { refusal: Refusal, kind: u32 });
layout!(#[derive(Default)] ReceiveAnswer, 64, 56, {
    refusal: Refusal,
    received: u32,
    dropped: u32,
    message: MessageHeader,
    length: u64,
});
layout!(#[derive(Default)] StreamAnswer, 80, 72, { piece: ReceiveAnswer, taken: u64, ended: u32 });

layout!(#[derive(Default)] HostAnswer, 24, 20, { refusal: Refusal, event: u32, version: u16 });
layout!(#[derive(Default)] AskAnswer, 32, 24, { refusal: Refusal, command: u32, version: u16, length: u64 });
layout!(#[derive(Default)] ModemAnswer, 48, 40, {
    refusal: Refusal,
    action: u32,
    status: u32,
    kind: u32,
    version: u16,
    place: u64,
    length: u64,
});

extern "C" {
    fn cvr_service_id(bytes: *const u8, bytes_length: usize) -> ServiceId;

    fn cvr_version_info_read(payload: *const u8, payload_length: usize) -> VersionInfoAnswer;
    fn cvr_version_info_write(info: VersionInfo, out: *mut u8, out_length: usize) -> WrittenAnswer;

    fn cvr_packet_service_read(
        version: u16,
        payload: *const u8,
        payload_length: usize,
    ) -> PacketServiceAnswer;
    fn cvr_packet_service_write(
        info: PacketService,
        out: *mut u8,
        out_length: usize,
    ) -> WrittenAnswer;

    fn cvr_registration_read(
        version: u16,
        payload: *const u8,
        payload_length: usize,
    ) -> RegistrationAnswer;
    fn cvr_registration_read_with(
        version: u16,
        zero_size: u32,
        payload: *const u8,
        payload_length: usize,
    ) -> RegistrationAnswer;
    fn cvr_registration_write(
        info: Registration,
        provider_id: *const u8,
        provider_id_length: usize,
        provider_name: *const u8,
        provider_name_length: usize,
        roaming_text: *const u8,
        roaming_text_length: usize,
        out: *mut u8,
        out_length: usize,
    ) -> WrittenAnswer;

    fn cvr_signal_state_read(
        version: u16,
        payload: *const u8,
        payload_length: usize,
    ) -> SignalStateAnswer;
    fn cvr_signal_state_read_with(
        version: u16,
        zero_size: u32,
        payload: *const u8,
        payload_length: usize,
    ) -> SignalStateAnswer;
    fn cvr_signal_state_write(info: SignalState, out: *mut u8, out_length: usize) -> WrittenAnswer;

    fn cvr_rsrp(code: u32) -> ReadingAnswer;
    fn cvr_snr(code: u32) -> ReadingAnswer;
    fn cvr_bars(rssi: u32) -> BarsAnswer;

    fn cvr_device_services_read(payload: *const u8, payload_length: usize) -> DeviceServicesAnswer;
    fn cvr_device_services_read_with(
        zero_size: u32,
        payload: *const u8,
        payload_length: usize,
    ) -> DeviceServicesAnswer;
    fn cvr_device_services_element(
        payload: *const u8,
        payload_length: usize,
        number: u32,
        cids: *mut u32,
        cids_length: usize,
    ) -> ElementAnswer;
    fn cvr_device_services_element_with(
        zero_size: u32,
        payload: *const u8,
        payload_length: usize,
        number: u32,
        cids: *mut u32,
        cids_length: usize,
    ) -> ElementAnswer;
    fn cvr_device_services_cids(
        payload: *const u8,
        payload_length: usize,
        service: ServiceId,
        cids: *mut u32,
        cids_length: usize,
    ) -> ElementAnswer;
    fn cvr_device_services_cids_with(
        zero_size: u32,
        payload: *const u8,
        payload_length: usize,
        service: ServiceId,
        cids: *mut u32,
        cids_length: usize,
    ) -> ElementAnswer;
    fn cvr_device_services_all(
        payload: *const u8,
        payload_length: usize,
        fields: *mut u32,
        fields_length: usize,
        cids: *mut u32,
        cids_length: usize,
    ) -> AllAnswer;
    fn cvr_device_services_all_with(
        zero_size: u32,
        payload: *const u8,
        payload_length: usize,
        fields: *mut u32,
        fields_length: usize,
        cids: *mut u32,
        cids_length: usize,
    ) -> AllAnswer;
    fn cvr_device_services_listed(
        payload: *const u8,
        payload_length: usize,
        service: ServiceId,
        cid: u32,
    ) -> ListedAnswer;
    fn cvr_device_services_listed_with(
        zero_size: u32,
        payload: *const u8,
        payload_length: usize,
        service: ServiceId,
        cid: u32,
    ) -> ListedAnswer;
    fn cvr_device_services_ask(
        payload: *const u8,
        payload_length: usize,
        service: ServiceId,
        cid: u32,
    ) -> PositionAnswer;
    fn cvr_device_services_ask_with(
        zero_size: u32,
        payload: *const u8,
        payload_length: usize,
        service: ServiceId,
        cid: u32,
    ) -> PositionAnswer;
    fn cvr_device_services_write(
        list: ServiceList,
        out: *mut u8,
        out_length: usize,
    ) -> WrittenAnswer;
    fn cvr_device_services_write_all(
        max_dss_sessions: u32,
        fields: *const u32,
        fields_length: usize,
        cids: *const u32,
        cids_length: usize,
        out: *mut u8,
        out_length: usize,
    ) -> WrittenAnswer;

    fn cvr_set_pin_read(payload: *const u8, payload_length: usize) -> SetPinAnswer;
    fn cvr_set_pin_read_with(
        zero_size: u32,
        payload: *const u8,
        payload_length: usize,
    ) -> SetPinAnswer;
    fn cvr_set_pin_write(
        info: SetPin,
        pin: *const u8,
        pin_length: usize,
        new_pin: *const u8,
        new_pin_length: usize,
        out: *mut u8,
        out_length: usize,
    ) -> WrittenAnswer;
    fn cvr_pin_info_read(payload: *const u8, payload_length: usize) -> PinInfoAnswer;
    fn cvr_pin_info_write(info: PinInfo, out: *mut u8, out_length: usize) -> WrittenAnswer;
    fn cvr_pin_make(memory: *mut u8, memory_length: usize, pins: Pins) -> Refusal;
    fn cvr_pin_enter(
        memory: *mut u8,
        memory_length: usize,
        payload: *const u8,
        payload_length: usize,
    ) -> PinAnswer;

    fn cvr_message_judge(message: *const u8, message_length: usize) -> WholeAnswer;
    fn cvr_message_write(
        message_type: u32,
        transaction: u32,
        word: u32,
        out: *mut u8,
        out_length: usize,
    ) -> WrittenAnswer;
    fn cvr_message_cut(
        message: MessageHeader,
        size: usize,
        information: *const u8,
        information_length: usize,
        out: *mut u8,
        out_length: usize,
    ) -> CutAnswer;
    fn cvr_payload_kind(message: MessageHeader) -> KindAnswer;
    fn cvr_transaction_next(transaction: u32) -> u32;

    fn cvr_assembly_empty(memory: *mut u8, memory_length: usize) -> Refusal;
    fn cvr_receive(
        memory: *mut u8,
        memory_length: usize,
        piece: *const u8,
        piece_length: usize,
        out: *mut u8,
        out_length: usize,
    ) -> ReceiveAnswer;

    fn cvr_stream_reset(
        stream: *mut u8,
        stream_length: usize,
        assembly: *mut u8,
        assembly_length: usize,
    ) -> Refusal;
    fn cvr_stream_feed(
        stream: *mut u8,
        stream_length: usize,
        assembly: *mut u8,
        assembly_length: usize,
        chunk: *const u8,
        chunk_length: usize,
        out: *mut u8,
        out_length: usize,
    ) -> StreamAnswer;

    fn cvr_host_make(memory: *mut u8, memory_length: usize, native: u16) -> Refusal;
    fn cvr_host_open(memory: *mut u8, memory_length: usize, advertised: u16) -> HostAnswer;
    fn cvr_host_close(memory: *mut u8, memory_length: usize) -> HostAnswer;
    fn cvr_host_next_command(
        memory: *const u8,
        memory_length: usize,
        out: *mut u8,
        out_length: usize,
    ) -> AskAnswer;
    fn cvr_host_receive(
        memory: *mut u8,
        memory_length: usize,
        message: MessageHeader,
        information: *const u8,
        information_length: usize,
    ) -> HostAnswer;

    fn cvr_modem_make(
        memory: *mut u8,
        memory_length: usize,
        native: u16,
        advertised: u16,
        services: *const u8,
        services_length: usize,
    ) -> Refusal;
    fn cvr_modem_open(memory: *mut u8, memory_length: usize) -> Refusal;
    fn cvr_modem_close(memory: *mut u8, memory_length: usize) -> Refusal;
    fn cvr_modem_receive(
        memory: *mut u8,
        memory_length: usize,
        message: MessageHeader,
        information: *const u8,
        information_length: usize,
        out: *mut u8,
        out_length: usize,
    ) -> ModemAnswer;
    fn cvr_pin_receive(
        modem: *mut u8,
        modem_length: usize,
        pins: *mut u8,
        pins_length: usize,
        message: MessageHeader,
        information: *const u8,
        information_length: usize,
        out: *mut u8,
        out_length: usize,
    ) -> ModemAnswer;
}

#[inline]
pub fn service_id(bytes: &[u8]) -> ServiceId {
    unsafe { cvr_service_id(bytes.as_ptr(), bytes.len()) }
}

#[inline]
pub fn version_info_read(payload: &[u8]) -> VersionInfoAnswer {
    unsafe { cvr_version_info_read(payload.as_ptr(), payload.len()) }
}

#[inline]
pub fn version_info_write(info: VersionInfo, out: &mut [u8]) -> WrittenAnswer {
    unsafe { cvr_version_info_write(info, out.as_mut_ptr(), out.len()) }
}

#[inline]
pub fn packet_service_read(version: u16, payload: &[u8]) -> PacketServiceAnswer {
    unsafe { cvr_packet_service_read(version, payload.as_ptr(), payload.len()) }
}

#[inline]
pub fn packet_service_write(info: PacketService, out: &mut [u8]) -> WrittenAnswer {
    unsafe { cvr_packet_service_write(info, out.as_mut_ptr(), out.len()) }
}

#[inline]
pub fn registration_read(version: u16, payload: &[u8]) -> RegistrationAnswer {
    unsafe { cvr_registration_read(version, payload.as_ptr(), payload.len()) }
}

#[inline]
pub fn registration_read_with(version: u16, zero_size: u32, payload: &[u8]) -> RegistrationAnswer {
    unsafe { cvr_registration_read_with(version, zero_size, payload.as_ptr(), payload.len()) }
}

#[inline]
pub fn registration_write(
    info: Registration,
    provider_id: &[u8],
    provider_name: &[u8],
    roaming_text: &[u8],
    out: &mut [u8],
) -> WrittenAnswer {
    unsafe {
        cvr_registration_write(
            info,
            provider_id.as_ptr(),
            provider_id.len(),
            provider_name.as_ptr(),
            provider_name.len(),
            roaming_text.as_ptr(),
            roaming_text.len(),
            out.as_mut_ptr(),
            out.len(),
        )
    }
}

#[inline]
pub fn signal_state_read(version: u16, payload: &[u8]) -> SignalStateAnswer {
    unsafe { cvr_signal_state_read(version, payload.as_ptr(), payload.len()) }
}

#[inline]
pub fn signal_state_read_with(version: u16, zero_size: u32, payload: &[u8]) -> SignalStateAnswer {
    unsafe { cvr_signal_state_read_with(version, zero_size, payload.as_ptr(), payload.len()) }
}

#[inline]
pub fn signal_state_write(info: SignalState, out: &mut [u8]) -> WrittenAnswer {
    unsafe { cvr_signal_state_write(info, out.as_mut_ptr(), out.len()) }
}

#[inline]
pub fn rsrp(code: u32) -> ReadingAnswer {
    unsafe { cvr_rsrp(code) }
}

#[inline]
pub fn snr(code: u32) -> ReadingAnswer {
    unsafe { cvr_snr(code) }
}

#[inline]
pub fn bars(rssi: u32) -> BarsAnswer {
    unsafe { cvr_bars(rssi) }
}

#[inline]
pub fn device_services_read(payload: &[u8]) -> DeviceServicesAnswer {
    unsafe { cvr_device_services_read(payload.as_ptr(), payload.len()) }
}

#[inline]
pub fn device_services_read_with(zero_size: u32, payload: &[u8]) -> DeviceServicesAnswer {
    unsafe { cvr_device_services_read_with(zero_size, payload.as_ptr(), payload.len()) }
}

#[inline]
pub fn device_services_element(payload: &[u8], number: u32, cids: &mut [u32]) -> ElementAnswer {
    unsafe {
        cvr_device_services_element(
            payload.as_ptr(),
            payload.len(),
            number,
            cids.as_mut_ptr(),
            cids.len(),
        )
    }
}

#[inline]
pub fn device_services_element_with(
    zero_size: u32,
    payload: &[u8],
    number: u32,
    cids: &mut [u32],
) -> ElementAnswer {
    unsafe {
        cvr_device_services_element_with(
            zero_size,
            payload.as_ptr(),
            payload.len(),
            number,
            cids.as_mut_ptr(),
            cids.len(),
        )
    }
}

#[inline]
pub fn device_services_cids(payload: &[u8], service: ServiceId, cids: &mut [u32]) -> ElementAnswer {
    unsafe {
        cvr_device_services_cids(
            payload.as_ptr(),
            payload.len(),
            service,
            cids.as_mut_ptr(),
            cids.len(),
        )
    }
}

#[inline]
pub fn device_services_cids_with(
    zero_size: u32,
    payload: &[u8],
    service: ServiceId,
    cids: &mut [u32],
) -> ElementAnswer {
    unsafe {
        cvr_device_services_cids_with(
            zero_size,
            payload.as_ptr(),
            payload.len(),
            service,
            cids.as_mut_ptr(),
            cids.len(),
        )
    }
}

#[inline]
pub fn device_services_all(payload: &[u8], fields: &mut [u32], cids: &mut [u32]) -> AllAnswer {
    unsafe {
        cvr_device_services_all(
            payload.as_ptr(),
            payload.len(),
            fields.as_mut_ptr(),
            fields.len(),
            cids.as_mut_ptr(),
            cids.len(),
        )
    }
}

#[inline]
pub fn device_services_all_with(
    zero_size: u32,
    payload: &[u8],
    fields: &mut [u32],
    cids: &mut [u32],
) -> AllAnswer {
    unsafe {
        cvr_device_services_all_with(
            zero_size,
            payload.as_ptr(),
            payload.len(),
            fields.as_mut_ptr(),
            fields.len(),
            cids.as_mut_ptr(),
            cids.len(),
        )
    }
}

#[inline]
pub fn device_services_listed(payload: &[u8], service: ServiceId, cid: u32) -> ListedAnswer {
    unsafe { cvr_device_services_listed(payload.as_ptr(), payload.len(), service, cid) }
}

#[inline]
pub fn device_services_listed_with(
    zero_size: u32,
    payload: &[u8],
    service: ServiceId,
    cid: u32,
) -> ListedAnswer {
    unsafe {
        cvr_device_services_listed_with(zero_size, payload.as_ptr(), payload.len(), service, cid)
    }
}

#[inline]
pub fn device_services_ask(payload: &[u8], service: ServiceId, cid: u32) -> PositionAnswer {
    unsafe { cvr_device_services_ask(payload.as_ptr(), payload.len(), service, cid) }
}

#[inline]
pub fn device_services_ask_with(
    zero_size: u32,
    payload: &[u8],
    service: ServiceId,
    cid: u32,
) -> PositionAnswer {
    unsafe {
        cvr_device_services_ask_with(zero_size, payload.as_ptr(), payload.len(), service, cid)
    }
}

#[inline]
pub fn device_services_write(list: ServiceList, out: &mut [u8]) -> WrittenAnswer {
    unsafe { cvr_device_services_write(list, out.as_mut_ptr(), out.len()) }
}

#[inline]
pub fn device_services_write_all(
    max_dss_sessions: u32,
    fields: &[u32],
    cids: &[u32],
    out: &mut [u8],
) -> WrittenAnswer {
    unsafe {
        cvr_device_services_write_all(
            max_dss_sessions,
            fields.as_ptr(),
            fields.len(),
            cids.as_ptr(),
            cids.len(),
            out.as_mut_ptr(),
            out.len(),
        )
    }
}

#[inline]
pub fn set_pin_read(payload: &[u8]) -> SetPinAnswer {
    unsafe { cvr_set_pin_read(payload.as_ptr(), payload.len()) }
}

#[inline]
pub fn set_pin_read_with(zero_size: u32, payload: &[u8]) -> SetPinAnswer {
    unsafe { cvr_set_pin_read_with(zero_size, payload.as_ptr(), payload.len()) }
}

#[inline]
pub fn set_pin_write(info: SetPin, pin: &[u8], new_pin: &[u8], out: &mut [u8]) -> WrittenAnswer {
    unsafe {
        cvr_set_pin_write(
            info,
            pin.as_ptr(),
            pin.len(),
            new_pin.as_ptr(),
            new_pin.len(),
            out.as_mut_ptr(),
            out.len(),
        )
    }
}

#[inline]
pub fn pin_info_read(payload: &[u8]) -> PinInfoAnswer {
    unsafe { cvr_pin_info_read(payload.as_ptr(), payload.len()) }
}

#[inline]
pub fn pin_info_write(info: PinInfo, out: &mut [u8]) -> WrittenAnswer {
    unsafe { cvr_pin_info_write(info, out.as_mut_ptr(), out.len()) }
}

#[inline]
pub fn pin_make(memory: &mut [u8], pins: Pins) -> Refusal {
    unsafe { cvr_pin_make(memory.as_mut_ptr(), memory.len(), pins) }
}

#[inline]
pub fn pin_enter(memory: &mut [u8], payload: &[u8]) -> PinAnswer {
    unsafe { cvr_pin_enter(memory.as_mut_ptr(), memory.len(), payload.as_ptr(), payload.len()) }
}

#[inline]
pub fn message_judge(message: &[u8]) -> WholeAnswer {
    unsafe { cvr_message_judge(message.as_ptr(), message.len()) }
}

#[inline]
pub fn message_write(
    message_type: u32,
    transaction: u32,
    word: u32,
    out: &mut [u8],
) -> WrittenAnswer {
    unsafe { cvr_message_write(message_type, transaction, word, out.as_mut_ptr(), out.len()) }
}

#[inline]
pub fn message_cut(
    message: MessageHeader,
    size: usize,
    information: &[u8],
    out: &mut [u8],
) -> CutAnswer {
    unsafe {
        cvr_message_cut(
            message,
            size,
            information.as_ptr(),
            information.len(),
            out.as_mut_ptr(),
            out.len(),
        )
    }
}

#[inline]
pub fn payload_kind(message: MessageHeader) -> KindAnswer {
    unsafe { cvr_payload_kind(message) }
}

#[inline]
pub fn transaction_next(transaction: u32) -> u32 {
    unsafe { cvr_transaction_next(transaction) }
}

#[inline]
pub fn assembly_empty(memory: &mut [u8]) -> Refusal {
    unsafe { cvr_assembly_empty(memory.as_mut_ptr(), memory.len()) }
}

#[inline]
pub fn receive(memory: &mut [u8], piece: &[u8], out: &mut [u8]) -> ReceiveAnswer {
    unsafe {
        cvr_receive(
            memory.as_mut_ptr(),
            memory.len(),
            piece.as_ptr(),
            piece.len(),
            out.as_mut_ptr(),
            out.len(),
        )
    }
}

#[inline]
pub fn stream_reset(stream: &mut [u8], assembly: &mut [u8]) -> Refusal {
    unsafe {
        cvr_stream_reset(stream.as_mut_ptr(), stream.len(), assembly.as_mut_ptr(), assembly.len())
    }
}

#[inline]
pub fn stream_feed(
    stream: &mut [u8],
    assembly: &mut [u8],
    chunk: &[u8],
    out: &mut [u8],
) -> StreamAnswer {
    unsafe {
        cvr_stream_feed(
            stream.as_mut_ptr(),
            stream.len(),
            assembly.as_mut_ptr(),
            assembly.len(),
            chunk.as_ptr(),
            chunk.len(),
            out.as_mut_ptr(),
            out.len(),
        )
    }
}

#[inline]
pub fn host_make(memory: &mut [u8], native: u16) -> Refusal {
    unsafe { cvr_host_make(memory.as_mut_ptr(), memory.len(), native) }
}

#[inline]
pub fn host_open(memory: &mut [u8], advertised: u16) -> HostAnswer {
    unsafe { cvr_host_open(memory.as_mut_ptr(), memory.len(), advertised) }
}

#[inline]
pub fn host_close(memory: &mut [u8]) -> HostAnswer {
    unsafe { cvr_host_close(memory.as_mut_ptr(), memory.len()) }
}

#[inline]
pub fn host_next_command(memory: &[u8], out: &mut [u8]) -> AskAnswer {
    unsafe { cvr_host_next_command(memory.as_ptr(), memory.len(), out.as_mut_ptr(), out.len()) }
}

#[inline]
pub fn host_receive(memory: &mut [u8], message: MessageHeader, information: &[u8]) -> HostAnswer {
    unsafe {
        cvr_host_receive(
            memory.as_mut_ptr(),
            memory.len(),
            message,
            information.as_ptr(),
            information.len(),
        )
    }
}

#[inline]
pub fn modem_make(memory: &mut [u8], native: u16, advertised: u16, services: &[u8]) -> Refusal {
    unsafe {
        cvr_modem_make(
            memory.as_mut_ptr(),
            memory.len(),
            native,
            advertised,
            services.as_ptr(),
            services.len(),
        )
    }
}

#[inline]
pub fn modem_open(memory: &mut [u8]) -> Refusal {
    unsafe { cvr_modem_open(memory.as_mut_ptr(), memory.len()) }
}

#[inline]
pub fn modem_close(memory: &mut [u8]) -> Refusal {
    unsafe { cvr_modem_close(memory.as_mut_ptr(), memory.len()) }
}

#[inline]
pub fn modem_receive(
    memory: &mut [u8],
    message: MessageHeader,
    information: &[u8],
    out: &mut [u8],
) -> ModemAnswer {
    unsafe {
        cvr_modem_receive(
            memory.as_mut_ptr(),
            memory.len(),
            message,
            information.as_ptr(),
            information.len(),
            out.as_mut_ptr(),
            out.len(),
        )
    }
}

#[inline]
pub fn pin_receive(
    modem: &mut [u8],
    pins: &mut [u8],
    message: MessageHeader,
    information: &[u8],
    out: &mut [u8],
) -> ModemAnswer {
    unsafe {
        cvr_pin_receive(
            modem.as_mut_ptr(),
            modem.len(),
            pins.as_mut_ptr(),
            pins.len(),
            message,
            information.as_ptr(),
            information.len(),
            out.as_mut_ptr(),
            out.len(),
        )
    }
}

//! The two ends of the version handshake.

use crate::c::{self, Refusal};
use crate::{Kind, MessageHeader, PinTable};

/// What a call did to the host.
#[derive(Clone, Copy, Debug, PartialEq, Eq)]
pub enum Event {
    Unchanged,
    Opened,
    /// The next command is VERSION.
    AsksVersion,
    /// The handshake is over; all payloads are of this version.
    Settled(u16),
}

/// The host's next command.
#[derive(Clone, Copy, Debug, PartialEq, Eq)]
pub enum Next {
    /// The host is closed.
    Nothing,
    DeviceServices,
    /// VERSION as a query, with so many payload bytes at the front of the output.
    Version(usize),
    /// Any, at the settled version.
    Free(u16),
}

#[derive(Clone, Debug, PartialEq, Eq)]
pub struct Host {
    memory: [u8; c::HOST_SIZE],
}

impl Host {
    /// A closed host with its native version.
    pub fn new(native: u16) -> Result<Host, Refusal> {
        let mut memory = [0; c::HOST_SIZE];
        c::host_make(&mut memory, native).or(())?;
        Ok(Host { memory })
    }

    /// OPEN to a modem that advertises this version; puts the handshake back to its start.
    pub fn open(&mut self, advertised: u16) -> Result<Event, Refusal> {
        event(c::host_open(&mut self.memory, advertised))
    }

    pub fn close(&mut self) -> Result<Event, Refusal> {
        event(c::host_close(&mut self.memory))
    }

    /// What to send next. Asking changes nothing.
    pub fn next_command(&self, out: &mut [u8]) -> Result<Next, Refusal> {
        let answer = c::host_next_command(&self.memory, out);
        answer.refusal.or(match answer.command {
            1 => Next::DeviceServices,
            2 => Next::Version(answer.length as usize),
            3 => Next::Free(answer.version),
            _ => Next::Nothing,
        })
    }

    /// Any message that came together. The host takes replies to DEVICE_SERVICES and VERSION out of
    /// them; all others change nothing. A list is asked for VERSION as by `DeviceServices::ask`.
    pub fn receive(
        &mut self,
        message: &MessageHeader,
        information: &[u8],
    ) -> Result<Event, Refusal> {
        event(c::host_receive(&mut self.memory, *message, information))
    }
}

/// What the modem is to do with a command.
#[derive(Clone, Copy, Debug, PartialEq, Eq)]
pub enum Action {
    /// Answer it.
    Serve(Kind),
    /// Send so many bytes of the output with status 0.
    Version(usize),
    /// Send this status.
    Failed(u32),
    /// Send this status: the service or the CID, which stands at this place, is not known.
    Unknown { status: u32, place: usize },
    /// A PIN entry is answered: send this status with so many bytes of the output.
    Pin { status: u32, length: usize },
}

/// What the modem is to do with a command, and the version that it is settled at by now.
#[derive(Clone, Copy, Debug, PartialEq, Eq)]
pub struct Taken {
    pub action: Action,
    pub version: Option<u16>,
}

#[derive(Clone, Debug, PartialEq, Eq)]
pub struct Modem {
    memory: [u8; c::MODEM_SIZE],
}

impl Modem {
    /// A modem at its start; the advertised version is at most the native one. `services` is the
    /// DEVICE_SERVICES payload that it will serve.
    pub fn new(native: u16, advertised: u16, services: &[u8]) -> Result<Modem, Refusal> {
        let mut memory = [0; c::MODEM_SIZE];
        c::modem_make(&mut memory, native, advertised, services).or(())?;
        Ok(Modem { memory })
    }

    /// OPEN puts the handshake back to its start, as CLOSE does.
    pub fn open(&mut self) -> Result<(), Refusal> {
        c::modem_open(&mut self.memory).or(())
    }

    pub fn close(&mut self) -> Result<(), Refusal> {
        c::modem_close(&mut self.memory).or(())
    }

    /// A command that came together; other messages are refused, and so is transaction 0.
    pub fn receive(
        &mut self,
        message: &MessageHeader,
        information: &[u8],
        out: &mut [u8],
    ) -> Result<Taken, Refusal> {
        taken(c::modem_receive(&mut self.memory, *message, information, out))
    }

    /// The same for a modem with a table of PINs, which answers their entries.
    pub fn receive_with(
        &mut self,
        pins: &mut PinTable,
        message: &MessageHeader,
        information: &[u8],
        out: &mut [u8],
    ) -> Result<Taken, Refusal> {
        taken(c::pin_receive(&mut self.memory, pins.memory(), *message, information, out))
    }
}

fn taken(answer: c::ModemAnswer) -> Result<Taken, Refusal> {
    let version = (answer.version != 0).then_some(answer.version);
    answer.refusal.or(Taken { action: action(&answer), version })
}

fn action(answer: &c::ModemAnswer) -> Action {
    let c::ModemAnswer { action, status, place, length, .. } = *answer;
    match (action, Kind::of(answer.kind)) {
        (1, Some(kind)) => Action::Serve(kind),
        (2, _) => Action::Version(length as usize),
        (4, _) => Action::Unknown { status, place: place as usize },
        (5, _) => Action::Pin { status, length: length as usize },
        _ => Action::Failed(status),
    }
}

fn event(answer: c::HostAnswer) -> Result<Event, Refusal> {
    answer.refusal.or(match answer.event {
        1 => Event::Opened,
        2 => Event::AsksVersion,
        3 => Event::Settled(answer.version),
        _ => Event::Unchanged,
    })
}

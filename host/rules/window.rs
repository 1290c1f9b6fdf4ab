//! Document 02, A5: a head as sixteen bytes on a bus, with the pending events and the mask that stand beside it, and the offer that does (A8).

use super::family::Family;
use super::head::Head;
use super::midpoint::Kept;

/// Bits of a pending event, and of the mask.
const PHASE_END: u8 = 1;
const TOO_FEW: u8 = 2;
const STRIKE_OVER: u8 = 4;
const EVENTS: u8 = 7;

pub struct Device {
    pub head: Head,
    pub events: u8,
    pub mask: u8,
    /// What a closing offered, while it stands.
    pub offer: Option<Kept>,
}

impl Device {
    /// A start clears events and mask.
    pub fn start(&mut self, family: Family, n: usize, f: usize, number: usize, position: i32) -> Result<(), u8> {
        self.head = Head::start(family, n, f, number, position)?;
        (self.events, self.mask, self.offer) = (0, 0, None);
        Ok(())
    }

    pub fn restart(&mut self, family: Family, n: usize, f: usize, number: usize, phase: usize, round: usize) -> Result<(), u8> {
        self.head = Head::restart(family, n, f, number, phase, round)?;
        self.events |= STRIKE_OVER;
        self.offer = None;
        Ok(())
    }

    /// A listener's start and restart change events and mask as a head's do.
    pub fn start_listener(&mut self, family: Family, n: usize, f: usize, number: usize) -> Result<(), u8> {
        self.head = Head::start_listener(family, n, f, number)?;
        (self.events, self.mask, self.offer) = (0, 0, None);
        Ok(())
    }

    pub fn restart_listener(&mut self, family: Family, n: usize, f: usize, number: usize, phase: usize, round: usize) -> Result<(), u8> {
        self.head = Head::restart_listener(family, n, f, number, phase, round)?;
        self.events |= STRIKE_OVER;
        self.offer = None;
        Ok(())
    }

    /// An accepted frame ends an offer.
    pub fn hear(&mut self, link: usize, frame: &[u8]) -> Result<(), u8> {
        self.head.hear(link, frame)?;
        self.offer = None;
        Ok(())
    }

    pub fn hear_batch(&mut self, batch: &[u8], answers: &mut [u8]) -> Result<usize, u8> {
        let count = self.head.hear_batch(batch, answers)?;
        if answers[..count].contains(&0) {
            self.offer = None;
        }
        Ok(count)
    }

    /// Refusal 25 is an event; an offer is none.
    pub fn close(&mut self) -> Result<(), u8> {
        match self.head.close() {
            Ok(None) => Ok(()),
            Ok(offer) => {
                self.offer = offer;
                Ok(())
            }
            Err(number) => {
                self.events |= if number == 25 { TOO_FEW } else { 0 };
                Err(number)
            }
        }
    }

    /// 27. A phase end is an event.
    pub fn adopt(&mut self) -> Result<(), u8> {
        let kept = self.offer.take().ok_or(27)?;
        self.head.adopt(kept);
        self.events |= PHASE_END;
        Ok(())
    }

    pub fn bytes(&self) -> [u8; 16] {
        let head = &self.head;
        let status = head.position.is_some() as u8 | ((head.healed && !head.ended) as u8) << 1 | (head.round as u8) << 2;
        let mut bytes = [0; 16];
        bytes[..4].copy_from_slice(&[head.n as u8, head.f as u8, head.number as u8, status]);
        bytes[4..6].copy_from_slice(&(head.phase as u16).to_le_bytes());
        bytes[6..10].copy_from_slice(&head.position.unwrap_or(0).to_le_bytes());
        (bytes[10], bytes[11]) = (self.events, self.mask);
        bytes
    }

    /// 16.
    pub fn read(&self, at: usize) -> Result<u8, u8> {
        self.bytes().get(at).copied().ok_or(16)
    }

    /// 16.
    pub fn write(&mut self, at: usize, byte: u8) -> Result<(), u8> {
        match at {
            10 => self.events &= !byte,
            11 => self.mask = byte & EVENTS,
            _ => return Err(16),
        }
        Ok(())
    }

    /// The interrupt line.
    pub fn is_up(&self) -> bool {
        self.events & self.mask != 0
    }
}

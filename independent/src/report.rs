//! Reports: the differences between what an input touched and what that was before.

use crate::state::*;

/// The first model of a port; the others follow it.
const TRANSFER: u8 = 1;
const ACCESS: u8 = 2;
const RESERVATION: u8 = 3;
const TIE: u8 = 4;
/// The first model of a carrier: ID, then slot status, then accessing.
const ID: u8 = 5;

/// What of a port is reported.
#[derive(Clone, Copy)]
struct PortFace {
    transfer: u8,
    access: u8,
    reserved: u8,
    tie: Word,
}

impl PortFace {
    #[inline]
    fn of(port: &Port) -> PortFace {
        PortFace { transfer: port.transfer, access: port.access, reserved: port.reserved, tie: port.tie() }
    }
}

/// What of a carrier is reported, in the order of the models.
type CarrierFace = [u8; 3];

#[inline]
fn face(c: &Carrier) -> CarrierFace {
    [c.id, c.slot, c.accessing]
}

/// What an accepted input touched, as it was before: at most one port, one record that went and
/// one that stayed or came.
#[must_use]
pub(crate) struct Touched {
    port: Option<(usize, PortFace)>,
    gone: Option<(usize, [u8; NAME_LEN], CarrierFace)>,
    kept: Option<(usize, CarrierFace)>,
}

impl Touched {
    pub(crate) const NOTHING: Touched = Touched { port: None, gone: None, kept: None };

    /// Port `p` is about to change.
    #[inline]
    pub(crate) fn port(self, t: &Tool, p: usize) -> Touched {
        Touched { port: Some((p, PortFace::of(&t.port[p]))), ..self }
    }

    /// Record `i` is about to change, in its place.
    #[inline]
    pub(crate) fn carrier(self, t: &Tool, i: usize) -> Touched {
        Touched { kept: Some((i, face(&t.carrier[i]))), ..self }
    }

    /// Record `i` was not there before.
    #[inline]
    pub(crate) fn made(self, i: usize) -> Touched {
        Touched { kept: Some((i, [0; 3])), ..self }
    }

    /// Record `i` is about to go.
    #[inline]
    pub(crate) fn gone(self, t: &Tool, i: usize) -> Touched {
        let c = &t.carrier[i];
        Touched { gone: Some((i, c.name, face(c))), ..self }
    }

    /// The port that was touched, as an index.
    #[inline]
    pub(crate) fn port_index(&self) -> Option<usize> {
        self.port.map(|(p, _)| p)
    }

    /// Where the record stood that went, and its name.
    #[inline]
    pub(crate) fn went(&self) -> Option<(usize, [u8; NAME_LEN])> {
        self.gone.map(|(i, name, _)| (i, name))
    }

    /// Where the record stands that stayed or came, once the input is done.
    #[inline]
    pub(crate) fn stands(&self) -> Option<usize> {
        self.kept.map(|(i, _)| i)
    }

    /// The same for a record that came: it had no state before.
    #[inline]
    pub(crate) fn came(&self) -> Option<usize> {
        self.kept.filter(|(_, was)| *was == [0; 3]).map(|(i, _)| i)
    }

    /// Writes one report for each difference, by model, to reports that are empty so far.
    #[inline]
    pub(crate) fn report(&self, t: &Tool, out: &mut Reports) {
        if let Some((p, was)) = self.port {
            let is = PortFace::of(&t.port[p]);
            let port = p as u8 + 1;
            let mut say = |model, old, new| out.push(Report { model, port, old, new, ..Report::UNUSED });
            if was.transfer != is.transfer {
                say(TRANSFER, was.transfer, is.transfer);
            }
            if was.access != is.access {
                say(ACCESS, was.access, is.access);
            }
            if was.reserved != is.reserved {
                say(RESERVATION, was.reserved, is.reserved);
            }
            // The tie is compared by name, so one that passes to another carrier is a difference.
            if was.tie != is.tie {
                say(TIE, (was.tie != 0) as u8, (is.tie != 0) as u8);
            }
        }
        if self.gone.is_none() && self.kept.is_none() {
            return;
        }
        let kept = self.kept.map(|(i, was)| (&t.carrier[i], was, face(&t.carrier[i])));
        for k in 0..3 {
            let model = ID + k as u8;
            if let Some((_, name, was)) = self.gone {
                out.push(Report { model, port: 0, name, old: was[k], new: 0 });
            }
            if let Some((c, was, is)) = kept {
                if was[k] != is[k] {
                    out.push(Report { model, port: 0, name: c.name, old: was[k], new: is[k] });
                }
            }
        }
    }
}

impl Reports {
    #[inline]
    pub(crate) fn push(&mut self, report: Report) {
        self.items[self.count as usize] = report;
        self.count += 1;
    }
}

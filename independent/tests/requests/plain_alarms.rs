//! P9's words in the plainest form: what document 01's row gives is asked first, and the alarms are told from the ports
//! before and after it.

use independent::gen::Input;
use independent::requests::alarms::Alarm;
use independent::requests::Tool;
use independent::{Report, Reports};

/// The words on soundness, clause by clause, where document 01's tool is sound.
pub fn plainly_sound(t: &Tool) -> bool {
    (0..4).all(|p| {
        let (port, Alarm { on, held }) = (&t.base.port[p], t.alarms[p]);
        if p >= t.base.ports as usize {
            return on == 0 && held == 0;
        }
        // Every field is in its range.
        on <= 1
            && held <= 1
            // A held port is loading with its alarm on.
            && (held == 0 || port.movement == 1 && on == 1)
            // None is on at READY TO LOAD.
            && (on == 0 || port.transfer != 1)
    })
}

/// Where an input's port stands, if there is such a port.
fn at(t: &Tool, i: &Input) -> Option<usize> {
    (1..=t.base.ports as u32).contains(&i.port).then(|| i.port as usize - 1)
}

/// What an input is refused for by P9 alone, whatever else it is refused for: the number that applies, if one does.
pub fn refusal(before: &Tool, i: &Input) -> Option<u32> {
    let alarm = at(before, i).map(|p| before.alarms[p]);
    match (i.number, at(before, i)) {
        (13 | 24, _) if i.value > 1 => Some(1),
        (13 | 24, Some(p)) if i.value == 1 && before.base.port[p].access == 0 => Some(13),
        (14, Some(_)) if alarm.unwrap().held == 1 => Some(5),
        (36, None) => Some(1),
        (36, Some(_)) if alarm.unwrap().held == 0 => Some(5),
        _ => None,
    }
}

/// The row of document 01 that an input is, where P9 doesn't refuse it: Continue does what LoadDone did, and a LoadDone that
/// holds does nothing, as ChangeAccess to the access held already.
pub fn row(before: &Tool, i: &Input) -> Input {
    let Some(p) = at(before, i) else { return i.clone() };
    match i.number {
        14 if before.base.port[p].movement == 1 && before.alarms[p].on == 1 => {
            Input { number: 9, value: before.base.port[p].access as u32, ..i.clone() }
        }
        36 => Input { number: 14, ..i.clone() },
        _ => i.clone(),
    }
}

/// The alarms after an input that is accepted, and a report for each that changed, behind the others.
pub fn after(before: &Tool, i: &Input, after: &mut Tool, reports: &mut Reports) {
    after.alarms = before.alarms;
    for p in 0..before.base.ports as usize {
        let (was, is) = (&before.base.port[p], &after.base.port[p]);
        let named = i.port as usize == p + 1;
        let alarm = &mut after.alarms[p];
        if named && [13, 24].contains(&i.number) && i.value == 0 && was.access == 1 {
            alarm.on = 1;
        }
        if named && i.number == 14 && was.movement == 1 && alarm.on == 1 {
            alarm.held = 1;
        }
        if named && [15, 36].contains(&i.number) || is.transfer == 1 {
            *alarm = Alarm { on: 0, held: 0 };
        }
        let (old, new) = (before.alarms[p].on, alarm.on);
        if old != new {
            let at = reports.count as usize;
            reports.items[at] = Report { model: 9, port: p as u8 + 1, name: [0; 16], old, new };
            reports.count += 1;
        }
    }
}

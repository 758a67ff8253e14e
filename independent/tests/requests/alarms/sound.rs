//! Soundness: a held port is loading with its alarm on, and none is on at READY TO LOAD.

use independent::gen::requests::random_sound_tool;
use independent::gen::Rng;

use super::*;
use crate::soundness::compare;

/// Transfer and movement of a port without a pod, as document 01 allows them.
const PORTS: [(u8, u8); 6] = [(0, 0), (1, 0), (2, 0), (3, 0), (3, 1), (3, 2)];

/// All that a port may do, in both modes, with all alarms.
#[test]
fn every_alarm_at_every_port() {
    for (transfer, movement) in PORTS {
        for access in [0, 1] {
            for on in 0..=255 {
                for held in [0, 1, 2, 3, 0x80, 0x81, 0xFF] {
                    let mut t = tool(2, 1);
                    let port = &mut t.base.port[1];
                    (port.transfer, port.movement, port.access) = (transfer, movement, access);
                    t.alarms[1] = Alarm { on, held };
                    let good = match (on, held) {
                        (0, 0) => true,
                        (1, 0) => transfer != 1,
                        (1, 1) => movement == 1,
                        _ => false,
                    };
                    assert_eq!(compare(&t), good, "{transfer} {movement} {on} {held}");
                }
            }
        }
    }
}

/// Ports that aren't in use have neither.
#[test]
fn ports_not_in_use() {
    for ports in 1..=4 {
        for p in 0..4 {
            for (on, held) in [(1, 0), (0, 1), (1, 1), (2, 0), (0, 0xFF)] {
                let mut t = tool(ports, 0);
                t.base.port[..ports as usize]
                    .iter_mut()
                    .for_each(|port| (port.transfer, port.movement) = (3, 1));
                t.alarms[p] = Alarm { on, held };
                assert_eq!(
                    compare(&t),
                    p < ports as usize && on == 1 && held <= 1,
                    "{ports} {p} {on} {held}"
                );
            }
        }
    }
}

/// An alarm may be on in MANUAL, and out of service; a held port may be in MANUAL.
#[test]
fn what_no_run_reaches_is_sound() {
    let mut t = tool(2, 0);
    (t.base.port[0].transfer, t.alarms[0].on) = (0, 1);
    (t.base.port[1].transfer, t.base.port[1].movement) = (3, 1);
    t.alarms[1] = Alarm { on: 1, held: 1 };
    assert!(compare(&t));
}

/// Every byte of the alarms, in tools of any kind.
#[test]
fn every_byte() {
    let mut rng = Rng::new(9);
    for _ in 0..200 {
        let t = random_sound_tool(&mut rng);
        let mut bytes = t.bytes().to_vec();
        for at in 1891 + 1597..1891 + 1605 {
            let was = bytes[at];
            for value in 0..=255 {
                bytes[at] = value;
                let is = compare(&Tool::from_bytes(&bytes).unwrap());
                assert!(value <= 1 || !is, "byte {at} is {value}");
            }
            bytes[at] = was;
        }
    }
}

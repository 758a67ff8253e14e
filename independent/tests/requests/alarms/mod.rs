//! P9: hands on an AUTO port, sentence by sentence.

mod cleared;
mod drawn;
mod held;
mod refused;
mod sound;
mod started;

use independent::requests::alarms::Alarm;

use super::*;

const MANUAL: u32 = 0;
const AUTOMATIC: u32 = 1;
const CONTINUE: u32 = 36;

/// A tool whose ports are all in AUTO.
fn in_auto(p: u32, b: u32) -> Tool {
    let mut t = tool(p, b);
    for port in 1..=p {
        assert_eq!(accept(&mut t, 9, port, 1, ""), format!("2 {port} 0>1"));
    }
    t
}

/// The alarms as the command line writes them, without their ports: ALARM HELD of each port in use.
fn alarms(t: &Tool) -> String {
    let used = t.alarms.iter().take(t.base.ports as usize);
    let all: Vec<_> = used.map(|alarm| format!("{} {}", alarm.on, alarm.held)).collect();
    all.join("; ")
}

/// The answer to an input that names a port and a value, without going on.
fn refusal(t: &Tool, number: u32, port: u32, value: u32) -> u32 {
    give(&mut t.clone(), number, port, value, "", &[]).0
}

/// Document 01's record of a port, as a change of it is told: transfer, movement, pod, tag.
fn port(t: &Tool, port: u32) -> (u8, u8, u8, u8) {
    let p = &t.base.port[port as usize - 1];
    (p.transfer, p.movement, p.pod, p.tag)
}

/// A pod is loaded by hand at an AUTO port, and held.
fn held(t: &mut Tool, port: u32) {
    accept(t, 13, port, MANUAL, "");
    accept(t, 14, port, 0, "");
    assert_eq!(t.alarms[port as usize - 1], Alarm { on: 1, held: 1 });
}

/// A carrier comes to an AUTO port by vehicle, and is cancelled: its port is READY TO UNLOAD.
fn to_unload(t: &mut Tool, port: u32, name: &str) {
    accept(t, 13, port, AUTOMATIC, "");
    accept(t, 14, port, 0, "");
    accept(t, 16, port, 0, name);
    accept(t, 6, 0, 0, name);
}

/// An unload by hand from an AUTO port that failed: READY TO UNLOAD with its alarm on.
fn failed_unload(t: &mut Tool, port: u32, name: &str) {
    to_unload(t, port, name);
    accept(t, 24, port, MANUAL, "");
    accept(t, 26, port, 0, "");
    assert_eq!(t.alarms[port as usize - 1], Alarm { on: 1, held: 0 });
}

/// The whole story of a load by hand, and of the unload by hand after it.
#[test]
fn a_pod_by_hand() {
    let mut t = in_auto(1, 0);
    assert_eq!(accept(&mut t, 1, 1, 0, "A"), "3 1 0>1; 4 1 0>1; 5 A 0>1; 6 A 0>1; 7 A 0>1; 8 A 0>2");
    assert_eq!(accept(&mut t, 13, 1, MANUAL, ""), "1 1 1>3; 3 1 1>0; 9 1 0>1");
    assert_eq!(accept(&mut t, 14, 1, 0, ""), "");
    assert_eq!(alarms(&t), "1 1");
    assert_eq!(accept(&mut t, CONTINUE, 1, 0, ""), "9 1 1>0");
    assert_eq!(accept(&mut t, 16, 1, 0, "A"), "5 A 1>3");
    assert_eq!(accept(&mut t, 6, 0, 0, "A"), "1 1 3>2; 8 A 2>1");
    assert_eq!(accept(&mut t, 24, 1, MANUAL, ""), "1 1 2>3; 9 1 0>1");
    assert_eq!(accept(&mut t, 25, 1, 0, ""), "1 1 3>1; 4 1 1>0; 5 A 3>0; 6 A 1>0; 7 A 1>0; 8 A 1>0; 9 1 1>0");
    assert_eq!(t, in_auto(1, 0));
}

/// Where the bytes stand: two for each port behind the predictions, alarm and held; then zeros.
#[test]
fn layout() {
    let mut t = in_auto(4, 1);
    assert_eq!(t.bytes()[1891 + 1597..], [0; 294]);
    accept(&mut t, 13, 2, MANUAL, "");
    held(&mut t, 4);
    let block = &t.bytes()[1891..];
    assert_eq!(block[1597..1605], [0, 0, 1, 0, 0, 0, 1, 1]);
    assert_eq!(block[1605..], [0; 286]);
    assert_eq!(alarms(&t), "0 0; 1 0; 0 0; 1 1");
}

/// Numbers from 37 on are none.
#[test]
fn numbers() {
    let mut t = in_auto(1, 0);
    held(&mut t, 1);
    for number in (37..=300).chain([0, 36 + 256, 36 + (1 << 16), 36 + (1 << 31), u32::MAX]) {
        assert_eq!(refusal(&t, number, 1, 0), 1, "{number}");
    }
    assert_eq!(refusal(&t, CONTINUE, 1, 0), 0);
}

/// Document 01's own tool has neither the input nor the alarm: rows 13 and 24 don't look at their second number there.
#[test]
fn document_01_has_none_of_it() {
    let mut loaded = in_auto(1, 0);
    held(&mut loaded, 1);
    let mut to_be_unloaded = in_auto(1, 0);
    to_unload(&mut to_be_unloaded, 1, "A");
    let fresh = [in_auto(1, 0).base, tool(1, 0).base];
    for value in (0..=300).chain([1 << 16, 1 << 31, u32::MAX]) {
        for base in fresh {
            let (mut base, mut out) = (base, Reports::NONE);
            assert_eq!(independent::step(&mut base, 13, 1, value, b"", &[], &mut out), 0);
            assert_eq!(written(&out), "1 1 1>3");
            assert_eq!(independent::step(&mut base, 36, 1, value, b"", &[], &mut out), 1);
            assert_eq!(independent::step(&mut base, 14, 1, value, b"", &[], &mut out), 0);
            assert_eq!((base.port[0].pod, base.port[0].movement), (1, 0));
        }
        let (mut base, mut out) = (to_be_unloaded.base, Reports::NONE);
        assert_eq!(independent::step(&mut base, 24, 1, value, b"", &[], &mut out), 0);
        assert_eq!(written(&out), "1 1 2>3");
    }
}

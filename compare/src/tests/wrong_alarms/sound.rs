//! The words on soundness, each left out.

use super::*;

/// The alarms of the ports in use, each mended by its port and itself.
fn mended(tool: &Tool, mend: impl Fn(&independent::Port, Alarm) -> Alarm) -> Tool {
    let mut mended = *tool;
    let used = (tool.base.ports as usize).min(4);
    for (alarm, port) in mended.alarms.iter_mut().zip(&tool.base.port).take(used) {
        *alarm = mend(port, *alarm);
    }
    mended
}

/// The alarms of the ports that aren't in use, mended.
fn past_mended(tool: &Tool, mend: fn(&mut Alarm)) -> Tool {
    let mut mended = *tool;
    mended.alarms.iter_mut().skip(tool.base.ports as usize).for_each(mend);
    mended
}

/// Programs that don't look at one of the words on soundness.
#[test]
fn faults_of_soundness_of_alarms_are_found() {
    const OFF: Alarm = Alarm::NONE;
    let mistakes: [fn(&Tool) -> Tool; 7] = [
        // Ranges.
        |tool| mended(tool, |_, a| if a.on > 1 { OFF } else { a }),
        |tool| mended(tool, |_, a| if a.held > 1 { Alarm { held: 0, ..a } } else { a }),
        // A held port is loading, with its alarm on.
        |tool| mended(tool, |p, a| if a.held == 1 && p.movement != 1 { Alarm { held: 0, ..a } } else { a }),
        |tool| mended(tool, |p, a| if (a.on, a.held, p.movement) == (0, 1, 1) { OFF } else { a }),
        // None is on at READY TO LOAD.
        |tool| mended(tool, |p, a| if (a.on, a.held, p.transfer) == (1, 0, 1) { OFF } else { a }),
        // Ports that aren't in use.
        |tool| past_mended(tool, |a| a.on = 0),
        |tool| past_mended(tool, |a| a.held = 0),
    ];
    for (k, tool) in mistakes.into_iter().enumerate() {
        found_unsound(k, tool);
    }
}

/// The difference is found where tools are damaged, and shown without records.
fn found_unsound(k: usize, tool: fn(&Tool) -> Tool) {
    let trusts = Mistaken { tool, ..Mistaken::IN_NOTHING };
    let both = Both { proved: &trusts, independent: &Independent };
    let Err(finding @ Finding::Sound(_)) = damaged::mixed_up(&both, 25_000, &mut Rng::new(5)) else {
        panic!("mistake {k} is not found")
    };
    let told = tell(&both, &finding);
    assert!(told.contains("proved       sound\nindependent  not sound\n"), "{told}");
    assert_eq!((told.matches("  alarm ").count(), told.matches("  record ").count()), (1, 0), "{told}");
}

/// Words that P9 doesn't say: an alarm on in MANUAL or out of service isn't sound.
#[test]
fn stricter_words_are_found() {
    let strict: [fn(&independent::Port) -> bool; 3] =
        [|port| port.access == 0, |port| port.transfer == 0, |port| port.movement == 0];
    for unsound in strict {
        struct Strict(fn(&independent::Port) -> bool);

        impl Wrong for Strict {
            fn sound(&self, tool: &Tool) -> u32 {
                let strange =
                    tool.alarms.iter().zip(&tool.base.port).any(|(a, port)| a.on == 1 && self.0(port));
                Independent.sound(tool) & !strange as u32
            }
        }

        let faulty = Strict(unsound);
        let both = Both { proved: &faulty, independent: &Independent };
        let found = states::compare(&both, 20_000, &mut Rng::new(5));
        assert!(matches!(found, Err(Finding::Sound(_))));
    }
}

/// Every byte of the alarms is looked at, and the unused ones behind them.
#[test]
fn a_byte_not_looked_at_is_found() {
    let mistakes: [fn(&Tool) -> Tool; 3] = [
        |tool| Tool { alarms: [Alarm::NONE; 4], ..*tool },
        |tool| {
            let mut mended = *tool;
            mended.alarms[3] = Alarm::NONE;
            mended
        },
        |tool| Tool { unused: [0; independent::requests::UNUSED], ..*tool },
    ];
    for tool in mistakes {
        let trusts = Mistaken { tool, ..Mistaken::IN_NOTHING };
        let both = Both { proved: &trusts, independent: &Independent };
        assert!(matches!(damaged::every_byte(&both, 1, &mut Rng::new(5)), Err(Finding::Sound(_))));
    }
}

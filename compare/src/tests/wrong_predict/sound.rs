//! The words on soundness, each left out.

use super::*;

/// The tool with each prediction of a record mended where it is wrong.
fn mended(tool: &Tool, mend: impl Fn(&Tool, usize, &mut Prediction)) -> Tool {
    let mut whole = *tool;
    let count = if tool.base.places == 0 { (tool.base.count as usize).min(36) } else { 0 };
    for i in 0..count {
        mend(tool, i, &mut whole.predictions.of[i]);
    }
    whole
}

fn at_port(tool: &Tool, i: usize) -> bool {
    tool.base.carrier[i].at_port()
}

fn at_ready_port(tool: &Tool, i: usize) -> bool {
    let c = &tool.base.carrier[i];
    let port = tool.base.port.get((c.port as usize).wrapping_sub(1));
    c.at_port() && port.is_some_and(|port| port.transfer == 2)
}

/// Programs that don't look at one of the words on soundness.
#[test]
fn faults_of_soundness_of_predictions_are_found() {
    let mistakes: [fn(&Tool) -> Tool; 4] = [
        |tool| {
            let mut whole = *tool;
            whole.predictions.setting = tool.predictions.setting().min(86_400).to_le_bytes();
            whole
        },
        |tool| {
            let mut whole = *tool;
            whole.predictions.timeout = tool.predictions.timeout().min(86_400).to_le_bytes();
            whole
        },
        |tool| {
            let mut whole = *tool;
            if tool.base.places == 0 && tool.base.count <= 36 {
                whole.predictions.of[tool.base.count as usize..].fill(Prediction::NONE);
            }
            whole
        },
        |tool| {
            let mut whole = *tool;
            if tool.base.places > 0 {
                whole.predictions.of.fill(Prediction::NONE);
            }
            whole
        },
    ];
    for (k, tool) in mistakes.into_iter().enumerate() {
        found(k, tool, ("sound", "not sound"));
    }
}

/// The same of the words on a single prediction.
#[test]
fn faults_of_soundness_of_a_prediction_are_found() {
    let mistakes: [fn(&Tool) -> Tool; 8] = [
        |tool| mended(tool, |_, _, p| p.state = if p.state == 0 || p.state > 6 { 2 } else { p.state }),
        |tool| mended(tool, |_, _, p| p.has_tp = p.has_tp.min(1)),
        |tool| mended(tool, |_, _, p| p.has_te = p.has_te.min(1)),
        |tool| mended(tool, |_, _, p| p.tp = if p.has_tp == 0 { [0; 4] } else { p.tp }),
        |tool| mended(tool, |_, _, p| p.te = if p.has_te == 0 { [0; 4] } else { p.te }),
        |tool| {
            mended(tool, |t, i, p| {
                p.state = if !at_port(t, i) && (1..=6).contains(&p.state) { 2 } else { p.state }
            })
        },
        |tool| {
            mended(tool, |t, i, p| p.state = if at_ready_port(t, i) && p.state == 4 { 6 } else { p.state })
        },
        |tool| {
            mended(tool, |t, i, p| p.state = if at_ready_port(t, i) && p.state == 5 { 6 } else { p.state })
        },
    ];
    for (k, tool) in mistakes.into_iter().enumerate() {
        found(k, tool, ("sound", "not sound"));
    }
}

/// Programs that ask for more than the words do: a Tp where it is PREDICTED, none before access, a Te only with a Tp, and
/// no setting of 0 with one that waits.
#[test]
fn words_that_are_too_strict_are_found() {
    let strict: [fn(&Tool) -> Tool; 4] = [
        |tool| mended(tool, |_, _, p| p.state = if p.state == 4 && p.has_tp == 0 { 9 } else { p.state }),
        |tool| mended(tool, |_, _, p| p.state = if p.state == 2 && p.has_tp == 1 { 9 } else { p.state }),
        |tool| mended(tool, |_, _, p| p.state = if p.has_te == 1 && p.has_tp == 0 { 9 } else { p.state }),
        |tool| {
            mended(tool, |t, _, p| {
                p.state = if p.state == 3 && t.predictions.setting() == 0 { 9 } else { p.state }
            })
        },
    ];
    for (k, tool) in strict.into_iter().enumerate() {
        found(k, tool, ("not sound", "sound"));
    }
}

/// The difference is found where tools are damaged, and shown with few records.
fn found(k: usize, tool: fn(&Tool) -> Tool, (one, other): (&str, &str)) {
    let trusts = Mistaken { tool, ..Mistaken::IN_NOTHING };
    let both = Both { proved: &trusts, independent: &Independent };
    let mut rng = Rng::new(5);
    let Err(finding @ Finding::Sound(_)) = damaged::mixed_up(&both, 40_000, &mut rng) else {
        panic!("mistake {k} is not found")
    };
    let told = super::super::tell(&both, &finding);
    assert!(told.contains(&format!("proved       {one}\nindependent  {other}\n")), "{told}");
    assert!(told.contains("  time "), "{told}");
    assert!(told.matches("  record ").count() <= 2, "{told}");
}

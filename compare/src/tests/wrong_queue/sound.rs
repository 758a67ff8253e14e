//! The words on soundness, each left out.

use super::*;

/// A tool whose started requests are so no longer where `wrong` holds of them.
fn unstarted(tool: &Tool, wrong: impl Fn(&Tool, &Request) -> bool) -> Tool {
    let mut mended = *tool;
    let all = mended.queue.request.iter_mut().filter(|r| r.started == 1 && wrong(tool, r));
    all.for_each(|r| r.started = 0);
    mended
}

fn carrier<'a>(tool: &'a Tool, r: &Request) -> Option<&'a independent::Carrier> {
    tool.base.carrier.iter().find(|c| c.name == r.name)
}

fn its_port<'a>(tool: &'a Tool, r: &Request) -> Option<&'a independent::Port> {
    tool.base.port.get((r.port as usize).wrapping_sub(1))
}

/// Programs that don't look at one of the words on soundness.
#[test]
fn faults_of_soundness_of_the_queue_are_found() {
    let mistakes: [fn(&Tool) -> Tool; 12] = [
        |tool| Tool { queue: Queue { count: tool.queue.count.min(16), ..tool.queue }, ..*tool },
        |tool| Tool { queue: queue(tool.queue.requests().iter().copied()), ..*tool },
        |tool| {
            let mut mended = *tool;
            let used = mended.queue.request.iter_mut().take(tool.queue.count as usize);
            used.filter(|r| r.started == 0 && !(1..=tool.base.ports).contains(&r.port))
                .for_each(|r| r.port = 1);
            mended
        },
        |tool| {
            let mut mended = *tool;
            mended.queue.request.iter_mut().filter(|r| r.started > 1).for_each(|r| r.started = 0);
            mended
        },
        |tool| Tool { queue: those(tool, |r| carrier(tool, r).is_some()), ..*tool },
        |tool| Tool { queue: those(tool, |r| carrier(tool, r).is_none_or(|c| c.place == 2)), ..*tool },
        |tool| {
            let all = tool.queue.requests().iter().enumerate();
            let once =
                all.filter(|(k, r)| !tool.queue.requests()[..*k].iter().any(|other| other.name == r.name));
            Tool { queue: queue(once.map(|(_, r)| *r)), ..*tool }
        },
        |tool| unstarted(tool, |tool, r| carrier(tool, r).is_some_and(|c| c.open == 1)),
        |tool| unstarted(tool, |tool, r| carrier(tool, r).is_some_and(|c| c.accessing == 2)),
        |tool| unstarted(tool, |tool, r| its_port(tool, r).is_some_and(|p| p.tied())),
        |tool| unstarted(tool, |tool, r| its_port(tool, r).is_some_and(|p| p.reserved == 0)),
        |tool| unstarted(tool, |tool, r| its_port(tool, r).is_some_and(|p| p.transfer != 1)),
    ];
    for (k, tool) in mistakes.into_iter().enumerate() {
        found_unsound(k, tool);
    }
    found_unsound(12, |tool| {
        let all = tool.queue.requests();
        let first =
            |r: &Request| all.iter().find(|other| other.started == 1 && other.port == r.port) == Some(r);
        unstarted(tool, |_, r| !first(r))
    });
}

/// The difference is found where tools are damaged, and shown with few records and requests.
fn found_unsound(k: usize, tool: fn(&Tool) -> Tool) {
    let trusts = Mistaken { tool, ..Mistaken::IN_NOTHING };
    let both = Both { proved: &trusts, independent: &Independent };
    let mut rng = Rng::new(5);
    let Err(finding @ Finding::Sound(_)) = damaged::mixed_up(&both, 25_000, &mut rng) else {
        panic!("mistake {k} is not found")
    };
    let told = tell(&both, &finding);
    assert!(told.contains("proved       sound\nindependent  not sound\n"), "{told}");
    assert!(told.contains("  out ") || told.contains("  requests "), "{told}");
    // A count of 17 takes sixteen requests that are good.
    let few = if k == 0 { 16 } else { 2 };
    assert!(told.matches("  record ").count() <= few, "{told}");
}

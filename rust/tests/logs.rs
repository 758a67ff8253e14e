//! Logs judged: agreeing ones, cut at every place, changed at every place, and of any bytes.
use hawsermole::{judge, Input, LogRefusal, Model, Refusal, Report, Reports, Subject, Tool, Verdict};
use std::ops::Range;

const HEAD: usize = 7;

/// A log, and where the input and the answer of each entry stand.
struct Log {
    bytes: Vec<u8>,
    inputs: Vec<Range<usize>>,
    answers: Vec<Range<usize>>,
}

impl Log {
    fn new(ports: u8, places: u8) -> Log {
        let bytes = [b"CMT\0\x01", [ports, places].as_slice()].concat();
        Log { bytes, inputs: Vec::new(), answers: Vec::new() }
    }

    fn add(&mut self, input: &Input, given: &Result<Reports, Refusal>) {
        let start = self.bytes.len();
        let parts = input.parts();
        let numbers = [parts.number, parts.port, parts.value, parts.name.len() as u32];
        self.bytes.extend(numbers.map(|number| u8::try_from(number).unwrap()));
        self.bytes.extend([parts.name, parts.codes].concat());
        let middle = self.bytes.len();
        let reports: Vec<Report> = given.clone().unwrap_or_default().filter(of_document_01).collect();
        self.bytes.push(given.as_ref().err().map_or(0, |refusal| refusal.number()));
        self.bytes.push(reports.len() as u8);
        for report in reports {
            self.bytes.push(report.model.number());
            match report.subject {
                Subject::Port(port) => self.bytes.push(port),
                Subject::Carrier(name) => {
                    self.bytes.push(name.as_bytes().len() as u8);
                    self.bytes.extend(name.as_bytes());
                }
            }
            self.bytes.extend([report.old, report.new]);
        }
        self.inputs.push(start..middle);
        self.answers.push(middle..self.bytes.len());
    }
}

/// Document 01 has models 1 to 7.
fn of_document_01(report: &Report) -> bool {
    report.model != Model::Prediction
}

/// A run without expected maps, padded names and CarrierOut: there the whole tool gives what document 01 does.
fn log(ports: u8, places: u8, inputs: &[Input]) -> Log {
    let (mut log, mut tool) = (Log::new(ports, places), Tool::setup(ports.into(), places.into()).unwrap());
    for input in inputs {
        log.add(input, &tool.step(input));
    }
    log
}

/// Document 01's run to check by hand.
fn twelve() -> Log {
    let (ac, codes) = (b"AC", &[3; 25]);
    let inputs = [
        Input::Bind { port: 1, name: b"AB" },
        Input::LoadStart { port: 1, start: 0 },
        Input::LoadDone { port: 1 },
        Input::IdRead { port: 1, name: ac },
        Input::Open { name: ac },
        Input::ProceedWithCarrier { name: ac, port: 0 },
        Input::Open { name: ac },
        Input::SlotMap { name: ac, codes },
        Input::AccessStart { name: ac },
        Input::ProceedWithCarrier { name: ac, port: 0 },
        Input::AccessStart { name: ac },
        Input::CancelCarrier { name: ac, port: 0 },
    ];
    log(2, 0, &inputs)
}

fn judged(log: &[u8]) -> Verdict {
    judge(log, &mut Tool::none())
}

fn refused(refusal: LogRefusal, entries: u64, at: usize) -> Verdict {
    Verdict::Refused { refusal, entries, at }
}

#[test]
fn the_run_to_check_by_hand_agrees() {
    let log = twelve();
    assert_eq!(log.bytes.len(), 222);
    assert_eq!(judged(&log.bytes), Verdict::Agrees { entries: 12 });
    assert_eq!(judged(&log.bytes[..HEAD]), Verdict::Agrees { entries: 0 });
}

#[test]
fn heads() {
    let (mark, set_up, cut) = (LogRefusal::MarkOrVersion, LogRefusal::SetUp, LogRefusal::CutShort);
    assert_eq!(judged(b""), refused(cut, 0, 0));
    assert_eq!(judged(b"CM"), refused(cut, 0, 2));
    assert_eq!(judged(b"CX"), refused(mark, 0, 1));
    assert_eq!(judged(b"CMT\x01\0\x01\0"), refused(mark, 0, 3));
    assert_eq!(judged(b"CMT\0\x02\x01\0"), refused(mark, 0, 4));
    assert_eq!(judged(b"CMT\0\x01\x05"), refused(set_up, 0, 5));
    assert_eq!(judged(b"CMT\0\x01\x04"), refused(cut, 0, 6));
    assert_eq!(judged(b"CMT\0\x01\x04\x11"), refused(set_up, 0, 6));
    assert_eq!(judged(b"CMT\0\x01\x04\x10"), Verdict::Agrees { entries: 0 });
}

/// Between two entries nothing is missing; anywhere else the entry that is cut begins where it did.
#[test]
fn cut_at_every_place() {
    let log = twelve();
    for length in HEAD..log.bytes.len() {
        let whole = log.answers.iter().filter(|answer| answer.end <= length).count();
        let begins = log.inputs[whole].start;
        let expected = match begins == length {
            true => Verdict::Agrees { entries: whole as u64 },
            false => refused(LogRefusal::CutShort, whole as u64, begins),
        };
        assert_eq!(judged(&log.bytes[..length]), expected, "{length}");
    }
}

/// The number of the entry at which the judging ended, and where it begins; none if the log agrees.
fn ended(verdict: &Verdict) -> Option<(usize, usize)> {
    match *verdict {
        Verdict::Agrees { .. } => None,
        Verdict::Disagrees { entry, at, .. } => Some((entry as usize, at)),
        Verdict::Refused { refusal: LogRefusal::CutShort, entries, at } => Some((entries as usize, at)),
        Verdict::Refused { .. } => panic!("{verdict:?}"),
    }
}

/// Every other byte at every place of what an entry shows: that entry disagrees, or takes in more than there is.
#[test]
fn what_an_entry_shows_changed_at_every_place() {
    let log = twelve();
    let mut met = [0; 2];
    for (entry, answer) in log.answers.iter().enumerate() {
        for place in answer.clone() {
            for change in 1..=255 {
                let mut bytes = log.bytes.clone();
                bytes[place] ^= change;
                let verdict = judged(&bytes);
                assert_eq!(ended(&verdict), Some((entry, log.inputs[entry].start)), "{place} {change}");
                met[usize::from(matches!(verdict, Verdict::Refused { .. }))] += 1;
            }
        }
    }
    assert!(met.iter().all(|&count| count > 1000), "{met:?}");
}

/// The same of the inputs: no entry before the changed one is touched.
#[test]
fn inputs_changed_at_every_place() {
    let log = twelve();
    let mut met = [0; 2];
    for (entry, input) in log.inputs.iter().enumerate() {
        for place in input.clone() {
            for change in 1..=255 {
                let mut bytes = log.bytes.clone();
                bytes[place] ^= change;
                let ended = ended(&judged(&bytes));
                assert!(ended.is_none_or(|(at, _)| at >= entry), "{place} {change}");
                met[usize::from(ended.is_some())] += 1;
            }
        }
    }
    assert!(met.iter().all(|&count| count > 1000), "{met:?}");
}

#[test]
fn what_disagrees_is_given() {
    let mut log = twelve();
    let open = log.answers[4].clone();
    log.bytes[open.start] = 0;
    let at = log.inputs[4].start;
    let given = Err(Refusal::NotVerified);
    let mut tool = Tool::none();
    assert_eq!(judge(&log.bytes, &mut tool), Verdict::Disagrees { entry: 4, at, given });
    assert_eq!(tool.carriers().next().unwrap().open, 0);
    // Nothing after it is read.
    assert_eq!(judge(&log.bytes[..open.end], &mut tool), judge(&log.bytes, &mut tool.clone()));
}

/// Document 01 as it was: no request reaches it.
#[test]
fn no_request_reaches_a_log() {
    let mut padded = Log::new(1, 0);
    padded.add(&Input::CarrierNotification { name: b"AB " }, &Err(Refusal::OutOfRange));
    assert_eq!(judged(&padded.bytes), Verdict::Agrees { entries: 1 });
    let accepted = Tool::setup(1, 0).unwrap().step(&Input::CarrierNotification { name: b"AB " });
    let mut shortened = Log::new(1, 0);
    shortened.add(&Input::CarrierNotification { name: b"AB " }, &accepted);
    let given = Err(Refusal::OutOfRange);
    assert_eq!(judged(&shortened.bytes), Verdict::Disagrees { entry: 0, at: HEAD, given });
}

/// CarrierOut moves the carrier at once, or is refused by its port; the queue's own inputs are none.
#[test]
fn no_queue_reaches_a_log() {
    let stored = [
        Input::LoadStart { port: 1, start: 0 },
        Input::LoadDone { port: 1 },
        Input::IdRead { port: 1, name: b"A" },
        Input::ProceedWithCarrier { name: b"A", port: 0 },
        Input::MoveIn { port: 1, place: 1 },
        Input::ReserveAtPort { port: 2 },
    ];
    let mut log = log(2, 1, &stored);
    let entries = stored.len() as u64;
    log.add(&Input::CarrierOut { name: b"A", port: 2 }, &Err(Refusal::ReservedOrTied));
    let numbers = [Input::OutStart { port: 1 }, Input::OutDone { port: 1 }, Input::CancelAllCarrierOut];
    numbers.iter().for_each(|input| log.add(input, &Err(Refusal::OutOfRange)));
    assert_eq!(judged(&log.bytes), Verdict::Agrees { entries: entries + 4 });
    let at = log.bytes.len();
    log.add(&Input::CarrierOut { name: b"A", port: 1 }, &Ok(Reports::default()));
    let Verdict::Disagrees { entry, at: begins, given } = judged(&log.bytes) else { panic!() };
    assert_eq!((entry, begins, given.unwrap().to_string()), (entries + 4, at, "1 1 1>2; 4 1 0>1".into()));
}

/// No model 8, and the inputs that bring the clock are none. A report of model 8 has a port in a log.
#[test]
fn no_prediction_reaches_a_log() {
    let mut log = log(1, 0, &[Input::CarrierNotification { name: b"A" }]);
    let numbers = [31, 32, 33, 34, 35];
    for number in numbers {
        log.bytes.extend([number, 0, 0, 1, b'A', Refusal::OutOfRange.number(), 0]);
    }
    assert_eq!(judged(&log.bytes), Verdict::Agrees { entries: 6 });
    let at = log.bytes.len();
    log.bytes.extend(*b"\x04\0\0\x01A\0\x01\x08\x01\x02\0");
    let Verdict::Disagrees { entry: 6, at: begins, given } = judged(&log.bytes) else { panic!() };
    assert_eq!((begins, given.unwrap().to_string()), (at, "5 A 1>0; 6 A 1>0; 7 A 1>0".into()));
}

/// The second number of rows 13 and 24 is any, no hand raises an alarm or has its pod held, and Continue is no input.
#[test]
fn no_hands_reach_a_log() {
    let mut log = Log::new(1, 0);
    log.bytes.extend(*b"\x09\x01\x01\0\0\x01\x02\x01\0\x01");
    for second in [0, 1, 2, 255] {
        log.bytes.extend([13, 1, second, 0, 0, 1, 1, 1, 1, 3]);
        log.bytes.extend(*b"\x0f\x01\0\0\0\x01\x01\x01\x03\x01");
    }
    log.bytes.extend(*b"\x0d\x01\0\0\0\x01\x01\x01\x01\x03");
    log.bytes.extend(*b"\x24\x01\0\0\x01\0");
    assert_eq!(judged(&log.bytes), Verdict::Agrees { entries: 11 });
    // Loaded at once: a second LoadDone is refused because nothing is loading, not because a pod is held.
    log.bytes.extend(*b"\x0e\x01\0\0\0\0\x0e\x01\0\0\x05\0\x11\x01\0\0\0\0");
    assert_eq!(judged(&log.bytes), Verdict::Agrees { entries: 14 });
    let at = log.bytes.len();
    log.bytes.extend(*b"\x0d\x01\x01\0\x0d\0");
    let given = Err(Refusal::Conditions);
    assert_eq!(judged(&log.bytes), Verdict::Disagrees { entry: 14, at, given });
}

#[test]
fn long_logs_are_read_to_the_end() {
    let mut long = Log::new(4, 16);
    let refused = Err(Refusal::NoRecord);
    for _ in 0..100_000 {
        long.add(&Input::Open { name: b"SIXTEEN-BYTES-16" }, &refused);
    }
    assert_eq!(judged(&long.bytes), Verdict::Agrees { entries: 100_000 });
    let last = long.answers[99_999].start;
    long.bytes[last] = 5;
    let at = long.inputs[99_999].start;
    assert_eq!(judged(&long.bytes), Verdict::Disagrees { entry: 99_999, at, given: refused });
}

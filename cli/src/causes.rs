//! The causes of a refusal, and what to do about each: the table of docs/MANUAL.md, "Causes".
use hawsermole::Refusal;

/// Each cause with the refusal that it gives, its words and the advice.
macro_rules! causes {
    ($($cause:ident $refusal:ident $text:literal $advice:literal)+) => {
        /// Why an input is refused.
        #[derive(Clone, Copy, Debug, PartialEq, Eq, PartialOrd, Ord)]
        pub enum Cause { $($cause),+ }

        impl Cause {
            /// All of them, by refusal.
            #[cfg(test)]
            pub const ALL: &'static [Cause] = &[$(Cause::$cause),+];

            /// The refusal, the words and the advice.
            const fn entry(self) -> (Refusal, &'static str, &'static str) {
                match self { $(Cause::$cause => (Refusal::$refusal, $text, $advice)),+ }
            }
        }
    };
}

impl Cause {
    pub const fn refusal(self) -> Refusal {
        self.entry().0
    }

    pub const fn text(self) -> &'static str {
        self.entry().1
    }

    pub const fn advice(self) -> &'static str {
        self.entry().2
    }
}

causes! {
    NoTool OutOfRange "there is no tool"
        "set one up, of 1 to 4 ports and 0 to 16 buffer places"
    NotSound OutOfRange "the tool isn't sound"
        "take back a kept copy that is sound, or set up anew (Damage, and lost power)"
    NoInput OutOfRange "no input has this number"
        "take a number that the pages of inputs list"
    Port OutOfRange "the tool has no such port"
        "send a port that it has; 0 is \"not given\" only in rows 2, 5 and 6"
    NothingGiven OutOfRange "neither port nor name is given"
        "give one of them, or both"
    NoBuffer OutOfRange "the tool has no buffer"
        "leave the pod where it is: here it opens at the port"
    Place OutOfRange "the buffer has no such place"
        "choose a place that it has"
    Value OutOfRange "the value isn't 0 or 1"
        "send one of the two that the row lists"
    NoName OutOfRange "no name is given"
        "give the name; only CancelBind with a port goes without"
    Name OutOfRange "the text is no name"
        "send 1 to 16 bytes from 0x21 to 0x7E, with blanks after them at most; a tag with another text: IdReadFailed"
    SlotMap OutOfRange "the codes are no slot map"
        "send 25 codes of 0 to 5, slot 1 first"
    ExpectedMap OutOfRange "the codes are no expected map"
        "send 25 codes of 1 and 3, slot 1 first; or none, and the host judges the map"
    TooManyWafers OutOfRange "there are too many wafers"
        "send at most 25, those of one carrier"

    NoRecord NoRecord "the name has no record"
        "host: check the name. Equipment: your picture is old, read the carriers from the tool"
    NoPortGiven NoRecord "the name has no record, and no port is given"
        "check the name; for a pod whose tag can't be read give its port too"
    NoUnknownPod NoRecord "the name has no record, and no unknown pod is at the port"
        "check name and port; a name of your own goes to a pod after IdReadFailed, at a port that isn't tied"

    Announced NameTaken "the name is announced already"
        "to announce it otherwise take it back first: CancelBind if it is bound, else CancelCarrierNotification"
    Arrived NameTaken "a carrier of this name is here already"
        "check the name; it can be announced again when that pod has left"
    ReadTwice NameTaken "the pod at this port has this name already"
        "go on with it as its ID status says: a tag is told once"
    ReadElsewhere NameTaken "a carrier of the name read is here already"
        "alarm, keep the pod closed; IdReadFailed, then CancelCarrier with the port and another name; unload"
    BoundElsewhere NameTaken "the name read is bound to another port"
        "CancelBind there, CarrierNotification, and IdRead again: OK; without the notification it waits for the host"

    Reserved ReservedOrTied "the port is reserved"
        "end it by CancelReservationAtPort, CancelBind if the port is tied, or LoadStart. Or take another port"
    Tied ReservedOrTied "the port is tied"
        "CancelBind while its carrier is expected, else wait until that has moved in or left. Or take another port"

    KeptForOut ReservedOrTied "a CarrierOut is started to the port"
        "OutDone comes first, when its carrier stands there: nothing else ends it. Or take another port"

    OutOfService Conditions "the port is OUT OF SERVICE"
        "ChangeServiceStatus to 1 puts it in service"
    NotReadyToLoad Conditions "the port isn't READY TO LOAD"
        "let no pod onto it; send again when the pod there has moved in or left"
    NotReadyToUnload Conditions "the port isn't READY TO UNLOAD"
        "keep the pod; Close after the access, or CancelCarrier, or OutDone makes the port READY TO UNLOAD"
    NotBlocked Conditions "the port isn't TRANSFER BLOCKED"
        "the pod is on its way out: unload it; CarrierIn calls back what came out of the buffer"
    Moving Conditions "the port isn't idle"
        "wait until LoadDone or LoadFail (Continue or LoadFail for a held pod), UnloadDone or UnloadFail is sent"
    NotLoading Conditions "no pod is being loaded"
        "LoadStart comes first. If a pod has moved, tool and floor differ: stop the port, call somebody"
    NotUnloading Conditions "no pod is being unloaded"
        "UnloadStart comes first. If a pod has moved, tool and floor differ: stop the port, call somebody"
    PodHeld Conditions "a pod is held at the port"
        "Continue lets it stay, LoadFail says that it was taken off again: until then it counts as still loading"
    NothingHeld Conditions "no pod is held at the port"
        "nothing to continue: a pod is held from LoadDone on, where the port's alarm is on"
    NoPod Conditions "no pod is at the port"
        "LoadStart and LoadDone come first. If a pod is there, tool and floor differ: stop the port, call somebody"
    TagTold Conditions "the tag was told already"
        "go on with the pod as its ID status says; it is read anew when it has been unloaded and loaded"
    NotReserved Conditions "the port isn't reserved"
        "nothing: there is no reservation to end"
    NothingBound Conditions "no carrier is tied to the port"
        "nothing is bound there: check the port"
    NotExpected Conditions "the carrier has arrived"
        "what was announced can't be taken back any more: CancelCarrier rejects it"
    NotBound Conditions "the carrier is bound to no port"
        "CancelCarrierNotification takes it back"
    Bound Conditions "the carrier is bound to a port"
        "CancelBind takes it back"
    OtherPort Conditions "the port isn't the carrier's"
        "check name and port; or leave the port out, with 0"
    StillBound Conditions "the carrier is bound to a port and not read there yet"
        "wait until its pod has come, and its tag was read or failed; CancelBind takes it back"
    StillExpected Conditions "the carrier is expected, and no port is given"
        "wait until it is read; for a pod whose tag can't be read give its port too"
    NotThere Conditions "the carrier is expected, and no unknown pod is at the port"
        "wait until it is read; a pod is unknown after IdReadFailed, at a port that isn't tied"
    NothingWaits Conditions "neither ID nor slot map waits for the host"
        "wait for the report that one does; a verdict that was given stays"
    InAccess Conditions "the carrier is IN ACCESS"
        "AccessEnd comes first"
    NotInBuffer Conditions "the carrier isn't in the buffer"
        "CarrierOut is for what is inside; what is at a port leaves from there"
    IsOpen Conditions "the carrier is open"
        "Close comes first"
    AtNoPort Conditions "the carrier is at no port"
        "nothing to call back: it is inside, or hasn't come"
    NotCameOut Conditions "the carrier didn't come out of the buffer"
        "it can't be called in: MoveIn if its port is BLOCKED, else unload it"
    NotWaiting Conditions "its port isn't READY TO UNLOAD"
        "while it is taken away wait for UnloadFail; in a port that is BLOCKED MoveIn is next"
    NotArrived Conditions "the carrier hasn't arrived"
        "its pod is loaded and its tag read first"
    NotMovedIn Conditions "the carrier is at a port, and this tool opens in the buffer"
        "MoveIn comes first"
    OpenAlready Conditions "the carrier is open already"
        "nothing: SlotMap or AccessStart is next"
    Accessed Conditions "the carrier was accessed already"
        "once in a visit: to access it again unload the pod and load it"
    NotOpen Conditions "the carrier isn't open"
        "Open comes first"
    ClosedAlready Conditions "the carrier is closed already"
        "nothing in the tool; after CancelCarrier see to it that the door is closed, too"
    MapTold Conditions "the slot map was told already"
        "once for a record: to read it again unload the pod and load it"
    NotInAccess Conditions "the carrier isn't IN ACCESS"
        "AccessStart comes first. If wafers were touched, tool and floor differ: stop, call somebody"

    OnItsWay Conditions "the carrier's CarrierOut is started"
        "it runs on to OutDone; after that CarrierIn and MoveIn bring the carrier back in"
    NotQueued Conditions "no CarrierOut of the carrier is queued"
        "nothing to take back: check the name"
    NoneQueued Conditions "no CarrierOut is queued for the port"
        "nothing to start: CarrierOut with this port comes first"
    NoneStarted Conditions "no CarrierOut is started to the port"
        "OutStart comes first. If a pod has come out, tool and floor differ: stop the port, call somebody"

    PredictsNothing Conditions "the tool has a buffer, and predicts nothing"
        "send none: predictions are for tools without a buffer"
    NotAccessedYet Conditions "the carrier's prediction waits for the carrier"
        "AccessStart comes first"
    PredictionDisabled Conditions "the carrier's prediction is disabled"
        "nothing: the set-up has a setting time of 0, so that nothing is predicted"
    PredictionPast Conditions "the carrier's prediction doesn't wait for a predicted time any more"
        "nothing: a visit has one prediction; Estimate tells of a new time where there is a predicted one"
    PredictedAlready Conditions "the carrier has a predicted time already"
        "leave it: the host has that time and it stays; Estimate tells of a new one"
    NoPredictedTime Conditions "the carrier has no predicted time"
        "PredictedTime comes first"

    Full ExpectedFull "16 carriers are expected"
        "take announcements back, or wait until pods arrive"

    TagUnread NotVerified "the tag isn't read yet"
        "IdRead or IdReadFailed comes first"
    UnknownPod NotVerified "the tag failed, and nobody has named the pod"
        "the host's ProceedWithCarrier or CancelCarrier, with a name and the port"
    NoCarrier NotVerified "no carrier is placed at the port"
        "no run from set-up comes here: set up anew"
    IdNotRead NotVerified "the ID isn't read"
        "no run from set-up comes here: CancelCarrier, unload and load the pod"
    IdWaits NotVerified "the ID waits for the host"
        "ProceedWithCarrier or CancelCarrier; until then keep the pod closed and where it is"
    IdFailed NotVerified "the ID failed"
        "unload it: it never opens"
    SlotMapNotRead NotVerified "the slot map isn't read yet"
        "SlotMap comes first"
    SlotMapWaits NotVerified "the slot map waits for the host"
        "ProceedWithCarrier or CancelCarrier; until then touch no wafer"
    SlotMapFailed NotVerified "the slot map failed"
        "unload it: it never opens again"
    Cancelled NotVerified "the carrier is cancelled"
        "unload it: it never opens again; loaded once more it is verified afresh"

    PlaceTaken PlaceOrOpenerTaken "the buffer place is taken"
        "choose one that is free; where none is, wait for an OutDone"
    OpenerInUse PlaceOrOpenerTaken "another carrier is open"
        "Close that one first: the buffer has one opener"

    QueueFull QueueFull "16 CarrierOuts are queued"
        "nothing: the carrier's own is among them, for a buffer holds no more than 16"

    QueuedAlready QueuedAlready "the carrier's CarrierOut is queued already"
        "nothing, if the port is right; to another port after CancelCarrierOut, which drops what isn't started"

    ClockEarlier ClockEarlier "the clock is earlier than the last accepted"
        "send the time as it is; if your clock was set back, go on from the last one accepted until it is past that"

    WaferTime TimeOutOfRange "a time of a wafer is out of range"
        "send whole 1/1024ths of a second, from 0 to less than 1,048,576: times 1024, rounded up, by 1024"
    TpTooLate TimeOutOfRange "the predicted time is past the clock's range"
        "check clock and times: the last second of a clock is 4,294,967,295; NoPrediction if it is true"

    ForHands AutomaticInManual "the port is MANUAL, and the start automatic"
        "keep the vehicle away; ChangeAccess to 1 makes the port AUTO. Send manual where a hand moves the pod"
}

#[cfg(test)]
mod tests {
    use super::*;

    const MANUAL: &str = include_str!("../../docs/MANUAL.md");

    /// The rows of the manual's tables of causes, below their marks.
    fn in_manual() -> Vec<&'static str> {
        let tables = MANUAL.split("<!-- causes -->\n").skip(1);
        tables.flat_map(|table| table.lines().skip(2).take_while(|line| !line.is_empty())).collect()
    }

    #[test]
    fn the_manual_has_every_cause_with_its_advice() {
        let row = |cause: &Cause| {
            format!("| {} | {} | {} |", cause.refusal().number(), cause.text(), cause.advice())
        };
        let rows: Vec<String> = Cause::ALL.iter().map(row).collect();
        for (manual, program) in in_manual().into_iter().zip(&rows) {
            assert_eq!(manual, program);
        }
        assert_eq!(in_manual().len(), rows.len());
    }

    /// By refusal, so that a table can be read from top to bottom; and no two say the same.
    #[test]
    fn causes_stand_by_refusal_and_differ() {
        assert!(Cause::ALL.iter().map(|cause| cause.refusal()).is_sorted());
        let mut texts: Vec<&str> = Cause::ALL.iter().map(|cause| cause.text()).collect();
        texts.sort_unstable();
        assert!(texts.windows(2).all(|two| two[0] != two[1]));
        // no row refuses for want of room
        let of_a_row = |refusal: &Refusal| !refusal.is_of_message() && *refusal != Refusal::RoomTooSmall;
        let caused = |&refusal: &Refusal| Cause::ALL.iter().any(|cause| cause.refusal() == refusal);
        assert!(Refusal::ALL.iter().filter(|refusal| of_a_row(refusal)).all(caused));
    }
}

//! The card for the pocket, `docs/CARD.md`: refusals, models, states and inputs by number, in the words of the crate.
use hawsermole::states::{Movement, Place, RequestState, SlotCode, Tag};
use hawsermole::{Model, Refusal, ROWS};

/// The first thing to do about a refusal, in fewer words than the manual's.
fn first_thing(refusal: Refusal) -> &'static str {
    match refusal {
        Refusal::OutOfRange => "look for the number or name that is outside; if none is, the tool is damaged",
        Refusal::NoRecord => "check the name; after a failed read give the port, too",
        Refusal::NameTaken => {
            "take the announcement back first; IdRead: the name is elsewhere, keep the pod closed"
        }
        Refusal::ReservedOrTied => {
            "another port; or CancelBind (tied), CancelReservationAtPort (reserved), OutDone (out started)"
        }
        Refusal::Conditions => {
            "move nothing, wait for the report that brings it; if it has moved, stop the port"
        }
        Refusal::ExpectedFull => "take announcements back, or wait until pods arrive",
        Refusal::NotVerified => {
            "pod stays closed: ProceedWithCarrier or CancelCarrier; cancelled or FAILED: unload"
        }
        Refusal::PlaceOrOpenerTaken => "MoveIn: another place. Open: close the one that is open",
        Refusal::QueueFull => "nothing: it is one of the 16 that are queued",
        Refusal::QueuedAlready => "nothing; for another port CancelCarrierOut first",
        Refusal::ClockEarlier => "send the time as it is; a clock set back: go on from the last accepted",
        Refusal::TimeOutOfRange => "send whole 1/1024ths of a second",
        Refusal::AutomaticInManual => "keep the vehicle away, or ChangeAccess to AUTO first",
        Refusal::RoomTooSmall => "lend 95 bytes of room, and take the message again",
        Refusal::CutShort => "bytes lost, or a length that is too large",
        Refusal::UnknownCode => "JIS-8, or another text format",
        Refusal::BadLength => "a length that counts values and not bytes",
        Refusal::TooDeep => "an attribute of more than three lists, one in another",
        Refusal::TooManyItems => "long attributes that nobody needs here",
        Refusal::BytesLeftOver => "two messages at once, a header, a checksum",
        Refusal::ShapeOrAction => "`--explain` names the item that is otherwise",
    }
}

/// A state's word without what its model says already: `OK` of `ID VERIFICATION OK`.
fn short(word: &str) -> String {
    let word = ["ID ", "SLOT MAP ", "CARRIER ", "VERIFICATION ", "PREDICTION "]
        .into_iter()
        .fold(word, |word, start| word.strip_prefix(start).unwrap_or(word));
    word.replace("no state", "no record")
}

fn model_line(model: Model) -> String {
    let subject = if model <= Model::Tie || model == Model::Alarm { "port" } else { "carrier" };
    let states: Vec<String> = (0..=6)
        .filter(|&state| hawsermole::states::State::of(model, state).is_some())
        .map(|state| format!("{state}\u{a0}{}", short(model.state(state))))
        .collect();
    format!("| {} {model} | {subject} | {} | {} |\n", model.number(), states.join(", "), model.table())
}

macro_rules! numbered {
    ($name:ident) => {
        $name::ALL
            .iter()
            .map(|state| format!("{}\u{a0}{state}", state.number()))
            .collect::<Vec<_>>()
            .join(", ")
    };
}

/// The card. A number and its word stay on one line.
pub fn card() -> String {
    let mut text = String::from(
        "# Hawsermole: the card\n\n\
         **Verify the pod before you open it. Shut an open pod before CancelCarrier. \
         A refusal has changed nothing.**\n\n\
         | No. | Refused because | First thing |\n|---|---|---|\n",
    );
    for refusal in Refusal::ALL {
        text += &format!("| {} | {refusal} | {} |\n", refusal.number(), first_thing(refusal));
    }
    text += "\n| Model | Of a | States | E87's Table |\n|---|---|---|---|\n";
    text += &Model::ALL.map(model_line).concat();
    text += "\nOn the wire (E87.1): transfer 1, 2, 3 are 2, 3, 1 there; models 5 to 8 are one less. \
             A tie 1>1 has passed to another carrier. \
             PREDICTED at Tp less setting time, ABORTED at Tp plus timeout, if a clock is sent. \
             A hand at an AUTO port: alarm on; its pod is held from LoadDone until Continue or LoadFail.\n\n";
    text += &format!(
        "Movement: {}. Tag: {}. Place: {}. Request: {}.\n",
        numbered!(Movement),
        numbered!(Tag),
        numbered!(Place),
        numbered!(RequestState)
    );
    text += &format!("Slot: {}.\n\n", numbered!(SlotCode));
    let inputs: Vec<String> = ROWS.iter().map(|row| format!("{}\u{a0}{}", row.number, row.name)).collect();
    text + &format!("Inputs: {}.\n", inputs.join(", "))
}

#[cfg(test)]
mod tests {
    use super::*;

    #[test]
    fn the_card_has_every_number() {
        let card = card().replace('\u{a0}', " ");
        for part in [
            "\n| 7 | not verified | pod stays closed:",
            "\n| 26 | another shape or action |",
            "\n| 1 transfer state | port | 0 OUT OF SERVICE, 1 READY TO LOAD, 2 READY TO UNLOAD, 3 TRANSFER BLOCKED |",
            "\n| 5 ID status | carrier | 0 no record, 1 NOT READ, 2 WAITING FOR HOST, 3 OK, 4 FAILED | 7 |",
            "\n| 7 accessing status | carrier | 0 no record, 1 NOT ACCESSED, 2 IN ACCESS, 3 COMPLETE, 4 STOPPED | 7 |",
            "Movement: 0 idle, 1 loading, 2 unloading.",
            "\n| 10 | CarrierOut is queued already | nothing;",
            "\n| 8 ready to unload prediction status | carrier | 0 no record, 1 DISABLED, 2 WAITING FOR CARRIER, ",
            "\n| 11 | the clock is earlier than the last accepted |",
            "\n| 12 | a wafer's time or the predicted time is out of range |",
            "\n| 13 | an automatic start in MANUAL | keep the vehicle away,",
            "\n| 9 AccessModeViolation alarm | port | 0 off, 1 on | 38 |",
            "32 PredictedTime, 33 Estimate, 34 NoPrediction, 35 Wafers, 36 Continue.",
        ] {
            assert!(card.contains(part), "{part}\n{card}");
        }
        assert_eq!(card.lines().filter(|line| line.starts_with("| ")).count(), 1 + 21 + 1 + 9);
    }
}

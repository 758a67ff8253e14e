//! Which causes an input meets: the rows, each with what it is refused for, clause by clause. The answer is the
//! machine's; here is said why.
use crate::causes::Cause;
use crate::numbers::row;
use crate::soundness;
use crate::standing::{Grounds, Standing};
use hawsermole::{Argument, ExpectedMap, Name, Parts, Row, Tool, ROWS, SLOTS, WAFERS};

/// A cause that an input meets, and what is the matter in particular.
#[derive(Debug, PartialEq, Eq)]
pub struct Ground {
    pub cause: Cause,
    pub detail: String,
}

/// Something is so, or there is no such ground.
pub fn ground(holds: bool, cause: Cause, detail: impl Into<String>) -> Option<Ground> {
    holds.then(|| Ground { cause, detail: detail.into() })
}

/// The grounds of the refusal that is answered: of the lowest number that applies. None where the input is accepted.
pub fn lowest(tool: &Tool, parts: &Parts) -> Vec<Ground> {
    of_lowest(all(tool, parts, ROWS.len() as u32, of_row))
}

/// The same by document 01 alone, of a tool of its own: 26 rows, CarrierOut moves the carrier at once, and nobody asks
/// who starts to load or unload.
pub fn lowest_by_01(tool: &Tool, parts: &Parts) -> Vec<Ground> {
    let asked = ![row::LOAD_START, row::UNLOAD_START].contains(&parts.number);
    let parts = Parts { value: if asked { parts.value } else { 0 }, ..*parts };
    of_lowest(all(tool, &parts, row::LAST_OF_01, of_row_by_01))
}

fn of_lowest(mut grounds: Vec<Ground>) -> Vec<Ground> {
    let lowest = grounds.iter().map(|ground| ground.cause.refusal()).min();
    grounds.retain(|ground| Some(ground.cause.refusal()) == lowest);
    grounds
}

/// State is looked at only where every part of the input is in its range.
fn all(tool: &Tool, parts: &Parts, rows: u32, of_row: fn(&Standing) -> Grounds) -> Vec<Ground> {
    let unusable = unusable(tool);
    if !unusable.is_empty() {
        return unusable;
    }
    let Some(row) = Row::numbered(parts.number).filter(|row| row.number <= rows) else {
        let detail = format!("{}; inputs are 1 to {rows}", parts.number);
        return ground(true, Cause::NoInput, detail).into_iter().collect();
    };
    let out_of_range = out_of_range(tool, row, parts);
    match out_of_range.is_empty() {
        false => out_of_range,
        true => of_row(&Standing::new(tool, parts)).into_iter().flatten().collect(),
    }
}

fn unusable(tool: &Tool) -> Vec<Ground> {
    if *tool == Tool::none() {
        return ground(true, Cause::NoTool, "").into_iter().collect();
    }
    let fault = soundness::fault(tool);
    fault.and_then(|fault| ground(true, Cause::NotSound, fault.to_string())).into_iter().collect()
}

fn out_of_range(tool: &Tool, row: &Row, parts: &Parts) -> Vec<Ground> {
    let of = |argument: &Argument| of_argument(tool, *argument, parts);
    let both = row.arguments == [Argument::PortOrNone, Argument::NameOrNone];
    let nothing = ground(both && parts.port == 0 && parts.name.is_empty(), Cause::NothingGiven, "");
    row.arguments.iter().filter_map(of).chain(nothing).collect()
}

fn of_argument(tool: &Tool, argument: Argument, parts: &Parts) -> Option<Ground> {
    let Parts { port, value, name, codes, wafers, .. } = *parts;
    let choice = |words| ground(value > 1, Cause::Value, format!("{value}, and {words}"));
    match argument {
        Argument::Port => of_port(tool, port),
        Argument::PortOrNone if port == 0 => None,
        Argument::PortOrNone => of_port(tool, port),
        Argument::Name if name.is_empty() => ground(true, Cause::NoName, ""),
        Argument::NameOrNone if name.is_empty() => None,
        Argument::Name | Argument::NameOrNone => {
            Name::in_text(name).err().and_then(|error| ground(true, Cause::Name, error.to_string()))
        }
        Argument::Access => choice("0 is MANUAL, 1 AUTO"),
        Argument::Service => choice("0 is out of service, 1 in service"),
        Argument::End => choice("0 is complete, 1 stopped"),
        Argument::Start => choice("0 is manual, 1 automatic"),
        Argument::Place => of_place(tool, value),
        Argument::Codes => of_codes(codes),
        Argument::MapOrNone if codes.is_empty() => None,
        Argument::MapOrNone => {
            let error = ExpectedMap::new(codes).err();
            error.and_then(|error| ground(true, Cause::ExpectedMap, error.to_string()))
        }
        // every number is a time
        Argument::Clock | Argument::Tp | Argument::Te => None,
        Argument::Wafers => of_wafers(wafers.len()),
    }
}

fn of_port(tool: &Tool, port: u32) -> Option<Ground> {
    let ports = tool.ports().len();
    let plural = if ports == 1 { "" } else { "s" };
    let known = (1..=ports).any(|known| known as u32 == port);
    ground(!known, Cause::Port, format!("port {port} of a tool with {ports} port{plural}"))
}

fn of_place(tool: &Tool, place: u32) -> Option<Ground> {
    let places = u32::from(tool.places());
    match places {
        0 => ground(true, Cause::NoBuffer, ""),
        _ => ground(!(1..=places).contains(&place), Cause::Place, format!("place {place} of 1 to {places}")),
    }
}

fn of_codes(codes: &[u8]) -> Option<Ground> {
    let length =
        ground(codes.len() != SLOTS, Cause::SlotMap, format!("{} codes, and not {SLOTS}", codes.len()));
    let odd = (1..).zip(codes).find(|(_, &code)| code > 5);
    let odd: Option<(u32, &u8)> = odd;
    length
        .or(odd.and_then(|(slot, code)| ground(true, Cause::SlotMap, format!("code {code} at slot {slot}"))))
}

fn of_wafers(count: usize) -> Option<Ground> {
    ground(count > WAFERS, Cause::TooManyWafers, format!("{count}, and not more than {WAFERS}"))
}

/// What a row is refused for besides 1.
fn of_row(at: &Standing) -> Grounds {
    match at.number() {
        1 => [at.name_taken(), at.reserved(), at.tied(), at.ready_to_load(), at.full()].into(),
        2 => at.cancel_bind(),
        3 => [at.name_taken(), at.full()].into(),
        4 => at.with_record(|c| [at.expected(c), at.untied(c)].into()),
        5 => at.verdict(|c| at.waits(c)),
        6 => at.verdict(|c| [at.not_in_access(c), at.home_idle(c)].into()),
        row::CARRIER_OUT => at.with_record(|c| at.carrier_out(c)),
        8 => at.with_record(|c| at.carrier_in(c)),
        9 if at.holds_access() => Grounds::new(),
        9 => [at.reserved(), at.idle()].into(),
        10 if !at.goes_out() => Grounds::new(),
        10 | 11 => [at.reserved(), at.tied(), at.ready_to_load()].into(),
        12 => [at.kept_for_out(), at.tied(), at.is_reserved()].into(),
        row::LOAD_START => [at.kept_for_out(), at.ready_to_load(), at.for_hands()].into(),
        row::LOAD_DONE => [at.loading(), at.held_already()].into(),
        row::LOAD_FAIL => [at.loading()].into(),
        16 => [at.name_elsewhere()].into_iter().chain(at.readable()).collect(),
        17 => at.readable().into(),
        18 => at.move_in(),
        19 => at.with_record(|c| at.open(c)),
        20 => at.with_record(|c| [at.is_open(c), at.map_unread(c)].into()),
        21 => at.with_record(|c| at.access_start(c)),
        22 => at.with_record(|c| [at.in_access(c)].into()),
        23 => at.with_record(|c| [at.not_closed(c), at.not_in_access(c)].into()),
        row::UNLOAD_START => [at.ready_to_unload(), at.for_hands()].into(),
        25 | 26 => [at.unloading()].into(),
        _ => of_request(at),
    }
}

/// The same of a row that a request has added.
fn of_request(at: &Standing) -> Grounds {
    match at.number() {
        row::OUT_START => {
            [at.reserved(), at.tied(), at.ready_to_load()].into_iter().chain(at.to_take()).collect()
        }
        row::OUT_DONE => [at.is_started()].into(),
        29 => at.cancel_carrier_out(),
        row::CLOCK => [at.clock()].into(),
        row::PREDICTED_TIME => at.with_record(|c| at.predicted_time(c)),
        row::ESTIMATE => at.with_record(|c| at.estimate(c)),
        row::NO_PREDICTION => at.with_record(|c| at.no_prediction(c)),
        row::WAFERS => at.with_record(|c| at.wafers(c)),
        row::CONTINUE => [at.is_held()].into(),
        _ => Grounds::new(),
    }
}

fn of_row_by_01(at: &Standing) -> Grounds {
    match at.number() {
        row::CARRIER_OUT => at.with_record(|c| {
            let out = [at.in_buffer(c), at.closed(c), at.not_in_access(c)];
            out.into_iter().chain([at.reserved(), at.tied(), at.ready_to_load()]).collect()
        }),
        _ => of_row(at),
    }
}

#[cfg(test)]
mod tests;

//! What a reply says: indented lines below the `exchange` or `reply` line.
use crate::items::items;
use hawsermole::{reply, Refusal, Tool, REPLY_ROOM};

/// The acknowledge bytes that are written, in E87's words (CMAcknowledge).
const ACKNOWLEDGED: [(u8, &str); 3] = [
    (0, "Acknowledge, command has been performed"),
    (3, "Invalid data or argument"),
    (5, "Rejected, invalid state"),
];

/// The tree of items, each with what it is in S3F18.
pub fn read(text: &[u8]) -> String {
    // The archive's reader counts the items; a reply is no S3F17, and no tool is needed to read it.
    let items = items(text, Tool::none().secs_step(text).items);
    let acknowledged = ACKNOWLEDGED.iter().find(|of| items[1].data == [of.0]);
    let acknowledged = format!("CAACK: {}", acknowledged.expect("one of the bytes that are written").1);
    let parts = ["S3F18", &acknowledged, "errors", "the error", "ERRCODE", "ERRTEXT"];
    items.iter().zip(parts).map(|(item, part)| format!("{}  ({part})\n", item.line())).collect()
}

/// Why nothing was written.
pub fn not_written(number: u32, room: usize) -> String {
    let text = reply(number, &mut [0; REPLY_ROOM]).map_or(0, <[u8]>::len);
    let refusal = Refusal::RoomTooSmall;
    format!("  refused, {}: {refusal}\n  the reply has {text} bytes, the room {room}\n", refusal.number())
}

/// Why a message wasn't answered: what its reply would have been to the tool as it was.
pub fn not_exchanged(mut before: Tool, message: &[u8], room: usize) -> String {
    let answer = before.secs_step(message).answer;
    let number = answer.map_or_else(|refusal| refusal.number(), |_| 0);
    not_written(number.into(), room) + "  the tool gets no input\n"
}

#[cfg(test)]
mod tests {
    use super::*;

    fn told(number: u32) -> String {
        read(reply(number, &mut [0; REPLY_ROOM]).unwrap())
    }

    #[test]
    fn replies_item_by_item() {
        let accepted =
            "      0  L,2  (S3F18)\n      2    U1 0  (CAACK: Acknowledge, command has been performed)\n\
                        \x20     5    L,0  (errors)\n";
        assert_eq!(told(0), accepted);
        let cut = "      0  L,2  (S3F18)\n      2    U1 3  (CAACK: Invalid data or argument)\n\
                   \x20     5    L,1  (errors)\n      7      L,2  (the error)\n      9        U2 20  (ERRCODE)\n\
                   \x20    13        A \"Message cut short\"  (ERRTEXT)\n";
        assert_eq!(told(20), cut);
        assert!(told(66_000).contains("U1 5  (CAACK: Rejected, invalid state)"));
        assert!(told(66_000).contains("U2 65535  (ERRCODE)"));
    }

    #[test]
    fn rooms_that_are_too_small() {
        let small = "  refused, 14: the room lent is too small\n  the reply has 7 bytes, the room 6\n";
        assert_eq!(not_written(0, 6), small);
        let cut = not_exchanged(Tool::none(), &[], 31);
        assert!(cut.ends_with("  the reply has 32 bytes, the room 31\n  the tool gets no input\n"), "{cut}");
    }
}

//! Answers to the host bridge (request P13), through the typed interface.
use hawsermole::{raw, reply, Refusal, Tool, REPLY_ROOM};

const FILLED: u8 = 0x55;

/// The reply to a number as SEMI E5 and the request have it, with these words.
fn built(number: u32, words: &[u8]) -> Vec<u8> {
    let acknowledge = match number {
        0 => return vec![1, 2, 0xA5, 1, 0, 1, 0],
        1 | 20..=26 => 3,
        _ => 5,
    };
    let code = number.min(65_535) as u16;
    let head = [1, 2, 0xA5, 1, acknowledge, 1, 1, 1, 2, 0xA9, 2];
    [&head, &code.to_be_bytes()[..], &[0x41, words.len() as u8], words].concat()
}

fn text(number: u32) -> Vec<u8> {
    reply(number, &mut [0; REPLY_ROOM]).unwrap().to_vec()
}

/// What the words are is docs/REPLIES.md's to say, and `diagrams/replies.sh` holds them to it.
#[test]
fn replies_around_their_words() {
    assert_eq!(text(0), built(0, b""));
    for number in (1..=300).chain([65_534, 65_535, 65_536, 65_537, u32::MAX]) {
        let text = text(number);
        let words = &text[15..];
        assert!((1..=80).contains(&words.len()) && words.is_ascii(), "{number}");
        let own = matches!(number, 1..=14 | 20..=29);
        assert_eq!(words != b"Unknown refusal", own, "{number}");
        assert_eq!(text, built(number, words), "{number}");
    }
}

/// In a room of any length: the text and the bytes after it, or 14 and every byte as it was.
#[test]
fn rooms_around_every_text() {
    for number in (0..=31).chain([65_535, 65_536]) {
        let text = text(number);
        for length in 0..=REPLY_ROOM + 1 {
            let mut room = vec![FILLED; length];
            let given = reply(number, &mut room).map(<[u8]>::len);
            if length < text.len() {
                assert_eq!((given, room), (Err(Refusal::RoomTooSmall), vec![FILLED; length]));
            } else {
                assert_eq!(given, Ok(text.len()));
                assert_eq!(room[..text.len()], text);
                assert!(room[text.len()..].iter().all(|&byte| byte == FILLED));
            }
        }
    }
}

const BIND: &[u8] = b"\x01\x05\xA5\x01\x07\x41\x04Bind\x41\x02AB\xA5\x01\x01\x01\x00";

/// With room it is the step and then its reply; without, the tool is as it was, and so is the room.
#[test]
fn an_exchange_is_a_step_and_its_reply() {
    let cut = &BIND[..BIND.len() - 1];
    let unknown = &[BIND, b"\0"].concat();
    let mut bound = Tool::setup(1, 0).unwrap();
    bound.secs_step(BIND).answer.unwrap();
    for (tool, message) in
        [(Tool::setup(1, 0).unwrap(), BIND), (bound.clone(), BIND), (bound, cut), (Tool::none(), unknown)]
    {
        let mut stepped = tool.clone();
        let given = stepped.secs_step(message);
        let text = text(given.answer.as_ref().map_or_else(|refusal| refusal.number().into(), |_| 0));
        for length in 0..=REPLY_ROOM {
            let (mut exchanged, mut room) = (tool.clone(), vec![FILLED; length]);
            let got = exchanged.secs_exchange(message, &mut room);
            assert_eq!(got.items, given.items);
            if length < text.len() {
                assert_eq!((got.answer, got.reply), (Err(Refusal::RoomTooSmall), &[][..]));
                assert_eq!((exchanged, room), (tool.clone(), vec![FILLED; length]));
            } else {
                assert_eq!((&got.answer, got.reply), (&given.answer, &text[..]));
                assert_eq!(exchanged, stepped);
                assert!(room[text.len()..].iter().all(|&byte| byte == FILLED));
            }
        }
    }
}

/// The reader of messages reads a reply to its end: another shape than S3F17, and so many items.
#[test]
fn replies_are_read_back() {
    for number in (0..=300).chain([65_535, u32::MAX]) {
        let text = text(number);
        let read = Tool::none().secs_step(&text);
        assert_eq!(read.answer, Err(Refusal::ShapeOrAction));
        assert_eq!((read.items, raw::secs_at(&text)), (if number == 0 { 3 } else { 6 }, text.len()));
    }
}

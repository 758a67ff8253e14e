//! P3's words in the plainest form, to compare the library with: items call for their elements, and
//! of every item all that it could be refused for is listed.

use independent::gen::requests::secs::Tree;

/// Code, name, and bytes of an element.
pub const KNOWN: [(u8, &str, usize); 14] = [
    (0o00, "L", 1),
    (0o10, "B", 1),
    (0o11, "BOOLEAN", 1),
    (0o20, "A", 1),
    (0o30, "I8", 8),
    (0o31, "I1", 1),
    (0o32, "I2", 2),
    (0o34, "I4", 4),
    (0o40, "F8", 8),
    (0o44, "F4", 4),
    (0o50, "U8", 8),
    (0o51, "U1", 1),
    (0o52, "U2", 2),
    (0o54, "U4", 4),
];

fn size(code: u8) -> Option<usize> {
    KNOWN.iter().find(|known| known.0 == code).map(|known| known.2)
}

pub struct Walk<'a> {
    pub rest: &'a [u8],
    pub begun: usize,
    /// All numbers that hold at the item that is refused, the lowest first.
    pub refused: Option<Vec<u32>>,
    pub tree: Option<Tree>,
}

pub fn plain_walk(text: &[u8]) -> Walk<'_> {
    let mut walk = Walk { rest: text, begun: 0, refused: None, tree: None };
    match item(&mut walk, 1) {
        Ok(tree) => walk.tree = Some(tree),
        Err(all) => walk.refused = Some(all),
    }
    walk
}

fn item(walk: &mut Walk, depth: usize) -> Result<Tree, Vec<u32>> {
    let too_many = if walk.begun < 128 { vec![] } else { vec![24] };
    let Some((&format, rest)) = walk.rest.split_first() else { return Err([vec![20], too_many].concat()) };
    let (code, length_bytes) = (format / 4, format as usize % 4);
    let is_list = code == 0;
    let shown = rest.len().min(length_bytes);
    let length = rest[..shown].iter().fold(0, |length, &byte| length * 256 + byte as usize);
    let rest = &rest[shown..];
    let cut = shown < length_bytes || !is_list && length > rest.len();
    let no_multiple = shown == length_bytes && size(code).is_some_and(|size| length % size != 0);

    let mut all = Vec::new();
    all.extend(cut.then_some(20));
    all.extend(size(code).is_none().then_some(21));
    all.extend((length_bytes == 0 || no_multiple).then_some(22));
    all.extend((is_list && depth > 6).then_some(23));
    all.extend(too_many);
    if !all.is_empty() {
        return Err(all);
    }
    walk.begun += 1;
    if !is_list {
        walk.rest = &rest[length..];
        return Ok(Tree::Data(code, rest[..length].to_vec()));
    }
    walk.rest = rest;
    let mut elements = Vec::new();
    for _ in 0..length {
        elements.push(item(walk, depth + 1)?);
    }
    Ok(Tree::List(elements))
}

/// Row, port, name and codes.
pub type Order = (u32, u32, Vec<u8>, Vec<u8>);

/// The input of a whole message, or a word on what is wrong with its shape.
pub fn plain_order(message: &Tree) -> Result<Order, &'static str> {
    one_value(message, false)?;
    let Tree::List(five) = message else { return Err("no list") };
    let [data_id, action, name, port, attributes] = &five[..] else { return Err("not five") };
    if !matches!(data_id, Tree::Data(0o50 | 0o51 | 0o52 | 0o54, _)) {
        return Err("data id");
    }
    let Tree::Data(0o20, action) = action else { return Err("action no text") };
    let Tree::Data(0o20, name) = name else { return Err("name no text") };
    let Tree::Data(0o51, port) = port else { return Err("port no U1") };
    let Tree::List(attributes) = attributes else { return Err("attributes no list") };
    for attribute in attributes {
        let Tree::List(pair) = attribute else { return Err("attribute no list") };
        let [name, _] = &pair[..] else { return Err("attribute no pair") };
        let Tree::Data(0o20, _) = name else { return Err("attribute's name no text") };
    }
    let map = first_map(attributes)?;
    let number = match &action[..] {
        b"Bind" => 1,
        b"CarrierNotification" => 3,
        b"ProceedWithCarrier" => 5,
        b"CancelCarrier" => 6,
        _ => return Err("action"),
    };
    let port = if number == 3 { 0 } else { port[0] as u32 };
    Ok((number, port, name.clone(), if number <= 3 { map } else { Vec::new() }))
}

/// Each number and boolean holds one value.
fn one_value(tree: &Tree, within: bool) -> Result<(), &'static str> {
    match tree {
        Tree::List(elements) => elements.iter().try_for_each(|element| one_value(element, true)),
        Tree::Data(0o10 | 0o20, _) => Ok(()),
        Tree::Data(_, data) if data.is_empty() => Err("no value"),
        Tree::Data(code, data) if data.len() != size(*code).unwrap() => {
            Err(if within { "many values" } else { "no list" })
        }
        _ => Ok(()),
    }
}

/// The codes of the attribute that stands first, if it is named SlotMap.
fn first_map(attributes: &[Tree]) -> Result<Vec<u8>, &'static str> {
    let Some(Tree::List(first)) = attributes.first() else { return Ok(Vec::new()) };
    if first[0] != Tree::ascii(b"SlotMap") {
        return Ok(Vec::new());
    }
    let Tree::List(slots) = &first[1] else { return Err("SlotMap no list") };
    if slots.len() != 25 {
        return Err("SlotMap not 25");
    }
    let code = |slot: &Tree| match slot {
        Tree::Data(0o51, data) => Ok(data[0]),
        _ => Err("SlotMap not of U1"),
    };
    slots.iter().map(code).collect()
}

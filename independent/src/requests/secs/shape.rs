//! The shape of an S3F17, judged on the list of its items.
//!
//! A tree is a slice of that list: an item, and behind it all the items within it.

use super::value::{Attribute, Value};
use super::{code, element_size, Item};
use crate::state::MAP_LEN;

const BIND: u32 = 1;
const CARRIER_NOTIFICATION: u32 = 3;

/// The services that a message may ask for, by the row that each is.
const ACTIONS: [(&[u8], u32); 4] = [
    (b"Bind", BIND),
    (b"CarrierNotification", CARRIER_NOTIFICATION),
    (b"ProceedWithCarrier", 5),
    (b"CancelCarrier", 6),
];

const SLOT_MAP: &[u8] = b"SlotMap";

/// The input that a message asks for.
#[derive(Clone, Copy, PartialEq, Eq, Debug)]
pub struct Order<'a> {
    pub number: u32,
    pub port: u32,
    /// As it was sent: the tool judges it.
    pub name: &'a [u8],
    /// The expected map, where the row takes one and the message has one.
    pub map: Option<[u8; MAP_LEN]>,
}

impl Order<'_> {
    /// The codes that go with the input: the map, or none.
    #[inline]
    pub fn codes(&self) -> &[u8] {
        self.map.as_ref().map_or(&[], |map| map)
    }
}

/// The input, from all the items of a message; nothing where the shape or the action is another.
pub(super) fn order<'a>(message: &'a [u8], items: &[Item]) -> Option<Order<'a>> {
    if !items.iter().all(holds_one_value) {
        return None;
    }
    let [data_id, action, name, port, attributes] = exactly(elements(items))?;
    if !matches!(data_id[0].code, code::U1 | code::U2 | code::U4 | code::U8) || port[0].code != code::U1 {
        return None;
    }
    let (action, name) = (text(message, action)?, text(message, name)?);
    let map = expected_map(message, attributes)?;

    let &(_, number) = ACTIONS.iter().find(|service| service.0 == action)?;
    let port = message[port[0].data().start] as u32;
    Some(Order {
        number,
        port: if number == CARRIER_NOTIFICATION { 0 } else { port },
        name,
        map: map.filter(|_| matches!(number, BIND | CARRIER_NOTIFICATION)),
    })
}

/// A number or boolean item holds one value. (Binary isn't a number.)
#[inline]
fn holds_one_value(item: &Item) -> bool {
    match item.code {
        code::LIST | code::BINARY | code::ASCII => true,
        code => element_size(code) == Some(item.length),
    }
}

/// The elements of a list, each a tree.
#[inline]
fn elements(tree: &[Item]) -> impl Iterator<Item = &[Item]> {
    let (depth, within) = tree.split_first().map_or((0, tree), |(list, within)| (list.depth + 1, within));
    within.chunk_by(move |_, next| next.depth > depth)
}

/// So many elements, and no more.
#[inline]
fn exactly<'i, const N: usize>(mut all: impl Iterator<Item = &'i [Item]>) -> Option<[&'i [Item]; N]> {
    let mut these: [&[Item]; N] = [&[]; N];
    for one in &mut these {
        *one = all.next()?;
    }
    all.next().is_none().then_some(these)
}

#[inline]
fn text<'a>(message: &'a [u8], tree: &[Item]) -> Option<&'a [u8]> {
    (tree[0].code == code::ASCII).then(|| &message[tree[0].data()])
}

/// Name and value of an attribute.
#[inline]
fn pair<'a, 'i>(message: &'a [u8], attribute: &'i [Item]) -> Option<(&'a [u8], &'i [Item])> {
    let [name, value] = exactly(elements(attribute))?;
    Some((text(message, name)?, value))
}

/// The map of the attribute that stands first, if it is a SlotMap; all others are attributes too.
/// Nothing at all where an attribute, or that map, has another shape.
fn expected_map(message: &[u8], attributes: &[Item]) -> Option<Option<[u8; MAP_LEN]>> {
    if !attributes[0].is_list() {
        return None;
    }
    let mut map = None;
    for (k, attribute) in elements(attributes).enumerate() {
        let (name, value) = pair(message, attribute)?;
        if k == 0 && name == SLOT_MAP {
            map = Some(slot_map(message, value)?);
        }
    }
    Some(map)
}

/// 25 U1, each of which holds one value.
fn slot_map(message: &[u8], value: &[Item]) -> Option<[u8; MAP_LEN]> {
    let slots: [&[Item]; MAP_LEN] = exactly(elements(value))?;
    let good = slots.iter().all(|slot| slot[0].code == code::U1);
    good.then(|| slots.map(|slot| message[slot[0].data().start]))
}

/// The attributes of a message whose shape is good; of no items none.
pub(super) fn attributes<'a, 'i>(
    message: &'a [u8],
    items: &'i [Item],
) -> impl Iterator<Item = Attribute<'a>> + use<'a, 'i> {
    let list = elements(items).last().unwrap_or(&[]);
    elements(list).filter_map(move |attribute| {
        let (name, value) = pair(message, attribute)?;
        Some(Attribute { name, value: Value::of(message, &value[0])? })
    })
}

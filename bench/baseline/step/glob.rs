//! Patterns of `match`.

enum Item {
    Star,
    Any,
    Byte(u8),
    Class { negated: bool, ranges: Vec<(u8, u8)> },
}

pub struct Pattern {
    pub text: Vec<u8>,
    items: Vec<Item>,
}

impl Pattern {
    pub fn new(text: Vec<u8>) -> Pattern {
        let mut items = Vec::new();
        let mut rest = &text[..];
        while let Some((&byte, tail)) = rest.split_first() {
            rest = tail;
            items.push(match byte {
                b'*' => Item::Star,
                b'?' => Item::Any,
                b'[' => match class(tail) {
                    Some((item, following)) => {
                        rest = following;
                        item
                    }
                    None => Item::Byte(b'['),
                },
                b'\\' => match tail.split_first() {
                    Some((&next, following)) => {
                        rest = following;
                        Item::Byte(next)
                    }
                    None => Item::Byte(b'\\'),
                },
                _ => Item::Byte(byte),
            });
        }
        Pattern { text, items }
    }

    /// Whether the whole text matches, or a front of it that a slash follows.
    pub fn matches(&self, text: &[u8]) -> bool {
        let (mut item, mut at) = (0, 0);
        let mut star: Option<(usize, usize)> = None;
        loop {
            match self.items.get(item) {
                None if text.get(at).is_none_or(|&b| b == b'/') => return true,
                Some(Item::Star) => {
                    item += 1;
                    star = Some((item, at));
                    continue;
                }
                Some(one) if text.get(at).is_some_and(|&b| one.takes(b)) => {
                    item += 1;
                    at += 1;
                    continue;
                }
                _ => {}
            }
            match star {
                Some((following, from)) if text.get(from).is_some_and(|&b| b != b'/') => {
                    item = following;
                    at = from + 1;
                    star = Some((following, at));
                }
                _ => return false,
            }
        }
    }
}

impl Item {
    fn takes(&self, byte: u8) -> bool {
        match self {
            Item::Star => false,
            Item::Any => byte != b'/',
            Item::Byte(own) => byte == *own,
            Item::Class { negated, ranges } => {
                byte != b'/' && ranges.iter().any(|&(low, high)| low <= byte && byte <= high) != *negated
            }
        }
    }
}

/// The class whose `[` stands just before the text, and what follows it.
fn class(text: &[u8]) -> Option<(Item, &[u8])> {
    let negated = matches!(text.first(), Some(b'!' | b'^'));
    let mut rest = &text[usize::from(negated)..];
    let mut ranges = Vec::new();
    loop {
        if rest.first() == Some(&b']') && !ranges.is_empty() {
            return Some((Item::Class { negated, ranges }, &rest[1..]));
        }
        let (low, following) = class_byte(rest)?;
        rest = following;
        let mut high = low;
        if rest.first() == Some(&b'-') && rest.get(1).is_some_and(|&b| b != b']') {
            (high, rest) = class_byte(&rest[1..])?;
        }
        ranges.push((low, high));
    }
}

fn class_byte(text: &[u8]) -> Option<(u8, &[u8])> {
    match text {
        [b'\\', byte, rest @ ..] => Some((*byte, rest)),
        [b'\\'] | [] => None,
        [byte, rest @ ..] => Some((*byte, rest)),
    }
}

//! Request lists (option 55), and the options of a reply that they decide on.

use super::random::Random;

/// The options that go out only if listed, where there is a list.
pub const LISTABLE: [u8; 4] = [51, 61, 82, 91];
/// Codes that a list can have at the most.
pub const LIST_MAX: usize = 255;

/// A list of one code to `most`, which is 4 or more. Each set of the four is
/// as likely as another; other codes stand among them, and at times codes
/// twice.
pub fn some_list(random: &mut Random, most: usize) -> Vec<u8> {
    let set = random.below(16);
    let mut list = LISTABLE.to_vec();
    list.retain(|&code| set >> place(code) & 1 == 1);
    let more = random.pick(&[0, 0, 1, 3, 20, LIST_MAX]);
    let codes = (list.len() + more).clamp(1, most);
    let twice = random.one_in(2);
    while list.len() < codes {
        let code = match list.len() {
            0 => other_code(random),
            there if twice && random.one_in(3) => list[random.below(there)],
            _ => other_code(random),
        };
        list.push(code);
    }
    random.shuffle(&mut list);
    if random.one_in(4) {
        list.sort_by_key(|code| LISTABLE.contains(code));
    }
    list
}

/// The place of a code among the four.
fn place(code: u8) -> usize {
    let found = LISTABLE.iter().position(|&known| known == code);
    found.expect("one of the four")
}

/// A code that is none of the four, often one next to them or one that the
/// box sends unasked.
fn other_code(random: &mut Random) -> u8 {
    let any = random.octet();
    let code = random.pick(&[
        any, any, any, 0, 50, 52, 53, 54, 55, 60, 62, 81, 83, 90, 92, 255,
    ]);
    if LISTABLE.contains(&code) {
        92
    } else {
        code
    }
}

/// What the set of those of the four is called that have a property.
pub fn set_of(has: impl Fn(u8) -> bool) -> String {
    let codes = LISTABLE.into_iter().filter(|&code| has(code));
    let codes: Vec<String> = codes.map(|code| code.to_string()).collect();
    match codes.len() {
        0 => "none".to_string(),
        _ => codes.join(" "),
    }
}

/// A kind for each set of the four, under a title. They live as long as the
/// test.
pub fn set_kinds(title: &str) -> Vec<&'static str> {
    let set = |chosen: usize| set_of(|code| chosen >> place(code) & 1 == 1);
    let kinds = (0..16).map(|chosen| format!("{title}: {}", set(chosen)));
    kinds.map(|kind| &*kind.leak()).collect()
}

//! The name option: its flags, its answer, and why it is refused.

use jespurla::{flag_decision, name_option_answer, FlagDecision, Name, Refusal};

fn suffix() -> Name {
    "stage.".parse().expect("a name")
}

/// What the answer to a value is, or why it is refused.
fn answer(value: &[u8]) -> Result<Vec<u8>, Refusal> {
    let mut reply = [9; 256];
    let told = name_option_answer(value, &suffix(), true, false, &mut reply);
    told.map(|told| told.as_bytes().to_vec())
}

#[test]
fn flags_are_decided() {
    use FlagDecision::{NoFlag, N, O, S};
    let row = |s, n| [0, 1, 4].map(|flags| flag_decision(flags, s, n));
    assert_eq!(row(false, false), [Ok(NoFlag), Ok(O), Ok(NoFlag)]);
    assert_eq!(row(true, false), [Ok(NoFlag), Ok(S), Ok(NoFlag)]);
    assert_eq!(row(false, true), [Ok(NoFlag), Ok(O), Ok(N)]);
    assert_eq!(row(true, true), [Ok(NoFlag), Ok(S), Ok(N)]);
    assert_eq!(flag_decision(249, true, false), Ok(S));
    for flags in [2, 3, 5, 6, 7] {
        assert_eq!(flag_decision(flags, true, true), Err(Refusal::Flags));
    }
}

#[test]
fn names_are_answered() {
    let full = b"\x00\x05pipe7\x04oboe\x00";
    assert_eq!(answer(full), Ok(full.to_vec()));
    assert_eq!(
        answer(b"\x01\x05pipe7"),
        Ok(b"\x01\x05pipe7\x05stage\x00".to_vec())
    );
    let mut reply = [9; 256];
    let told = name_option_answer(b"\x01\x05pipe7", &suffix(), false, false, &mut reply);
    let told = told.expect("a sound option");
    assert_eq!(told.flags(), FlagDecision::O);
    assert_eq!(told.name(), "pipe7.stage".parse().expect("a name"));
    assert_eq!(told.as_bytes().len(), 14);
    assert!(reply[14..].iter().all(|&octet| octet == 9));
}

#[test]
fn names_are_answered_octet_for_octet() {
    let full = b"\x00\x05Pipe7\x04oBoE\x00";
    assert_eq!(answer(full), Ok(full.to_vec()));
    let mut reply = [9; 256];
    let suffix = "Stage.".parse().expect("a name");
    let told = name_option_answer(b"\x01\x05pIPE7", &suffix, true, false, &mut reply);
    let told = told.expect("a sound option");
    assert_eq!(told.as_bytes(), b"\x01\x05pIPE7\x05Stage\x00");
    assert_eq!(told.name().as_wire(), b"\x05pIPE7\x05Stage\x00");
}

#[test]
fn options_are_refused() {
    let mut short = [9; 255];
    let told = name_option_answer(b"", &suffix(), true, true, &mut short);
    assert_eq!(told, Err(Refusal::NameReplyRoom));
    assert_eq!(short, [9; 255]);
    assert_eq!(answer(b""), Err(Refusal::Flags));
    assert_eq!(answer(b"\x02\x05pipe7"), Err(Refusal::Flags));
    assert_eq!(answer(b"\x00"), Err(Refusal::NameEmpty));
    assert_eq!(answer(b"\x00\x00"), Err(Refusal::Name));
    assert_eq!(answer(b"\x00\x05pipe"), Err(Refusal::Name));
    let long = [&[0][..], &[1; 250]].concat();
    assert_eq!(answer(&long), Err(Refusal::NameTooLong));
}

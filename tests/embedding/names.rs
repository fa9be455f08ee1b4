//! What `virtiofs_map.rs` does itself with attribute names: its types and errors, names that are borrowed or owned, the
//! buffers that it lends, and what its maps pass on and give back. What is wanted is worked out by hand from the
//! documentation.

#[path = "../../bindings/rust/virtiofs_map.rs"]
mod virtiofs_map;

use std::borrow::Cow;
use std::error::Error as _;
use std::ffi::CString;
use std::io::{self, ErrorKind::InvalidInput, ErrorKind::OutOfMemory, ErrorKind::PermissionDenied};
use virtiofs_map::ffi::{Fault, virtiofs_map_fault_text};
use virtiofs_map::soft_idmap::cmdline::IdMapError;
use virtiofs_map::xattrmap::{AppliedRule, Audit, Error, ErrorKind, PatternField, XattrMap};

const MAP: &str = ":map:trusted.:user.virtiofs.:";

#[test]
fn names_and_lists_are_answered() {
    for (text, asked, wanted, list, listed) in [
        (MAP, &b"trusted.a"[..], Some(pass(b"user.virtiofs.trusted.a")),
            &b"user.virtiofs.a\0trusted.b\0c\0"[..], Some(&b"a\0c\0"[..])),
        (MAP, b"user.virtiofs.a", Some(AppliedRule::Deny), b"user.virtiofs.", Some(b"\0")),
        (":ok:all:::", b"\xff\xc3", Some(pass(b"\xff\xc3")), b"a\0b", Some(b"a\0b\0")),
        (":prefix:all::\u{e9}:", b"", Some(pass(b"\xc3\xa9")), b"", Some(b"\0")),
        (":unsupported:client:a:: :ok:server:::", b"a", Some(AppliedRule::Unsupported), b"\xff\0", Some(b"\xff\0")),
        (":ok:client:a:: :ok:server::a:", b"b", None, b"b\0", None),
    ] {
        let (map, name, no_rule) = (rules(text), name(asked), || Error::from(ErrorKind::UnterminatedMapping));
        assert_eq!(map.map_client_xattr(&name), wanted.ok_or_else(no_rule), "{text}");
        assert_eq!(map.map_server_xattrlist(list.to_vec()), listed.map(Vec::from).ok_or_else(no_rule), "{text}");
    }
}

/// What a daemon hands on has no empty name, and its names are those that the guest sees.
#[test]
fn names_of_the_host_are_handed_on() {
    let no_rule = || Error::from(ErrorKind::UnterminatedMapping);
    for (text, list, handed_on) in [
        (MAP, &b"user.virtiofs.a\0trusted.b\0c\0user.virtiofs."[..], Ok(&b"a\0c\0"[..])),
        (MAP, b"user.virtiofs.\0\0", Ok(b"")),
        (MAP, b"", Ok(b"")),
        (":ok:client:a:: :ok:server::a:", b"a\0b\0", Err(no_rule())),
    ] {
        assert_eq!(rules(text).list_to_guest(list), handed_on.map(Vec::from), "{text}");
    }
    for (host, guest) in [
        (&b"user.virtiofs.a"[..], Some(&b"a"[..])), (b"c", Some(b"c")), (b"trusted.b", None), (b"user.virtiofs.", None),
    ] {
        assert_eq!(rules(MAP).name_to_guest(&name(host)), Ok(guest.map(name)));
    }
    assert_eq!(rules(":ok:client:::").name_to_guest(&name(b"a")), Err(no_rule()));
    let long = b"a".repeat(5000);
    assert_eq!(rules(":ok:all:::").name_to_guest(&name(&long)), Ok(Some(name(&long))));
}

#[test]
fn texts_of_which_no_map_is_made() {
    use ErrorKind::{IncompleteRule, InvalidScope, InvalidType, MapRuleViolation, NoRulesProvided, NulInPattern};
    let scope = |got: &str| InvalidScope { got: got.into(), expected: "all, client, server".into() };
    let of_type = |got: &str| InvalidType { got: got.into(), expected: "prefix, ok, bad, map".into() };
    for (text, cause, rule, sentence) in [
        (":ok:all::: :bad:\x1b[2J\n\\\0 ~\x7f\u{e9}:::", scope("\x1b[2J\n\\\0 ~\x7f\u{e9}"), Some(2),
            r"rule 2: invalid scope '\x1b[2J\x0a\\\x00 ~\x7fé', expected one of: all, client, server"),
        (":\u{170}refix:all:::", of_type("\u{170}refix"), Some(1),
            "rule 1: invalid type 'Űrefix', expected one of: prefix, ok, bad, map"),
        (":prefix:client:hi", IncompleteRule, Some(1), "rule 1: the rule is incomplete"),
        (":bad:all:x:y: :map::P: :ok:all:::", MapRuleViolation, Some(2), "rule 2: a map rule has to stand last"),
        (" ", NoRulesProvided, None, "there are no rules"),
        (":ok:all:a\0:b:", NulInPattern { pattern: PatternField::Key }, Some(1), "rule 1: Key holds NUL"),
        (":map:a:b\0:", NulInPattern { pattern: PatternField::Prepend }, Some(1), "rule 1: Prepend holds NUL"),
    ] {
        let error = XattrMap::try_from(text).unwrap_err();
        assert_eq!((error.sentence().as_str(), &error), (sentence, &Error { cause, rule }));
        let error = io::Error::from(error);
        assert_eq!((error.kind(), error.to_string().as_str()), (InvalidInput, sentence));
    }
    // (as virtiofsd 1.13.2 prints them, but the second, which it takes for a `prefix` rule)
    for (text, printed) in [
        (":\u{f6}k:all:::", "{ cause: InvalidType { got: \"\u{fffd}k\", expected: \"prefix, ok, bad, map\" }, rule: Some(1) }"),
        (":\u{170}refix:all:::", "{ cause: InvalidType { got: \"\u{170}refix\", expected: \"prefix, ok, bad, map\" }, rule: Some(1) }"),
        (":ok:\u{170}ll:::", "{ cause: InvalidScope { got: \"pll\", expected: \"all, client, server\" }, rule: Some(1) }"),
    ] {
        assert_eq!(XattrMap::try_from(text).unwrap_err().to_string(), format!("Error {printed}"));
    }
    for (cause, sentence, kind) in [
        (ErrorKind::UnterminatedMapping, "no rule decides this name", PermissionDenied),
        (ErrorKind::InvalidDelimiter, "the delimiter is not the rule's first", InvalidInput),
        (ErrorKind::OutOfMemory, "Out of memory", OutOfMemory),
    ] {
        assert_eq!((cause.sentence().as_str(), io::Error::from(Error::from(cause)).kind()), (sentence, kind));
    }
}

/// The characters of the general categories Cc, Cf, Zl and Zp, by the first and the last.
const ESCAPED: [(u32, u32); 24] = [
    (0, 0x1f), (0x7f, 0x9f), (0xad, 0xad), (0x600, 0x605), (0x61c, 0x61c), (0x6dd, 0x6dd), (0x70f, 0x70f),
    (0x890, 0x891), (0x8e2, 0x8e2), (0x180e, 0x180e), (0x200b, 0x200f), (0x2028, 0x2029), (0x202a, 0x202e),
    (0x2060, 0x2064), (0x2066, 0x206f), (0xfeff, 0xfeff), (0xfff9, 0xfffb), (0x110bd, 0x110bd), (0x110cd, 0x110cd),
    (0x13430, 0x1343f), (0x1bca0, 0x1bca3), (0x1d173, 0x1d17a), (0xe0001, 0xe0001), (0xe0020, 0xe007f),
];

/// The sentence of C for a fault that quotes a text.
fn sentence_in_c(kind: u32, number: u32, text: &str) -> String {
    let fault = Fault { kind, number, quoted: text.len(), wanted: text.len(), ..Fault::default() };
    let (mut out, mut len) = ([0; 128], 0);
    let code = unsafe {
        virtiofs_map_fault_text(&fault, text.as_ptr(), text.len(), out.as_mut_ptr(), out.len(), &mut len)
    };
    assert_eq!(code, 0);
    String::from_utf8(out[..len].to_vec()).unwrap()
}

#[test]
fn every_character_is_quoted_alike_in_c_and_in_rust() {
    for it in '\0'..=char::MAX {
        let (text, place) = (it.to_string(), it as u32);
        let wanted = match it {
            '\\' => r"\\".into(),
            _ if ESCAPED.iter().any(|(first, last)| (*first..=*last).contains(&place)) => {
                text.bytes().map(|byte| format!("\\x{byte:02x}")).collect()
            }
            _ => text.clone(),
        };
        let of_type = format!("invalid type '{wanted}', expected one of: prefix, ok, bad, map");
        assert_eq!(sentence_in_c(13, 0, &text), of_type);
        let cause = ErrorKind::InvalidType { got: text.clone(), expected: "prefix, ok, bad, map".into() };
        assert_eq!(cause.sentence(), of_type);
        let of_value = format!("Invalid value {wanted} in ID map: invalid digit found in string");
        assert_eq!(sentence_in_c(8, 1, &text), of_value);
        let error = "x".parse::<u32>().unwrap_err();
        assert_eq!(IdMapError::InvalidValue { value: text, error }.to_string(), of_value);
    }
}

#[test]
fn audits_are_passed_on() {
    let (labels, lost, one, other) = (rules(MAP), rules(":ok:client:::"), rules(":map::a.:"), rules(":map::a.b.:"));
    assert_eq!((labels.is_terminated(), lost.is_terminated()), (true, false));
    assert_eq!((labels.audit(), lost.audit()), (Ok(Audit::Yes), Ok(no(b"\x01"))));
    assert_eq!((labels.audit_listed(), lost.audit_listed()), (Ok(no(b"user.virtiofs.")), Ok(Audit::Yes)));
    // (each of two maps tells a name of its own)
    assert_eq!((one.keeps_apart(&other), other.keeps_apart(&one)), (Ok(no(b"b.")), Ok(no(b""))));
    assert_eq!((one.shares_no_name(&other), other.shares_no_name(&one)), (Ok(no(b"b.")), Ok(no(b""))));
    let hides = rules(":ok:client::: :bad:server:::");
    assert_eq!((hides.keeps_apart(&hides), hides.shares_no_name(&hides)), (Ok(Audit::Yes), Ok(no(b"\x01"))));
}

fn name(text: &[u8]) -> CString {
    CString::new(text).expect("a name holds no zero")
}

fn pass(text: &[u8]) -> AppliedRule<'static> {
    AppliedRule::Pass(Cow::Owned(name(text)))
}

fn no(text: &[u8]) -> Audit {
    Audit::No(name(text))
}

fn rules(text: &str) -> XattrMap {
    XattrMap::try_from(text).expect("a text of rules")
}

/// Answers of just the room that the file lends, of one byte less or more, and of many.
#[test]
fn answers_have_any_length() {
    let map = rules(":prefix:client:a:pre.:");
    for len in [5, 255, 256, 257, 5000] {
        let (asked, key) = (name(&b"a".repeat(len - 4)), "k".repeat(len));
        let Ok(AppliedRule::Pass(Cow::Owned(passed))) = map.map_client_xattr(&asked) else { panic!("{len}") };
        assert_eq!(passed.to_bytes_with_nul(), [b"pre.", asked.to_bytes_with_nul()].concat());
        let audited = rules(&format!(":prefix:client:{key}:user.: :ok:all:::"));
        assert_eq!(audited.audit(), Ok(no(key.as_bytes())), "{len}");
        let list = [&b"a".repeat(len)[..], b"\0", &b"b".repeat(len)].concat();
        assert_eq!(rules(":ok:all:::").map_server_xattrlist(list.clone()), Ok([&list[..], b"\0"].concat()));
    }
}

#[test]
fn a_name_that_passes_as_it_is_is_borrowed() {
    let (map, asked) = (rules(":ok:all:::"), name(b"user.virtiofs.potato"));
    let Ok(AppliedRule::Pass(Cow::Borrowed(passed))) = map.map_client_xattr(&asked) else { panic!("it is owned") };
    drop(map);
    assert_eq!(passed.as_ptr(), asked.as_ptr());
}

#[test]
fn errors_have_a_source() {
    let error = XattrMap::try_from(":prefix:client:hi").unwrap_err();
    assert_eq!(error.source().unwrap().to_string(), "IncompleteRule");
    assert_eq!(error.to_string(), "Error { cause: IncompleteRule, rule: Some(1) }");
    assert_eq!(Error::from(ErrorKind::OutOfMemory), Error { cause: ErrorKind::OutOfMemory, rule: None });
}

/// Equal rules, in whatever words; and other rules that do the same to all names.
#[test]
fn maps_are_equal_where_their_rules_are() {
    for (one, other, are_equal) in [
        (MAP, "/prefix/all/trusted./user.virtiofs./ /bad/all/user.virtiofs./trusted./ =ok=all===", true),
        (":ok:all:::", ":ok:all::: :bad:all:::", false),
        (":bad:all:::", ":unsupported:all:::", false),
        (":ok:client:a::", ":ok:all:a::", false),
        (":ok:all:a:b:", ":ok:all:b:a:", false),
    ] {
        assert_eq!(rules(one).clone() == rules(other), are_equal, "{one}");
    }
    assert_eq!(format!("{:?}", rules(MAP)), "XattrMap { .. }");
}

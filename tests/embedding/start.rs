//! What `virtiofs_map_start.rs` makes of the values of options, and which errno it has for an error. What is wanted is
//! worked out by hand from the documentation.

#[path = "../../bindings/rust/virtiofs_map.rs"]
mod virtiofs_map;
#[path = "../../bindings/rust/virtiofs_map_start.rs"]
mod virtiofs_map_start;

use std::ffi::CString;
use std::io;
use virtiofs_map::soft_idmap::{GuestGid, GuestUid};
use virtiofs_map_start::{errno_of, name_to_host, MapOption, Maps};

#[test]
fn options_make_maps() {
    let users = ["map:0:600:9", "forbid-guest:9:1", "guest:10:4294967295:1"];
    let maps = Maps::from_options(&users, &["map:0:300:9"], Some(":map:trusted.:user.virtiofs.:")).expect("maps");
    assert_eq!(maps.users.checked_map_guest(GuestUid::from(5)).ok().map(u32_of), Some(605));
    assert_eq!(maps.groups.checked_map_guest(GuestGid::from(5)).ok().map(u32_of), Some(305));
    for (name, wanted) in [("trusted.x", Ok("user.virtiofs.trusted.x")), ("a", Ok("a")), ("user.virtiofs.a", Err(1))] {
        let name = CString::new(name).expect("a name");
        let found = name_to_host(&maps.names, &name).map(|it| it.into_owned()).map_err(|error| errno_of(&error));
        assert_eq!(found, wanted.map(|it| CString::new(it).expect("a name")));
    }
    for (name, rules, errno) in [("a".repeat(256), ":ok:all:::", 36), ("a".into(), ":unsupported:all:::", 95)] {
        let (maps, name) = (Maps::from_options::<&str>(&[], &[], Some(rules)).expect("maps"), CString::new(name));
        assert_eq!(errno_of(&name_to_host(&maps.names, &name.expect("a name")).unwrap_err()), errno);
    }
    for (id, errno) in [(9, 1), (10, 22)] {
        let error = io::Error::from(maps.users.checked_map_guest(GuestUid::from(id)).unwrap_err());
        assert_eq!(errno_of(&error), errno);
    }
    let plain = Maps::from_options::<&str>(&[], &[], None).expect("maps");
    assert_eq!(plain.users.checked_map_guest(GuestUid::from(5)).ok().map(u32_of), Some(5));
    assert_eq!(errno_of(&io::Error::from_raw_os_error(28)), 28);
    assert_eq!((errno_of(&io::ErrorKind::OutOfMemory.into()), errno_of(&io::ErrorKind::Other.into())), (12, 5));
}

#[test]
fn options_are_refused() {
    use MapOption::{Groups, Rules, Users};
    for (users, groups, rules, option, index, sentence) in [
        (&["map:0:600:9", "map:1:2"][..], &["x"][..], "x", Users, 1,
            "specification 2: Invalid ID map length (expected 3 elements, got 2 elements)"),
        (&["map:0:600:9", "guest:8:7:1"], &[], "x", Users, 1,
            "specification 2: guest:8:7:1: Guest-to-host mapping 'map [8, 9) to [7, 8)' intersects previously added entry"),
        (&[], &["map:0:300:9", "map:1:2\x1b:3"], "x", Groups, 1,
            "specification 2: Invalid value 2\\x1b in ID map: invalid digit found in string"),
        (&[], &[], ":ok:all::: :bad:nope:::", Rules, 0,
            "rule 2: invalid scope 'nope', expected one of: all, client, server"),
    ] {
        let refusal = Maps::from_options(users, groups, Some(rules)).unwrap_err();
        assert_eq!((refusal.option, refusal.index, refusal.to_string().as_str()), (option, index, sentence));
    }
}

fn u32_of<T: virtiofs_map::soft_idmap::Id<Inner = u32>>(id: T) -> u32 {
    id.into_inner()
}

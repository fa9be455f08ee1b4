//! What `virtiofs_map.rs` does itself with ids: its types, texts and errors, and what its maps pass on and give back.
//! The texts are virtiofsd's. What is wanted is worked out by hand from the documentation.

#[path = "../../bindings/rust/virtiofs_map.rs"]
mod virtiofs_map;

use std::io::{self, ErrorKind::InvalidInput, ErrorKind::Other, ErrorKind::PermissionDenied};
use virtiofs_map::idmap::{GidMap, IdMapError as RangeError, IdMapSetUpPipeMessage, UidMap};
use virtiofs_map::soft_idmap::cmdline::{self, IdMap::*};
use virtiofs_map::soft_idmap::id_types::{GidOffset, UidOffset};
use virtiofs_map::soft_idmap::{BuildError, CheckedMapError, GuestGid, GuestUid, HostGid, HostUid, IdMap, MapError};
use virtiofs_map::soft_idmap::{GuestId, HostId, Id};

#[test]
fn specifications_are_read_and_printed() {
    for (text, spec, printed) in [
        ("guest:1:2:3", Guest { from_guest: 1, to_host: 2, count: 3 }, "guest:1:2:3"),
        ("HOST/1/2/3", Host { from_host: 1, to_guest: 2, count: 3 }, "host:1:2:3"),
        ("squash-guest 1 2 3", SquashGuest { from_guest: 1, to_host: 2, count: 3 }, "squash-guest:1:2:3"),
        ("squash-host:1:2:3", SquashHost { from_host: 1, to_guest: 2, count: 3 }, "squash-host:1:2:3"),
        ("map+00+1000+10", Bidirectional { guest: 0, host: 1000, count: 10 }, "map:0:1000:10"),
        ("FORBID-GUEST/7/3", ForbidGuest { from_guest: 7, count: 3 }, "forbid-guest:7:3"),
    ] {
        let read: cmdline::IdMap = text.parse().unwrap();
        assert_eq!((read, read.to_string().as_str()), (spec, printed));
    }
}

#[test]
fn texts_that_are_no_specification() {
    for (text, printed) in [
        ("FOO-\u{130}r:1", "Invalid ID map prefix foo-i\u{307}r"),
        ("foo", "Invalid ID map length (expected 1 elements, got 0 elements)"),
        ("forbid-guest:1:2:3", "Invalid ID map length (expected 2 elements, got 3 elements)"),
        ("foo:x", "Invalid value x in ID map: invalid digit found in string"),
        ("map:\x1b[2J\n\\\0 ~\x7f\"\u{e9}\u{200b}:1:2",
            "Invalid value \\x1b[2J\\x0a\\\\\\x00 ~\\x7f\"\u{e9}\\xe2\\x80\\x8b in ID map: invalid digit found in string"),
        ("map:1:2:3:", "Invalid value  in ID map: cannot parse integer from empty string"),
        ("map:4294967296:0:1", "Invalid value 4294967296 in ID map: number too large to fit in target type"),
    ] {
        assert_eq!(text.parse::<cmdline::IdMap>().unwrap_err().to_string(), printed);
    }
    assert_eq!(cmdline::IdMapError::OutOfMemory.to_string(), "Out of memory");
    let read = |text: &str| text.parse::<cmdline::IdMap>().unwrap_err();
    assert!(matches!(read("foo:1"), cmdline::IdMapError::InvalidPrefix(word) if word == "foo"));
    assert!(matches!(read("map:1:2"), cmdline::IdMapError::InvalidLength { expected: 3, seen: 2 }));
    assert!(matches!(read("map:-0:1:2"), cmdline::IdMapError::InvalidValue { value, error }
        if value == "-0" && error == "-0".parse::<u32>().unwrap_err()));
}

#[test]
fn ranges_of_a_namespace() {
    let users: UidMap = "/0/100000/65536/".parse().unwrap();
    assert_eq!(users, UidMap { inside_uid: 0, outside_uid: 100000, count: 65536 });
    let groups: GidMap = "+1+2+3+".parse().unwrap();
    assert_eq!(groups, GidMap { inside_gid: 1, outside_gid: 2, count: 3 });
    assert_eq!((users.to_string(), groups.to_string()), (":0:100000:65536:".into(), ":1:2:3:".into()));
    for (text, printed) in [
        (":1:2:3", "A delimiter has been found that does not match the delimiter the map started with"),
        (":0:1:2::", "The map is empty or incorrect number of values are provided"),
        ("", "The map is empty or incorrect number of values are provided"),
        (":1::x:", "cannot parse integer from empty string"),
        (":0:1:+:", "invalid digit found in string"),
        ("\u{a7}4294967296\u{a7}\u{a7}\u{a7}", "number too large to fit in target type"),
    ] {
        let (of_users, of_groups) = (text.parse::<UidMap>().unwrap_err(), text.parse::<GidMap>().unwrap_err());
        assert_eq!((of_users.to_string().as_str(), of_users), (printed, of_groups));
    }
    let error = "x".parse::<u32>().unwrap_err();
    assert_eq!(RangeError::from(error.clone()), RangeError::InvalidValue(error));
    assert_eq!((IdMapSetUpPipeMessage::Request as u8, IdMapSetUpPipeMessage::Done as u8), (1, 2));
    assert_eq!(":".parse::<UidMap>(), Err(RangeError::InvalidDelimiter));
    assert_eq!("::".parse::<GidMap>(), Err(RangeError::IncompleteMap));
}

/// The specifications of a text, with a blank between each two.
fn specs(text: &str) -> Vec<cmdline::IdMap> {
    text.split_whitespace().map(|it| it.parse().expect("a specification")).collect()
}

#[test]
fn lists_of_which_no_map_is_made() {
    let met = "intersects previously added entry";
    for (list, kind, text) in [
        ("guest:0:4294967290:10", InvalidInput, "Parameter guest:0:4294967290:10: Range overflow"),
        ("map:0:1:2 forbid-guest:4294967295:1", InvalidInput, "Parameter forbid-guest:4294967295:1: Range overflow"),
        ("guest:0:100:10 guest:5:200:1", Other, "guest:5:200:1: Guest-to-host mapping 'map [5, 6) to [200, 201)'"),
        ("map:0:1000:10 host:1005:0:1", Other, "host:1005:0:1: Host-to-guest mapping 'map [1005, 1006) to [0, 1)'"),
        ("map:0:9:2 map:0:7:5", Other, "map:0:7:5: Guest-to-host mapping 'map [0, 5) to [7, 12)'"),
        ("map:0:9:2 map:5:7:4", Other, "map:5:7:4: Host-to-guest mapping 'map [7, 11) to [5, 9)'"),
        ("guest:0:1:1 guest:0:4294967295:1", Other,
            "guest:0:4294967295:1: Guest-to-host mapping 'map [0, 1) to [4294967295, 4294967296)'"),
        ("guest:0:1:1 squash-guest:0:4294967295:4294967295", Other,
            "squash-guest:0:4294967295:4294967295: Guest-to-host mapping 'squash [0, 4294967295) to 4294967295'"),
        ("host:7:1:1 squash-host:6:9:2", Other, "squash-host:6:9:2: Host-to-guest mapping 'squash [6, 8) to 9'"),
        ("guest:0:100:10 forbid-guest:0:3", Other, "forbid-guest:0:3: Guest-to-host mapping 'fail [0, 3)'"),
    ] {
        let (list, place) = (specs(list), list.split_whitespace().count() - 1);
        let error = IdMap::<GuestUid, HostUid>::try_from(list).unwrap_err();
        let text = if kind == Other { format!("{text} {met}") } else { text.into() };
        assert_eq!((error.kind(), error.to_string()), (kind, text));
        let held = error.get_ref().and_then(|it| it.downcast_ref::<BuildError>());
        assert_eq!(held.map(|it| it.place), Some(place));
    }
}

/// A list, a guest's id and what it becomes, and a host's id and what it becomes. Whoever checks gets no 4294967295.
const LOOKUPS: [(&str, u32, Option<u32>, u32, u32); 5] = [
    ("", u32::MAX, Some(u32::MAX), u32::MAX, u32::MAX),
    ("map:0:1000:10 forbid-guest:20:1 guest:5:4294967295:0", 20, None, 1005, 5),
    ("squash-guest:0:100:4294967295 host:100:1000:1", 7, Some(100), 100, 1000),
    ("guest:0:4294967290:6 squash-host:7:4294967295:3", 5, Some(u32::MAX), 9, u32::MAX),
    ("map:0:4294967290:5", 4, Some(u32::MAX - 1), u32::MAX - 1, 4),
];

fn see_lookups<Guest, Host>()
where
    Guest: GuestId<HostType = Host, Inner = u32>,
    Host: HostId<GuestType = Guest, Inner = u32>,
{
    for (list, guest, to_host, host, to_guest) in LOOKUPS {
        let made = IdMap::<Guest, Host>::try_from(specs(list)).expect(list);
        let map = made.clone();
        drop(made);
        assert_eq!(map.map_guest(guest.into()).ok().map(Id::into_inner), to_host, "{list}");
        assert_eq!(map.map_host(host.into()).expect(list).into_inner(), to_guest, "{list}");
        assert_eq!(IdMap::<Guest, Host>::empty().map_guest(guest.into()).expect("no fault").into_inner(), guest);
        let (guest, host) = (Guest::from(guest), Host::from(host));
        assert_eq!(map.checked_map_guest(guest), match to_host {
            None => Err(CheckedMapError::Forbidden { id: guest }),
            Some(u32::MAX) => Err(CheckedMapError::NoId { id: guest }),
            Some(to) => Ok(Host::from(to)),
        });
        let no_id = CheckedMapError::NoId { id: host };
        assert_eq!(map.checked_map_host(host), if to_guest == u32::MAX { Err(no_id) } else { Ok(to_guest.into()) });
    }
}

#[test]
fn maps_answer_for_users_and_for_groups() {
    see_lookups::<GuestUid, HostUid>();
    see_lookups::<GuestGid, HostGid>();
}

#[test]
fn a_forbidden_id_is_an_error_of_the_system() {
    let map = IdMap::<GuestUid, HostUid>::try_from(specs("forbid-guest:7:3")).expect("an accepted list");
    let error = map.map_guest(GuestUid::from(8)).unwrap_err();
    assert!(matches!(error, MapError::ExplicitFailMapping { id } if id == GuestUid::from(8)));
    assert_eq!(error.to_string(), "Use of ID 8 has been configured to fail");
    let error = io::Error::from(error);
    assert_eq!((error.kind(), error.to_string()), (PermissionDenied, "Use of ID 8 has been configured to fail".into()));
    assert!(error.get_ref().unwrap().is::<MapError<GuestUid>>());
    for (id, kind, text) in [
        (8, PermissionDenied, "Use of ID 8 has been configured to fail"),
        (u32::MAX, InvalidInput, "ID 4294967295 becomes 4294967295, which is no ID"),
    ] {
        let error = io::Error::from(map.checked_map_guest(GuestUid::from(id)).unwrap_err());
        assert_eq!((error.kind(), error.to_string().as_str()), (kind, text));
    }
    assert_eq!(format!("{map:?}"), "IdMap { .. }");
}

// ---- types ----

fn see_id<I: Id<Inner = u32> + Default>() {
    assert!(I::default().is_root() && I::from(0) == I::default() && !I::from(1).is_root() && I::from(1) < I::from(2));
    assert_eq!((I::from(u32::MAX).to_string(), I::from(7).into_inner()), ("4294967295".into(), 7));
    assert_eq!(std::mem::size_of::<I>(), 4);
}

#[test]
fn ids_are_numbers() {
    see_id::<GuestUid>();
    see_id::<GuestGid>();
    see_id::<HostUid>();
    see_id::<HostGid>();
    assert_eq!((GuestUid::from(7).id_mapped(), GuestGid::from(8).id_mapped()), (HostUid::from(7), HostGid::from(8)));
    assert_eq!((HostUid::from(7).id_mapped(), HostGid::from(8).id_mapped()), (GuestUid::from(7), GuestGid::from(8)));
}

#[test]
fn offsets_lead_from_one_range_to_another() {
    let (users, groups): (UidOffset, GidOffset) = (HostUid::from(13) - 8.into(), HostGid::from(23) - 21.into());
    assert_eq!((GuestUid::from(5) + users, GuestGid::from(8) + groups), (10.into(), 10.into()));
    let (users, groups): (UidOffset, GidOffset) = (GuestUid::from(34) - 21.into(), GuestGid::from(66) - 55.into());
    assert_eq!((HostUid::from(13) + users, HostGid::from(21) + groups), (26.into(), 32.into()));
}

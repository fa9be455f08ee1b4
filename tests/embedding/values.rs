//! What `virtiofs_map_acl.rs` passes on of values with ids and of their maps, and its errors with their texts. What is
//! wanted is worked out by hand from the documentation; the list with more than one entry is one that Linux wrote.

#[path = "../../bindings/rust/virtiofs_map.rs"]
mod virtiofs_map;
#[path = "../../bindings/rust/virtiofs_map_acl.rs"]
mod virtiofs_map_acl;

use std::convert::TryFrom;
use std::ffi::CString;
use std::io::{self, ErrorKind::InvalidInput, ErrorKind::PermissionDenied};
use virtiofs_map::soft_idmap::{cmdline::IdMap as Spec, GuestGid, GuestUid, HostGid, HostUid, IdMap};
use virtiofs_map_acl::*;

type Users = IdMap<GuestUid, HostUid>;
type Groups = IdMap<GuestGid, HostGid>;

// setfacl -d -m u:1000:rwx,g:50:rx folder, and the same of the host
const GUEST_LIST: &str =
    "02000000 01000700ffffffff 02000700e8030000 04000500ffffffff 0800050032000000 10000700ffffffff 20000000ffffffff";
const HOST_LIST: &str =
    "02000000 01000700ffffffff 02000700888a0100 04000500ffffffff 08000500720d0300 10000700ffffffff 20000000ffffffff";
const GUEST_CAPABILITY: &str = "01000003 00040000 00000000 00000000 00000000 e8030000";
const HOST_CAPABILITY: &str = "01000003 00040000 00000000 00000000 00000000 888a0100";

#[test]
fn lists_are_refused() {
    let entry = |entry, fault| AclError::Entry { entry, fault };
    for (text, wanted, printed, kind) in [
        ("0200", AclError::TooShort, "the value has no header", InvalidInput),
        ("ffffffff", AclError::Version { version: u32::MAX }, "the version is 4294967295", InvalidInput),
        ("02000000 010007", AclError::Length, "the last entry is cut", InvalidInput),
        (GUEST_LIST, AclError::Room { needed: 6 }, "there are 6 entries", InvalidInput),
        ("02000000 0300070000000000", entry(0, EntryFault::UnknownTag), "entry 1: there is no such tag", InvalidInput),
        ("02000000 0100000000000000 0100080000000000", entry(1, EntryFault::Permission),
            "entry 2: the permissions are above 7", InvalidInput),
        ("02000000 02000700ffffffff", entry(0, EntryFault::NoId), "entry 1: 4294967295 is no id", InvalidInput),
        ("02000000 0100070000000000 02000700905f0100", entry(1, EntryFault::NoId), "entry 2: 4294967295 is no id",
            InvalidInput),
        ("02000000 0100070000000000 0200070070110100", entry(1, EntryFault::Forbidden),
            "entry 2: use of the id has been configured to fail", PermissionDenied),
        ("02000000 0200070080380100 0200070081380100", entry(1, EntryFault::Merges),
            "entry 2: the id would become that of an earlier entry", PermissionDenied),
    ] {
        let mut value = bytes(text);
        let error = acl_to_host(&users(), &groups(), &mut value, &mut room()[..5]).unwrap_err();
        assert_eq!((error, error.to_string().as_str(), io::Error::from(error).kind()), (wanted, printed, kind));
        assert_eq!((&value, io::Error::from(error).to_string().as_str()), (&bytes(text), printed));
        if wanted != (AclError::Room { needed: 6 }) {
            assert_eq!(acl_to_host_alloc(&users(), &groups(), &mut value), Err(wanted), "{text}");
        }
    }
}

#[test]
fn capabilities_are_refused() {
    for (text, wanted, printed, kind) in [
        ("0200", CapabilityError::TooShort, "the value has no first word", InvalidInput),
        ("030000ff", CapabilityError::Revision { revision: 255 }, "the revision is 255", InvalidInput),
        ("01000003 00000000", CapabilityError::Length, "the length is not that of the revision", InvalidInput),
        ("01000003 00000000 00000000 00000000 00000000 ffffffff", CapabilityError::NoId,
            "4294967295 is no id", InvalidInput),
        ("01000003 00000000 00000000 00000000 00000000 905f0100", CapabilityError::NoId,
            "4294967295 is no id", InvalidInput),
        ("01000003 00000000 00000000 00000000 00000000 70110100", CapabilityError::Forbidden,
            "use of the id has been configured to fail", PermissionDenied),
        ("01000001 00040000 00000000", CapabilityError::RootMoves, "the revision has no id of root", PermissionDenied),
    ] {
        let mut value = bytes(text);
        let error = capability_to_host(&users(), &mut value).unwrap_err();
        assert_eq!((error, error.to_string().as_str(), io::Error::from(error).kind()), (wanted, printed, kind));
        assert_eq!((&value, io::Error::from(error).to_string().as_str()), (&bytes(text), printed));
        if wanted != CapabilityError::RootMoves {
            assert_eq!(capability_to_host_in_revision_3(&users(), &value), Err(wanted), "{text}");
        }
    }
}

#[test]
fn values_go_across_and_come_back() {
    let mut value = bytes(GUEST_LIST);
    let calls: [(fn(&mut [u8]) -> Result<(), AclError>, &str); 4] = [
        (|it| acl_to_host(&users(), &groups(), it, &mut room()), HOST_LIST),
        (|it| acl_to_guest(&users(), &groups(), it, &mut room()), GUEST_LIST),
        (|it| acl_to_host_alloc(&users(), &groups(), it), HOST_LIST),
        (|it| acl_to_guest_alloc(&users(), &groups(), it), GUEST_LIST),
    ];
    for (call, wanted) in calls {
        assert_eq!((call(&mut value), &value), (Ok(()), &bytes(wanted)));
    }
    let (guest, host) = (bytes(GUEST_CAPABILITY), bytes(HOST_CAPABILITY));
    value = guest.clone();
    assert_eq!(capability_to_host(&users(), &mut value), Ok(()));
    assert_eq!(value, host);
    assert_eq!(capability_to_guest(&users(), &mut value), Ok(()));
    assert_eq!(value, guest);
    assert_eq!(capability_to_host_in_revision_3(&users(), &guest).unwrap()[..], host);
    assert_eq!(capability_to_guest_in_revision_3(&users(), &host).unwrap()[..], guest);
}

#[test]
fn names_tell_the_kind_of_their_values() {
    let kind_of = |name| carries_ids(&CString::new(name).expect("a name holds no zero"));
    assert_eq!(kind_of("system.posix_acl_access"), Some(ValueKind::Acl));
    assert_eq!(kind_of("security.capability"), Some(ValueKind::Capability));
    assert_eq!(kind_of("security.selinux"), None);
}

fn specs(texts: &[&str]) -> Vec<Spec> {
    texts.iter().map(|text| text.parse().expect("a specification")).collect()
}

fn users() -> Users {
    let texts =
        ["map:0:100000:65536", "forbid-guest:70000:10", "squash-guest:80000:65534:10", "guest:90000:4294967295:1"];
    IdMap::try_from(specs(&texts)).expect("an accepted list")
}

fn groups() -> Groups {
    IdMap::try_from(specs(&["map:0:200000:65536"])).expect("an accepted list")
}

/// The bytes that a text says in hexadecimal; blanks count for nothing.
fn bytes(text: &str) -> Vec<u8> {
    let digits: Vec<u8> = text.chars().filter_map(|c| c.to_digit(16)).map(|digit| digit as u8).collect();
    digits.chunks(2).map(|pair| 16 * pair[0] + pair[1]).collect()
}

fn room() -> [EntryRoom; 6] {
    [EntryRoom::default(); 6]
}

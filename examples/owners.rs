//! What a daemon in Rust does with the static library, by virtiofsd's own names: it makes its maps once, and any number
//! of threads ask them. docs/RUST.md explains it, and examples/run builds and runs it.

#[path = "../bindings/rust/virtiofs_map.rs"]
mod virtiofs_map;
#[path = "../bindings/rust/virtiofs_map_acl.rs"]
mod virtiofs_map_acl;
#[path = "../bindings/rust/virtiofs_map_start.rs"]
mod virtiofs_map_start;

use std::error::Error;
use std::ffi::CStr;
use std::thread;
use virtiofs_map::soft_idmap::{CheckedMapError, GuestUid};
use virtiofs_map_acl::{acl_to_host_alloc, capability_to_host, carries_ids, ValueKind};
use virtiofs_map_start::{errno_of, name_to_host, Maps};

/// Who owns a file on the host that the guest gives to this user. Nobody does where that is an error: `chown` with
/// 4294967295 would leave the owner that the file has, and a new file belongs to the daemon's own user.
fn show_owner(maps: &Maps, user: u32) {
    let (why, error) = match maps.users.checked_map_guest(GuestUid::from(user)) {
        Ok(owner) => return println!("user {user} of the guest is user {owner} of the host"),
        Err(error @ CheckedMapError::Forbidden { .. }) => ("a specification forbids this id", error),
        Err(error @ CheckedMapError::NoId { .. }) => ("4294967295 is no id", error),
    };
    println!("user {user} of the guest: {why}, errno {}", errno_of(&error.into()));
}

/// Which name the host has for the guest's attribute.
fn show_name(maps: &Maps, name: &CStr) {
    let asked = name.to_string_lossy();
    match name_to_host(&maps.names, name) {
        Ok(host) => println!("{asked} of the guest is {} of the host", host.to_string_lossy()),
        Err(error) => println!("{asked} of the guest: the guest may not use this name, errno {}", errno_of(&error)),
    }
}

/// Which names the guest gets to see, where the host lists these.
fn show_list(maps: &Maps, list: &[u8]) -> Result<(), Box<dyn Error>> {
    let seen = maps.names.list_to_guest(list)?;
    println!("the guest sees {}", String::from_utf8_lossy(&seen).trim_end_matches('\0').replace('\0', " "));
    Ok(())
}

/// Makes a value that the guest sets one of the host, in place. It is as it was where that is an error.
fn set_value(maps: &Maps, name: &CStr, value: &mut [u8]) -> Result<(), Box<dyn Error>> {
    match carries_ids(name) {
        Some(ValueKind::Acl) => acl_to_host_alloc(&maps.users, &maps.groups, value)?,
        Some(ValueKind::Capability) => capability_to_host(&maps.users, value)?,
        None => {}
    }
    Ok(())
}

/// What becomes of `setfacl -m u:5:rw file` of the guest: the id of the second entry.
fn show_right(maps: &Maps) -> Result<(), Box<dyn Error>> {
    let mut list = *b"\x02\0\0\0\
        \x01\0\x06\0\xff\xff\xff\xff\
        \x02\0\x06\0\x05\0\0\0\
        \x04\0\x04\0\xff\xff\xff\xff\
        \x10\0\x06\0\xff\xff\xff\xff\
        \x20\0\0\0\xff\xff\xff\xff";
    set_value(maps, c"system.posix_acl_access", &mut list)?;
    let id = u32::from_le_bytes([list[16], list[17], list[18], list[19]]);
    println!("what the guest lets user 5 do, user {id} of the host may");
    Ok(())
}

fn main() -> Result<(), Box<dyn Error>> {
    let users = ["map:0:1000:10", "forbid-guest:10:4294967284"];
    let maps = Maps::from_options(&users, &[], Some(":map:security.selinux:trusted.virtiofs.:"))?;

    // Any number of threads would do so at once.
    let show_owners = || [5, 10, u32::MAX].map(|user| show_owner(&maps, user));
    thread::scope(|scope| scope.spawn(show_owners).join()).expect("it ends");
    for name in [c"security.selinux", c"trusted.virtiofs.x", c"user.note"] {
        show_name(&maps, name);
    }
    show_list(&maps, b"trusted.virtiofs.security.selinux\0security.selinux\0user.note\0")?;
    show_right(&maps)
}

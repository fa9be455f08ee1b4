// SPDX-License-Identifier: BSD-3-Clause
//! Ids inside the values of extended attributes: in the access control lists of a file, and in its capability.
//!
//! virtiofsd has no such module, and forbids `--posix-acl` together with `--translate-uid`. This file stands beside
//! `virtiofs_map.rs`, as a module of the same parent, and asks the same archive by the same maps. A daemon whose guests
//! set no such values can leave it out.
//!
//! Each call changes ids in place, and nothing else: a value keeps its length. The whole value is tested first, and
//! where the answer is an error, no byte has changed. No call takes memory but the two whose names end in `_alloc`.

// (a program may need only a part of it)
#![allow(dead_code)]

use super::virtiofs_map::ffi::{self, Fault};
use super::virtiofs_map::soft_idmap::{GuestGid, GuestUid, HostGid, HostUid, IdMap};
use std::error::Error;
use std::ffi::CStr;
use std::fmt::{self, Display, Formatter};
use std::io;

#[rustfmt::skip]
unsafe extern "C" {
    fn virtiofs_map_carries_ids(name: *const u8, name_len: usize) -> u32;
    fn virtiofs_map_acl_to_host(users: *const u32, user_count: usize, groups: *const u32, group_count: usize,
        value: *mut u8, len: usize, entries: *mut EntryRoom, room: usize, fault: &mut Fault) -> u32;
    fn virtiofs_map_acl_to_guest(users: *const u32, user_count: usize, groups: *const u32, group_count: usize,
        value: *mut u8, len: usize, entries: *mut EntryRoom, room: usize, fault: &mut Fault) -> u32;
    fn virtiofs_map_capability_to_host(users: *const u32, user_count: usize, value: *mut u8, len: usize,
        fault: &mut Fault) -> u32;
    fn virtiofs_map_capability_to_guest(users: *const u32, user_count: usize, value: *mut u8, len: usize,
        fault: &mut Fault) -> u32;
    fn virtiofs_map_capability_to_host_in_revision_3(users: *const u32, user_count: usize,
        value: *const u8, len: usize, written: &mut [u8; 24], fault: &mut Fault) -> u32;
    fn virtiofs_map_capability_to_guest_in_revision_3(users: *const u32, user_count: usize,
        value: *const u8, len: usize, written: &mut [u8; 24], fault: &mut Fault) -> u32;
}

#[rustfmt::skip]
mod kinds {
    pub const ACL: u32 = 1; pub const CAPABILITY: u32 = 2;
    pub const FAULT_SHORT: u32 = 19; pub const FAULT_VERSION: u32 = 20; pub const FAULT_SIZE: u32 = 21;
    pub const FAULT_ROOM: u32 = 22; pub const FAULT_TAG: u32 = 23; pub const FAULT_PERMISSION: u32 = 24;
    pub const FAULT_NO_ID: u32 = 25; pub const FAULT_MERGES: u32 = 27; pub const FAULT_ROOT_MOVES: u32 = 28;
}

/// What values hold ids.
#[derive(Clone, Copy, Debug, PartialEq, Eq)]
pub enum ValueKind {
    /// Access control lists: [`acl_to_host`] and [`acl_to_guest`].
    Acl,
    /// Capabilities: [`capability_to_host`] and [`capability_to_guest`].
    Capability,
}

/// Which ids the values of the host's attribute of that name hold, if any.
pub fn carries_ids(name: &CStr) -> Option<ValueKind> {
    let name = name.to_bytes();
    // Sound: the name is lent for the call, which writes nothing.
    match unsafe { virtiofs_map_carries_ids(name.as_ptr(), name.len()) } {
        kinds::ACL => Some(ValueKind::Acl),
        kinds::CAPABILITY => Some(ValueKind::Capability),
        _ => None,
    }
}

/// Room for one entry of an access control list. A call overwrites it, and what it leaves there means nothing.
#[repr(C)]
#[derive(Clone, Copy, Debug, Default)]
pub struct EntryRoom {
    tag: u16,
    id: u32,
    entry: usize,
}

/// What is wrong with an entry of an access control list.
#[derive(Clone, Copy, Debug, PartialEq, Eq)]
pub enum EntryFault {
    /// Its tag is none of 1, 2, 4, 8, 16 and 32.
    UnknownTag,
    /// Its permissions are a number above 7.
    Permission,
    /// Its id is 4294967295, or becomes it, which is no id to Linux.
    NoId,
    /// A specification forbids its id.
    Forbidden,
    /// An earlier entry of its tag has another id, and both ids would become one.
    Merges,
}

/// Why an access control list does not go across: the first fault, in the order of these tests.
#[derive(Clone, Copy, Debug, PartialEq, Eq)]
pub enum AclError {
    /// The value is shorter than its header of 4 bytes.
    TooShort,
    /// The header says this version, and not 2.
    Version { version: u32 },
    /// What follows the header is no whole number of entries of 8 bytes.
    Length,
    /// The value has `needed` entries, and the room that was lent is for fewer.
    Room { needed: usize },
    /// The entry of that number, from 0, is at fault: the first one by itself, or else the first one that merges.
    Entry { entry: usize, fault: EntryFault },
}

/// Why a capability does not go across: the first fault, in the order of these tests.
#[derive(Clone, Copy, Debug, PartialEq, Eq)]
pub enum CapabilityError {
    /// The value is shorter than its first word of 4 bytes.
    TooShort,
    /// The first word has another revision than 1, 2 and 3.
    Revision { revision: u8 },
    /// The value is not as long as its revision asks: 12 bytes, 20 or 24.
    Length,
    /// The id of root is 4294967295, or becomes it, which is no id to Linux.
    NoId,
    /// A specification forbids the id of root.
    Forbidden,
    /// The revision is 1 or 2, which have no field for the id of root, and 0 would not stay 0.
    RootMoves,
}

impl Display for EntryFault {
    fn fmt(&self, f: &mut Formatter<'_>) -> fmt::Result {
        f.write_str(match self {
            EntryFault::UnknownTag => "there is no such tag",
            EntryFault::Permission => "the permissions are above 7",
            EntryFault::NoId => "4294967295 is no id",
            EntryFault::Forbidden => "use of the id has been configured to fail",
            EntryFault::Merges => "the id would become that of an earlier entry",
        })
    }
}

/// As `virtiofs_fault_text` writes it, with entries counted from 1.
impl Display for AclError {
    fn fmt(&self, f: &mut Formatter<'_>) -> fmt::Result {
        match self {
            AclError::TooShort => f.write_str("the value has no header"),
            AclError::Version { version } => write!(f, "the version is {version}"),
            AclError::Length => f.write_str("the last entry is cut"),
            AclError::Room { needed } => write!(f, "there are {needed} entries"),
            AclError::Entry { entry, fault } => write!(f, "entry {}: {fault}", entry.saturating_add(1)),
        }
    }
}

impl Display for CapabilityError {
    fn fmt(&self, f: &mut Formatter<'_>) -> fmt::Result {
        match self {
            CapabilityError::TooShort => f.write_str("the value has no first word"),
            CapabilityError::Revision { revision } => write!(f, "the revision is {revision}"),
            CapabilityError::Length => f.write_str("the length is not that of the revision"),
            CapabilityError::NoId => f.write_str("4294967295 is no id"),
            CapabilityError::Forbidden => f.write_str("use of the id has been configured to fail"),
            CapabilityError::RootMoves => f.write_str("the revision has no id of root"),
        }
    }
}

impl Error for AclError {}

impl Error for CapabilityError {}

impl From<AclError> for io::Error {
    fn from(error: AclError) -> Self {
        let kind = match error {
            AclError::Entry { fault: EntryFault::Forbidden, .. } => io::ErrorKind::PermissionDenied,
            AclError::Entry { fault: EntryFault::Merges, .. } => io::ErrorKind::PermissionDenied,
            _ => io::ErrorKind::InvalidInput,
        };
        io::Error::new(kind, error)
    }
}

impl From<CapabilityError> for io::Error {
    fn from(error: CapabilityError) -> Self {
        let kind = match error {
            CapabilityError::Forbidden | CapabilityError::RootMoves => io::ErrorKind::PermissionDenied,
            _ => io::ErrorKind::InvalidInput,
        };
        io::Error::new(kind, error)
    }
}

type Users = IdMap<GuestUid, HostUid>;

type Groups = IdMap<GuestGid, HostGid>;

/// Makes an access control list of the guest one of the host: each id becomes what its map makes of it, in place.
///
/// `room` needs one element for each entry of the value: `value.len() / 8` are enough.
pub fn acl_to_host(users: &Users, groups: &Groups, value: &mut [u8], room: &mut [EntryRoom]) -> Result<(), AclError> {
    acl_across(virtiofs_map_acl_to_host, users, groups, value, room)
}

/// Makes an access control list of the host one of the guest, as [`acl_to_host`] does the other way.
pub fn acl_to_guest(users: &Users, groups: &Groups, value: &mut [u8], room: &mut [EntryRoom]) -> Result<(), AclError> {
    acl_across(virtiofs_map_acl_to_guest, users, groups, value, room)
}

/// [`acl_to_host`] with room of its own: one allocation, of twice the length of the value.
pub fn acl_to_host_alloc(users: &Users, groups: &Groups, value: &mut [u8]) -> Result<(), AclError> {
    let mut room = room_for(value);
    acl_to_host(users, groups, value, &mut room)
}

/// [`acl_to_guest`] with room of its own: one allocation, of twice the length of the value.
pub fn acl_to_guest_alloc(users: &Users, groups: &Groups, value: &mut [u8]) -> Result<(), AclError> {
    let mut room = room_for(value);
    acl_to_guest(users, groups, value, &mut room)
}

fn room_for(value: &[u8]) -> Vec<EntryRoom> {
    vec![EntryRoom::default(); value.len() / 8]
}

/// Makes a capability of the guest one of the host, in place: the id of root becomes what the map makes of it. A value
/// of revision 1 or 2 stays as it is; where it cannot, [`capability_to_host_in_revision_3`] can write it.
pub fn capability_to_host(users: &Users, value: &mut [u8]) -> Result<(), CapabilityError> {
    capability_across(virtiofs_map_capability_to_host, users, value)
}

/// Makes a capability of the host one of the guest, as [`capability_to_host`] does the other way.
pub fn capability_to_guest(users: &Users, value: &mut [u8]) -> Result<(), CapabilityError> {
    capability_across(virtiofs_map_capability_to_guest, users, value)
}

/// A capability of the guest, of any revision, as one of the host in revision 3: the flags and the two sets are the
/// same, and the id of root is what the map makes of it.
pub fn capability_to_host_in_revision_3(users: &Users, value: &[u8]) -> Result<[u8; 24], CapabilityError> {
    in_revision_3(virtiofs_map_capability_to_host_in_revision_3, users, value)
}

/// A capability of the host as one of the guest in revision 3.
pub fn capability_to_guest_in_revision_3(users: &Users, value: &[u8]) -> Result<[u8; 24], CapabilityError> {
    in_revision_3(virtiofs_map_capability_to_guest_in_revision_3, users, value)
}

#[rustfmt::skip]
type AclCall = unsafe extern "C" fn(
    *const u32, usize, *const u32, usize, *mut u8, usize, *mut EntryRoom, usize, &mut Fault) -> u32;

type CapabilityCall = unsafe extern "C" fn(*const u32, usize, *mut u8, usize, &mut Fault) -> u32;

type Revision3Call = unsafe extern "C" fn(*const u32, usize, *const u8, usize, &mut [u8; 24], &mut Fault) -> u32;

#[rustfmt::skip]
fn acl_across(call: AclCall, users: &Users, groups: &Groups, value: &mut [u8], room: &mut [EntryRoom])
    -> Result<(), AclError> {
    let (users, groups, mut fault) = (users.words(), groups.words(), Fault::default());
    let (of_users, user_count, of_groups, group_count) = (users.as_ptr(), users.len(), groups.as_ptr(), groups.len());
    let (to, len, entries, lent) = (value.as_mut_ptr(), value.len(), room.as_mut_ptr(), room.len());
    // Sound: the maps are lent for the call, one of the library's, which writes to value, room and `fault` alone.
    match unsafe { call(of_users, user_count, of_groups, group_count, to, len, entries, lent, &mut fault) } {
        ffi::OK => Ok(()),
        _ => Err(acl_error_of(&fault)),
    }
}

fn capability_across(call: CapabilityCall, users: &Users, value: &mut [u8]) -> Result<(), CapabilityError> {
    let (users, mut fault) = (users.words(), Fault::default());
    // Sound: the map is lent for the call, one of the library's, which writes to value and `fault` alone.
    match unsafe { call(users.as_ptr(), users.len(), value.as_mut_ptr(), value.len(), &mut fault) } {
        ffi::OK => Ok(()),
        _ => Err(capability_error_of(&fault)),
    }
}

fn in_revision_3(call: Revision3Call, users: &Users, value: &[u8]) -> Result<[u8; 24], CapabilityError> {
    let (users, mut written, mut fault) = (users.words(), [0; 24], Fault::default());
    // Sound: map and value are lent for the call, one of the library's, which writes to `written` and `fault` alone.
    match unsafe { call(users.as_ptr(), users.len(), value.as_ptr(), value.len(), &mut written, &mut fault) } {
        ffi::OK => Ok(written),
        _ => Err(capability_error_of(&fault)),
    }
}

fn acl_error_of(fault: &Fault) -> AclError {
    let entry_fault = match fault.kind {
        kinds::FAULT_SHORT => return AclError::TooShort,
        kinds::FAULT_VERSION => return AclError::Version { version: fault.seen as u32 },
        kinds::FAULT_SIZE => return AclError::Length,
        kinds::FAULT_ROOM => return AclError::Room { needed: fault.expected },
        kinds::FAULT_TAG => EntryFault::UnknownTag,
        kinds::FAULT_PERMISSION => EntryFault::Permission,
        kinds::FAULT_NO_ID => EntryFault::NoId,
        kinds::FAULT_MERGES => EntryFault::Merges,
        _ => EntryFault::Forbidden,
    };
    AclError::Entry { entry: fault.place, fault: entry_fault }
}

fn capability_error_of(fault: &Fault) -> CapabilityError {
    match fault.kind {
        kinds::FAULT_SHORT => CapabilityError::TooShort,
        kinds::FAULT_VERSION => CapabilityError::Revision { revision: fault.seen as u8 },
        kinds::FAULT_SIZE => CapabilityError::Length,
        kinds::FAULT_NO_ID => CapabilityError::NoId,
        kinds::FAULT_ROOT_MOVES => CapabilityError::RootMoves,
        _ => CapabilityError::Forbidden,
    }
}

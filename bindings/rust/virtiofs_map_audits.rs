// SPDX-License-Identifier: BSD-3-Clause
//! What a list of specifications does to all ids of a guest.
//!
//! virtiofsd has no such module. This file stands beside `virtiofs_map.rs`, as a module of the same parent, and asks
//! the same archive. A daemon that does not ask about all ids can leave it out.
//!
//! Each answer is about all ids of the guest from 0 to 4294967294 that no specification forbids; 4294967295 is no id to
//! Linux. It has the least id that shows it. The lists are those that a map is made of, of users or of groups, so ids
//! are plain numbers here. Where no map is made of a list, the error is the one that the map's `try_from` has.

// (a program may need only a part of it)
#![allow(dead_code)]

use super::virtiofs_map::ffi::{self, Fault, Spec};
use super::virtiofs_map::soft_idmap::{self, cmdline};
use std::io;

#[rustfmt::skip]
unsafe extern "C" {
    fn virtiofs_map_ids_comes_back(specs: *const Spec, count: usize, yes: &mut bool, found: &mut IdsFound,
        fault: &mut Fault) -> u32;
    fn virtiofs_map_ids_is_alone(specs: *const Spec, count: usize, yes: &mut bool, found: &mut IdsFound,
        fault: &mut Fault) -> u32;
    fn virtiofs_map_ids_reaches(specs: *const Spec, count: usize, first: u32, last: u32, yes: &mut bool,
        found: &mut IdsFound, fault: &mut Fault) -> u32;
    fn virtiofs_map_ids_apart(specs: *const Spec, count: usize, others: *const Spec, other_count: usize,
        yes: &mut bool, found: &mut IdsFound, fault: &mut Fault) -> u32;
}

/// The least id that shows an answer, as the library writes it.
#[repr(C)]
#[derive(Clone, Copy, Default)]
struct IdsFound {
    guest: u32,
    host: u32,
    other: u32,
}

/// Whether something holds of all ids.
#[derive(Clone, Copy, Debug, PartialEq, Eq)]
pub enum IdAudit<T> {
    /// What was asked holds of all ids.
    Yes,
    /// What was asked does not hold of this id, and this is the least such id.
    No(T),
}

/// An id of the guest that does not come back.
#[derive(Clone, Copy, Debug, PartialEq, Eq)]
pub struct Astray {
    /// The id.
    pub guest: u32,
    /// What it becomes on the host.
    pub host: u32,
    /// What that becomes in the guest.
    pub back: u32,
}

/// An id of the guest that shares its id of the host with another one.
#[derive(Clone, Copy, Debug, PartialEq, Eq)]
pub struct Shared {
    /// The id.
    pub guest: u32,
    /// The least one with which it shares: of the same guest, or of the other one where two guests are compared.
    pub other: u32,
    /// The id of the host that both become.
    pub host: u32,
}

/// An id of the guest that becomes one of the ids of the host that were asked about.
#[derive(Clone, Copy, Debug, PartialEq, Eq)]
pub struct Reaching {
    /// The id.
    pub guest: u32,
    /// What it becomes on the host.
    pub host: u32,
}

/// Whether each id comes back: what it becomes on the host becomes that id again.
pub fn comes_back(specs: &[cmdline::IdMap]) -> io::Result<IdAudit<Astray>> {
    let specs = plain(specs);
    let answer = told(|yes, found, fault| {
        // Sound: the list is lent for the call, which writes to `yes`, `found` and `fault` alone.
        unsafe { virtiofs_map_ids_comes_back(specs.as_ptr(), specs.len(), yes, found, fault) }
    })?;
    Ok(audit(answer, |it| Astray { guest: it.guest, host: it.host, back: it.other }))
}

/// Whether each id has an id of the host of its own: no two ids become one.
pub fn is_alone(specs: &[cmdline::IdMap]) -> io::Result<IdAudit<Shared>> {
    let specs = plain(specs);
    let answer = told(|yes, found, fault| {
        // Sound: the list is lent for the call, which writes to `yes`, `found` and `fault` alone.
        unsafe { virtiofs_map_ids_is_alone(specs.as_ptr(), specs.len(), yes, found, fault) }
    })?;
    Ok(audit(answer, shared))
}

/// The least id that becomes an id of the host from `first` to `last`; `None` where there is none.
///
/// So it says whether the guest can act as somebody of a range: from 0 to 0 as root, from the end of the range that it
/// was given to 4294967295 as anybody above it.
pub fn reaches(specs: &[cmdline::IdMap], first: u32, last: u32) -> io::Result<Option<Reaching>> {
    let specs = plain(specs);
    let (yes, it) = told(|yes, found, fault| {
        // Sound: the list is lent for the call, which writes to `yes`, `found` and `fault` alone.
        unsafe { virtiofs_map_ids_reaches(specs.as_ptr(), specs.len(), first, last, yes, found, fault) }
    })?;
    Ok(if yes { Some(Reaching { guest: it.guest, host: it.host }) } else { None })
}

/// Whether two guests are apart on the host: no id of the host is reached by both. `No` has the least id of the first
/// guest whose id of the host the second reaches too, and the least id of the second that becomes it.
///
/// The error is that of the first list, or else of the second, whose indexes in it continue those of the first.
pub fn ids_apart(specs: &[cmdline::IdMap], others: &[cmdline::IdMap]) -> io::Result<IdAudit<Shared>> {
    let (specs, others) = (plain(specs), plain(others));
    let (list, count, other_list, other_count) = (specs.as_ptr(), specs.len(), others.as_ptr(), others.len());
    let answer = told(|yes, found, fault| {
        // Sound: the lists are lent for the call, which writes to `yes`, `found` and `fault` alone.
        unsafe { virtiofs_map_ids_apart(list, count, other_list, other_count, yes, found, fault) }
    })?;
    Ok(audit(answer, shared))
}

fn plain(specs: &[cmdline::IdMap]) -> Vec<Spec> {
    specs.iter().map(cmdline::IdMap::spec).collect()
}

fn told(ask: impl FnOnce(&mut bool, &mut IdsFound, &mut Fault) -> u32) -> io::Result<(bool, IdsFound)> {
    let (mut yes, mut found, mut fault) = (false, IdsFound::default(), Fault::default());
    match ask(&mut yes, &mut found, &mut fault) {
        ffi::OK => Ok((yes, found)),
        _ => Err(soft_idmap::error_of(&fault)),
    }
}

fn audit<T>((yes, found): (bool, IdsFound), no: impl FnOnce(IdsFound) -> T) -> IdAudit<T> {
    if yes { IdAudit::Yes } else { IdAudit::No(no(found)) }
}

fn shared(found: IdsFound) -> Shared {
    Shared { guest: found.guest, other: found.other, host: found.host }
}

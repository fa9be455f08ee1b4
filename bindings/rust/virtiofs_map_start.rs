// SPDX-License-Identifier: BSD-3-Clause
//! A daemon's start: all maps of a share from the values of its options, and the errno of an error.
//!
//! virtiofsd has no such module. This file stands beside `virtiofs_map.rs`, as a module of the same parent.

// (a program may need only a part of it)
#![allow(dead_code)]

use super::virtiofs_map::soft_idmap::{self, cmdline, GuestGid, GuestUid, HostGid, HostUid, IdMap};
use super::virtiofs_map::xattrmap::{self, AppliedRule, XattrMap};
use std::borrow::Cow;
use std::convert::TryFrom;
use std::error::Error;
use std::ffi::CStr;
use std::fmt::{self, Display, Formatter};
use std::io;

/// Which option is at fault.
#[derive(Clone, Copy, Debug, Eq, PartialEq)]
pub enum MapOption {
    /// A specification of users.
    Users,
    /// A specification of groups.
    Groups,
    /// The rules for names.
    Rules,
}

/// Why there are no maps. It prints a sentence for a person, which counts from 1.
#[derive(Debug, Eq, PartialEq)]
pub struct Refusal {
    /// The option that is at fault, or at which memory ran out.
    pub option: MapOption,
    /// Which value of that option, from 0.
    pub index: usize,
    sentence: String,
}

impl Display for Refusal {
    fn fmt(&self, f: &mut Formatter<'_>) -> fmt::Result {
        f.write_str(&self.sentence)
    }
}

impl Error for Refusal {}

/// The maps of a share.
#[derive(Clone, Debug)]
pub struct Maps {
    /// Of users.
    pub users: IdMap<GuestUid, HostUid>,
    /// Of groups.
    pub groups: IdMap<GuestGid, HostGid>,
    /// Of names.
    pub names: XattrMap,
}

impl Maps {
    /// All maps of a share from the values of its options. Without specifications each id keeps its number, and
    /// without rules each name passes as it is.
    pub fn from_options<S: AsRef<str>>(users: &[S], groups: &[S], rules: Option<&str>) -> Result<Maps, Refusal> {
        let of_list = |option| move |error: io::Error| at_build(option, error);
        let of_rules = |error: xattrmap::Error| refused(MapOption::Rules, 0, error.sentence());
        Ok(Maps {
            users: IdMap::try_from(specs(MapOption::Users, users)?).map_err(of_list(MapOption::Users))?,
            groups: IdMap::try_from(specs(MapOption::Groups, groups)?).map_err(of_list(MapOption::Groups))?,
            names: XattrMap::try_from(rules.unwrap_or(":ok:all:::")).map_err(of_rules)?,
        })
    }
}

fn specs<S: AsRef<str>>(option: MapOption, texts: &[S]) -> Result<Vec<cmdline::IdMap>, Refusal> {
    let read = |(index, text): (usize, &S)| {
        text.as_ref().parse().map_err(|error: cmdline::IdMapError| at(option, index, error))
    };
    texts.iter().enumerate().map(read).collect()
}

fn at_build(option: MapOption, error: io::Error) -> Refusal {
    match error.get_ref().and_then(|it| it.downcast_ref::<soft_idmap::BuildError>()) {
        Some(error) => at(option, error.place, error),
        None => refused(option, 0, error.to_string()),
    }
}

fn at(option: MapOption, index: usize, error: impl Display) -> Refusal {
    refused(option, index, format!("specification {}: {error}", index.saturating_add(1)))
}

fn refused(option: MapOption, index: usize, sentence: String) -> Refusal {
    Refusal { option, index, sentence }
}

// What Linux has for these, on x86-64.
const EPERM: i32 = 1;
const EIO: i32 = 5;
const ENOMEM: i32 = 12;
const EINVAL: i32 = 22;
const ENAMETOOLONG: i32 = 36;
const ENOTSUP: i32 = 95;

/// The errno that we recommend to send to the guest for an error of this library, or of the host, made an `io::Error`.
pub fn errno_of(error: &io::Error) -> i32 {
    error.raw_os_error().unwrap_or(match error.kind() {
        io::ErrorKind::PermissionDenied => EPERM,
        io::ErrorKind::InvalidInput => EINVAL,
        io::ErrorKind::OutOfMemory => ENOMEM,
        _ => EIO,
    })
}

/// The host's name for a name that the guest uses, or an error of which [`errno_of`] has the errno: EPERM or ENOTSUP as
/// the rules say, and ENAMETOOLONG for a name that has more than 255 bytes on the host.
pub fn name_to_host<'a>(names: &XattrMap, name: &'a CStr) -> io::Result<Cow<'a, CStr>> {
    match names.map_client_xattr(name)? {
        AppliedRule::Pass(host) if host.to_bytes().len() > 255 => Err(io::Error::from_raw_os_error(ENAMETOOLONG)),
        AppliedRule::Pass(host) => Ok(host),
        AppliedRule::Deny => Err(io::Error::from_raw_os_error(EPERM)),
        AppliedRule::Unsupported => Err(io::Error::from_raw_os_error(ENOTSUP)),
    }
}

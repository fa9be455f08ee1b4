// SPDX-License-Identifier: BSD-3-Clause
//! Which uids, gids and extended attribute names cross between a guest machine and its host.
//!
//! These are virtiofsd's modules with their names, types, kinds of error and texts, over a library that is proved, and
//! two modules beside them: [`acl`] for ids inside values, and [`id_audit`] for questions about all ids of a guest. A
//! daemon makes its maps once, and asks them in any number of threads:
//!
//! ```
//! use virtiofs_map::soft_idmap::{cmdline, GuestUid, HostUid, IdMap};
//! use virtiofs_map::xattrmap::{AppliedRule, XattrMap};
//!
//! fn main() -> Result<(), Box<dyn std::error::Error>> {
//!     let options = ["map:0:100000:65536", "forbid-guest:65536:4294901759"];
//!     let specs = options.iter().map(|it| it.parse::<cmdline::IdMap>()).collect::<Result<Vec<_>, _>>()?;
//!     let users = IdMap::<GuestUid, HostUid>::try_from(specs)?;
//!     let names = XattrMap::try_from(":map::user.virtiofs.:")?;
//!     println!("guest user 1000 is host user {}", users.checked_map_guest(GuestUid::from(1000))?);
//!     if let AppliedRule::Pass(name) = names.map_client_xattr(c"user.note")? {
//!         println!("user.note of the guest is {} of the host", name.to_string_lossy());
//!     }
//!     Ok(())
//! }
//! ```
//!
//! **Ask `checked_map_guest` and `checked_map_host`.** virtiofsd's own `map_guest` and `map_host` are there too. They
//! may answer 4294967295: `chown` and `setresuid` read it as "leave unchanged", so a file of the guest would belong to
//! the daemon's own user, often root.
//!
//! | A daemon that | asks |
//! |---|---|
//! | sets a file's owner, or acts as the caller | [`checked_map_guest`](soft_idmap::IdMap::checked_map_guest) |
//! | tells a file's owner | [`checked_map_host`](soft_idmap::IdMap::checked_map_host) |
//! | gets, sets or removes an attribute | [`map_client_xattr`](xattrmap::XattrMap::map_client_xattr) |
//! | lists attributes | [`list_to_guest`](xattrmap::XattrMap::list_to_guest) |
//! | lets the guest set ACLs or capabilities | [`carries_ids`](acl::carries_ids) about the host's name, then [`acl`] |
//! | starts, before a share goes live | [`id_audit`], [`keeps_apart`](xattrmap::XattrMap::keeps_apart) and the like |
//!
//! An id that no specification covers passes through unchanged, root's too. Errors become an `io::Error`, of which
//! [`errno_of`](start::errno_of) has the errno for the guest. [`Maps::from_options`](start::Maps::from_options) makes all
//! maps of a share, and says which option is at fault.
//!
//! `build.rs` looks for the archive `libvirtiofs_map.a` in the folder that the variable `VIRTIOFS_MAP_LIB` names, or
//! where it is not set, where `pkg-config` finds `virtiofs_map`. The variable `PKG_CONFIG` may name that program. The
//! page RUST.md, in docs of the repository or installed, has the rest: errors, memory, threads, and names in other
//! languages.

#[path = "virtiofs_map.rs"]
mod virtiofs_map;
#[path = "virtiofs_map_acl.rs"]
pub mod acl;
#[path = "virtiofs_map_audits.rs"]
pub mod id_audit;
#[path = "virtiofs_map_start.rs"]
pub mod start;

pub use self::virtiofs_map::*;

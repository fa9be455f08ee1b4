//! The calls that a daemon which was written over virtiofsd's modules makes of them. It has to compile as it stands,
//! with the modules under virtiofsd's own paths, and ends with 0.

#[path = "../../bindings/rust/virtiofs_map.rs"]
mod virtiofs_map;

pub use virtiofs_map::{idmap, soft_idmap};

pub mod passthrough {
    pub use crate::virtiofs_map::xattrmap;

    use crate::soft_idmap::{cmdline, GuestGid, GuestUid, HostGid, HostUid, Id, IdMap};
    use std::borrow::Cow;
    use std::ffi::CStr;
    use std::io;
    use xattrmap::{AppliedRule, XattrMap};

    const EPERM: i32 = 1;
    const ENOTSUP: i32 = 95;

    #[derive(Debug)]
    pub struct Config {
        pub xattrmap: Option<XattrMap>,
        pub translate_uid: Vec<cmdline::IdMap>,
        pub translate_gid: Vec<cmdline::IdMap>,
    }

    pub struct PassthroughFs {
        uid_map: IdMap<GuestUid, HostUid>,
        gid_map: IdMap<GuestGid, HostGid>,
        cfg: Config,
    }

    impl PassthroughFs {
        pub fn new(cfg: Config) -> io::Result<PassthroughFs> {
            let uid_map = cfg.translate_uid.clone().try_into()?;
            let gid_map = IdMap::<GuestGid, HostGid>::try_from(cfg.translate_gid.clone())?;
            Ok(PassthroughFs { uid_map, gid_map, cfg })
        }

        pub fn owner(&self, uid: GuestUid, gid: GuestGid) -> io::Result<(HostUid, HostGid)> {
            let uid = self.uid_map.map_guest(uid).map_err(io::Error::from)?;
            Ok((uid, if gid.is_root() { HostGid::from(0) } else { self.gid_map.map_guest(gid)? }))
        }

        pub fn attributes(&self, uid: u32, gid: u32) -> io::Result<(u32, u32)> {
            let uid = self.uid_map.map_host(HostUid::from(uid))?.into_inner();
            let gid: GuestGid = self.gid_map.map_host(gid.into())?;
            Ok((uid, gid.into_inner()))
        }

        pub fn map_client_xattrname<'a>(&self, name: &'a CStr) -> io::Result<Cow<'a, CStr>> {
            match &self.cfg.xattrmap {
                Some(map) => match map.map_client_xattr(name).expect("unterminated mapping") {
                    AppliedRule::Deny => Err(io::Error::from_raw_os_error(EPERM)),
                    AppliedRule::Unsupported => Err(io::Error::from_raw_os_error(ENOTSUP)),
                    AppliedRule::Pass(new_name) => Ok(new_name),
                },
                None => Ok(Cow::Borrowed(name)),
            }
        }

        pub fn map_server_xattrlist(&self, xattr_names: Vec<u8>) -> Vec<u8> {
            match &self.cfg.xattrmap {
                Some(map) => map.map_server_xattrlist(xattr_names).expect("unterminated mapping"),
                None => xattr_names,
            }
        }
    }
}

use idmap::{GidMap, UidMap};
use passthrough::xattrmap::{self, XattrMap};
use passthrough::{Config, PassthroughFs};
use soft_idmap::{GuestGid, GuestUid, HostGid, HostUid};
use std::error::Error;
use std::str::FromStr;
use std::sync::Arc;

/// As a parser of command lines asks it of the types of its options.
fn option<T: FromStr + Clone + Send + Sync + 'static>(text: &str) -> Result<T, Box<dyn Error + Send + Sync>>
where
    T::Err: Into<Box<dyn Error + Send + Sync>>,
{
    text.parse().map_err(Into::into)
}

fn main() -> Result<(), Box<dyn Error + Send + Sync>> {
    let parse: fn(&'static str) -> Result<XattrMap, xattrmap::Error> = <XattrMap as TryFrom<&str>>::try_from;
    let config = Config {
        xattrmap: Some(parse(":map::user.virtiofs.:")?),
        translate_uid: vec![option("map:0:1000:10")?],
        translate_gid: vec![option("squash-guest:0:100:4294967295")?, option("host:100:1000:1")?],
    };
    let UidMap { inside_uid, outside_uid, count } = option(":0:100000:65536:")?;
    let range: GidMap = option(":0:100000:65536:")?;
    assert_eq!((inside_uid, outside_uid, count), (range.inside_gid, range.outside_gid, range.count));
    let fs = Arc::new(PassthroughFs::new(config)?);
    let other = Arc::clone(&fs);
    let owner = std::thread::spawn(move || other.owner(GuestUid::from(5), GuestGid::from(7))).join();
    assert_eq!(owner.expect("it ends")?, (HostUid::from(1005), HostGid::from(100)));
    assert_eq!(fs.attributes(1005, 100)?, (5, 1000));
    assert_eq!(&*fs.map_client_xattrname(c"note")?, c"user.virtiofs.note");
    assert_eq!(fs.map_server_xattrlist(b"user.virtiofs.note\0user.x\0".to_vec()), b"note\0");
    Ok(())
}

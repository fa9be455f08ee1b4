//! The ten lines that make maps and ask them. docs/RUST.md and bindings/rust/lib.rs show them, over the installed crate.

#[path = "../bindings/rust/virtiofs_map.rs"]
mod virtiofs_map;

use virtiofs_map::soft_idmap::{cmdline, GuestUid, HostUid, IdMap};
use virtiofs_map::xattrmap::{AppliedRule, XattrMap};

fn main() -> Result<(), Box<dyn std::error::Error>> {
    let options = ["map:0:100000:65536", "forbid-guest:65536:4294901759"];
    let specs = options.iter().map(|it| it.parse::<cmdline::IdMap>()).collect::<Result<Vec<_>, _>>()?;
    let users = IdMap::<GuestUid, HostUid>::try_from(specs)?;
    let names = XattrMap::try_from(":map::user.virtiofs.:")?;
    println!("guest user 1000 is host user {}", users.checked_map_guest(GuestUid::from(1000))?);
    if let AppliedRule::Pass(name) = names.map_client_xattr(c"user.note")? {
        println!("user.note of the guest is {} of the host", name.to_string_lossy());
    }
    Ok(())
}

//! What the Rust files do where memory runs out. Of each call of the library that asks for memory, each request is
//! refused in turn: the call says so, or answers as with ample memory. In a lookup the library makes no request, and
//! the file itself makes one for a name with a prepend, and one for a list. The last line is 'N passed, N failed'.
//!
//! This test is linked with --wrap=malloc and --wrap=realloc. Rust's own requests go by, and are counted apart.

#[path = "../../bindings/rust/virtiofs_map.rs"]
mod virtiofs_map;
#[path = "../../bindings/rust/virtiofs_map_acl.rs"]
mod virtiofs_map_acl;
#[path = "../../bindings/rust/virtiofs_map_audits.rs"]
mod virtiofs_map_audits;

use std::alloc::{GlobalAlloc, Layout};
use std::ffi::{c_void, CString};
use std::fmt::Debug;
use std::ptr::null_mut;
use std::sync::atomic::{AtomicUsize, Ordering::Relaxed};
use virtiofs_map::idmap::UidMap;
use virtiofs_map::soft_idmap::{cmdline, GuestUid, HostUid, IdMap};
use virtiofs_map::xattrmap::XattrMap;
use virtiofs_map_acl::{acl_to_guest_alloc, acl_to_host, capability_to_host_in_revision_3, carries_ids, EntryRoom};
use virtiofs_map_audits::{comes_back, ids_apart, is_alone, reaches};

/// Calls for which the library takes memory, and what their errors are where it runs out.
fn takers(tally: &mut Tally) {
    let (one, text) = (["map:0:1000:10".parse::<cmdline::IdMap>().expect("a specification")], ":map:trusted.:user.:");
    let (met, map) = ([one[0], one[0]], XattrMap::try_from(text).expect("a text of rules"));
    let (of_ids, of_names, of_texts) = ("Kind(OutOfMemory)", "Error { cause: OutOfMemory, rule: None }", "OutOfMemory");
    tally.refuse("a map of ids", of_ids, || Users::try_from(one.to_vec()).map(|map| map.map_guest(5.into()).ok()));
    tally.refuse("two that meet", of_ids, || Users::try_from(met.to_vec()).map(|map| map.map_guest(5.into()).ok()));
    tally.refuse("a specification", of_texts, || "FORBID-GUEST:7:3".parse::<cmdline::IdMap>());
    tally.refuse("no specification", of_texts, || "map:x:1:1".parse::<cmdline::IdMap>());
    tally.refuse("rules", of_names, || XattrMap::try_from(text));
    tally.refuse("no rules", of_names, || XattrMap::try_from(":nope:all:::"));
    tally.refuse("audit", of_names, || map.audit());
    tally.refuse("audit_listed", of_names, || map.audit_listed());
    tally.refuse("keeps_apart", of_names, || map.keeps_apart(&map));
    tally.refuse("shares_no_name", of_names, || map.shares_no_name(&map));
    tally.refuse("comes_back", of_ids, || comes_back(&one));
    tally.refuse("is_alone", of_ids, || is_alone(&one));
    tally.refuse("reaches", of_ids, || reaches(&one, 7, 7));
    tally.refuse("ids_apart", of_ids, || ids_apart(&one, &one));
}

/// Lookups, and how often the file itself asks for memory.
fn lookups(tally: &mut Tally) {
    let users = Users::try_from(vec!["map:0:1000:10".parse().expect("a specification")]).expect("an accepted list");
    let names = XattrMap::try_from(":map:trusted.:user.:").expect("a text of rules");
    tally.count("an id of the guest", 0, || users.map_guest(5.into()));
    tally.count("an id of the host", 0, || users.map_host(5.into()));
    tally.count("a range of a namespace", 0, || ":0:1:2:".parse::<UidMap>());
    tally.count("a name that passes as it is", 0, || names.map_client_xattr(c"security.x"));
    tally.count("a name that is denied", 0, || names.map_client_xattr(c"user.x"));
    for len in [1, 242, 243, 244, 9000] {
        let name = CString::new(format!("trusted.{}", "x".repeat(len))).expect("a name holds no zero");
        tally.count("a name with a prepend", 1, || names.map_client_xattr(&name));
    }
    for list in [&b""[..], b"user.a", b"user.a\0user.b\0", b"trusted.a\0", b"a\0b\0c"] {
        let list = list.to_vec();
        tally.count("a list", 1, || names.map_server_xattrlist(list));
    }
    tally.count("whether a map is terminated", 0, || names.is_terminated());
    tally.count("a copy of a map", 1, || names.clone());
    let (groups, mut list, mut room) = (IdMap::empty(), *b"\x02\0\0\0\x02\0\x07\0\x05\0\0\0", [EntryRoom::default()]);
    tally.count("the kind of a value", 0, || carries_ids(c"security.capability"));
    tally.count("an access control list", 0, || acl_to_host(&users, &groups, &mut list, &mut room));
    tally.count("an access control list with its own room", 1, || acl_to_guest_alloc(&users, &groups, &mut list));
    tally.count("a capability", 0, || capability_to_host_in_revision_3(&users, b"\0\0\0\x01\0\0\0\0\0\0\0\0"));
}

type Users = IdMap<GuestUid, HostUid>;

// ---- requests ----

unsafe extern "C" {
    fn __real_malloc(size: usize) -> *mut c_void;
    fn __real_realloc(at: *mut c_void, size: usize) -> *mut c_void;
    fn free(at: *mut c_void);
}

/// Requests of the library so far, the number of the one that is refused (from 1; none where it is 0), and Rust's own.
static REQUESTS: AtomicUsize = AtomicUsize::new(0);
static REFUSED: AtomicUsize = AtomicUsize::new(0);
static OWN: AtomicUsize = AtomicUsize::new(0);

fn is_refused() -> bool {
    REQUESTS.fetch_add(1, Relaxed) + 1 == REFUSED.load(Relaxed)
}

#[unsafe(no_mangle)]
unsafe extern "C" fn __wrap_malloc(size: usize) -> *mut c_void {
    if is_refused() { null_mut() } else { unsafe { __real_malloc(size) } }
}

#[unsafe(no_mangle)]
unsafe extern "C" fn __wrap_realloc(at: *mut c_void, size: usize) -> *mut c_void {
    if is_refused() { null_mut() } else { unsafe { __real_realloc(at, size) } }
}

/// Rust's own requests, none of which is refused. (`realloc` is that of the trait, which asks `alloc`.)
struct Own;

unsafe impl GlobalAlloc for Own {
    unsafe fn alloc(&self, layout: Layout) -> *mut u8 {
        assert!(layout.align() <= 16);
        OWN.fetch_add(1, Relaxed);
        unsafe { __real_malloc(layout.size()).cast() }
    }

    unsafe fn dealloc(&self, at: *mut u8, _: Layout) {
        unsafe { free(at.cast()) }
    }
}

#[global_allocator]
static ALLOCATOR: Own = Own;

/// What passed, and what failed.
#[derive(Default)]
struct Tally([usize; 2]);

impl Tally {
    fn see(&mut self, is_well: bool, what: &str, number: usize) {
        self.0[usize::from(!is_well)] += 1;
        if !is_well {
            println!("FAILED: {what}, at {number}");
        }
    }

    /// Refuses the first request of a call, its second, and so on, until a run meets no refusal.
    fn refuse<T: Debug, E: Debug>(&mut self, what: &str, no_memory: &str, call: impl Fn() -> Result<T, E>) {
        let ample = format!("{:?}", call());
        for number in 1.. {
            REQUESTS.store(0, Relaxed);
            REFUSED.store(number, Relaxed);
            let answer = call();
            REFUSED.store(0, Relaxed);
            let was_refused = REQUESTS.load(Relaxed) >= number;
            let is_no_memory = answer.as_ref().is_err_and(|error| format!("{error:?}") == no_memory);
            self.see(format!("{answer:?}") == ample || was_refused && is_no_memory, what, number);
            if !was_refused {
                return self.see(number > 1, "it takes memory", number);
            }
        }
    }

    /// Sees what a lookup asks for: nothing through the library, and so much by itself.
    fn count<T>(&mut self, what: &str, own: usize, lookup: impl FnOnce() -> T) {
        REQUESTS.store(0, Relaxed);
        let before = OWN.load(Relaxed);
        let answer = lookup();
        let asked = OWN.load(Relaxed) - before;
        self.see(REQUESTS.load(Relaxed) == 0 && asked == own, what, asked);
        drop(answer);
    }
}

fn main() {
    let mut tally = Tally::default();
    takers(&mut tally);
    lookups(&mut tally);
    println!("{} passed, {} failed", tally.0[0], tally.0[1]);
    std::process::exit(i32::from(tally.0[1] > 0));
}

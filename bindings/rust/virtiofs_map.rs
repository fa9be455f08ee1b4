// SPDX-License-Identifier: BSD-3-Clause
//! virtiofsd's modules `idmap`, `soft_idmap` and `xattrmap`, over the proved library.
//!
//! This one file needs rustc 1.82 or later, any edition, and only std. Make it a module of a program, and link the
//! archive `libvirtiofs_map_c.a` with the kit's `liblibc_c.a`; docs/RUST.md has the commands. The names, types,
//! kinds of error and texts are virtiofsd's; docs/DIFFERENCES.md has what differs.
//!
//! A map is a box of plain numbers, which are written once and then only read. So maps are `Send` and `Sync` as any box
//! is, and any number of threads may ask one map at once by `&self`, with no lock. What this file does itself is not
//! proved: it passes numbers and bytes to the library and back, and writes texts.

// (a program may need only a part of it)
#![allow(dead_code, unused_imports)]

/// What `include/virtiofs_map.h` declares, as far as this file calls it.
#[rustfmt::skip]
pub(super) mod ffi {
    use std::fmt::{self, Display, Formatter};

    /// One specification.
    #[repr(C)]
    #[derive(Clone, Copy, Default)]
    pub struct Spec { pub kind: u32, pub first: u32, pub to: u32, pub count: u32 }

    /// One range of a user namespace.
    #[repr(C)]
    #[derive(Clone, Copy, Default)]
    pub struct Range { pub inside: u32, pub outside: u32, pub count: u32 }

    /// The first fault of a text or of a list.
    #[repr(C)]
    #[derive(Default)]
    pub struct Fault {
        pub kind: u32, pub part: u32, pub direction: u32, pub end: u32, pub number: u32, pub place: usize,
        pub expected: usize, pub seen: usize, pub quoted: usize, pub wanted: usize, pub spec: Spec,
    }

    pub const OK: u32 = 0; pub const AS_IT_IS: u32 = 1; pub const DENIED: u32 = 3; pub const UNSUPPORTED: u32 = 4;
    pub const NO_ROOM: u32 = 7; pub const HIDDEN: u32 = 10; pub const NO_ID: u32 = 13; pub const GUEST_TO_HOST: u32 = 0;
    pub const GUEST: u32 = 0; pub const HOST: u32 = 1; pub const SQUASH_GUEST: u32 = 2;
    pub const SQUASH_HOST: u32 = 3; pub const MAP: u32 = 4; pub const FORBID_GUEST: u32 = 5;

    pub const FAULT_OVERFLOW: u32 = 4; pub const FAULT_INTERSECTS: u32 = 5;
    pub const FAULT_PREFIX: u32 = 6; pub const FAULT_LENGTH: u32 = 7; pub const FAULT_VALUE: u32 = 8;
    pub const FAULT_RANGE_DELIMITER: u32 = 9; pub const FAULT_RANGE_VALUE: u32 = 11;
    pub const FAULT_SCOPE: u32 = 12; pub const FAULT_TYPE: u32 = 13; pub const FAULT_INCOMPLETE: u32 = 14;
    pub const FAULT_MAP_RULE: u32 = 15; pub const FAULT_NO_RULES: u32 = 16;
    pub const FAULT_NUL_KEY: u32 = 17; pub const FAULT_NUL_PREPEND: u32 = 18;

    unsafe extern "C" {
        pub safe fn virtiofs_map_ids_bound(count: usize) -> usize;
        pub fn virtiofs_map_ids_make(specs: *const Spec, count: usize, words: *mut u32, room: usize,
            wanted: &mut usize, fault: &mut Fault) -> u32;
        pub fn virtiofs_map_ids_to_host(words: *const u32, count: usize, guest: u32, host: *mut u32) -> u32;
        pub fn virtiofs_map_ids_to_guest(words: *const u32, count: usize, host: u32, guest: *mut u32) -> u32;
        pub fn virtiofs_map_spec_read(text: *const u8, text_len: usize, spec: &mut Spec, fault: &mut Fault,
            quoted: *mut u8, quoted_room: usize) -> u32;
        pub fn virtiofs_map_fault_text(fault: &Fault, quoted: *const u8, quoted_len: usize, out: *mut u8, room: usize,
            len: &mut usize) -> u32;
        pub fn virtiofs_map_range_read(text: *const u8, text_len: usize, range: &mut Range, fault: &mut Fault) -> u32;
        pub safe fn virtiofs_map_names_bound(text_len: usize) -> usize;
        pub fn virtiofs_map_names_make(text: *const u8, text_len: usize, bytes: *mut u8, room: usize,
            wanted: &mut usize, fault: &mut Fault, quoted: *mut u8, quoted_room: usize) -> u32;
        pub fn virtiofs_map_name_to_host_bytes(bytes: *const u8, map_len: usize, name: *const u8, name_len: usize,
            out: *mut u8, room: usize, len: *mut usize) -> u32;
        pub fn virtiofs_map_name_to_guest(bytes: *const u8, map_len: usize, name: *const u8, name_len: usize,
            out: *mut u8, room: usize, len: &mut usize) -> u32;
        pub fn virtiofs_map_list_to_guest(bytes: *const u8, map_len: usize, list: *const u8, list_len: usize,
            out: *mut u8, room: usize, len: &mut usize) -> u32;
        pub fn virtiofs_map_server_xattrlist(bytes: *const u8, map_len: usize, list: *const u8, list_len: usize,
            out: *mut u8, room: usize, len: &mut usize) -> u32;
        pub fn virtiofs_map_names_is_terminated(bytes: *const u8, map_len: usize, yes: &mut bool) -> u32;
        pub fn virtiofs_map_names_audit(bytes: *const u8, map_len: usize, yes: &mut bool,
            out: *mut u8, room: usize, len: &mut usize) -> u32;
        pub fn virtiofs_map_names_audit_listed(bytes: *const u8, map_len: usize, yes: &mut bool,
            out: *mut u8, room: usize, len: &mut usize) -> u32;
        pub fn virtiofs_map_names_keeps_apart(bytes: *const u8, map_len: usize, other_bytes: *const u8, other_len: usize,
            yes: &mut bool, out: *mut u8, room: usize, len: &mut usize) -> u32;
        pub fn virtiofs_map_names_shares_no_name(bytes: *const u8, map_len: usize, other_bytes: *const u8, other_len: usize,
            yes: &mut bool, out: *mut u8, room: usize, len: &mut usize) -> u32;
    }

    /// The numbers of a map, which `make` writes into a buffer that is always long enough, or the fault.
    pub fn made<T: Clone + Default, Make>(bound: usize, make: Make) -> Result<Box<[T]>, Fault>
        where Make: FnOnce(&mut [T], &mut usize, &mut Fault) -> u32 {
        let (mut buffer, mut wanted, mut fault) = (vec![T::default(); bound], 0, Fault::default());
        if make(&mut buffer, &mut wanted, &mut fault) != OK {
            return Err(fault);
        }
        buffer.truncate(wanted);
        Ok(buffer.into_boxed_slice())
    }

    /// The text at fault, as far as the call quoted it.
    pub fn quoted(fault: &Fault, bytes: &[u8]) -> String {
        String::from_utf8_lossy(&bytes[..fault.quoted]).into_owned()
    }

    /// A text that may be hostile, as `virtiofs_fault_text` quotes it: a backslash is `\\`, each byte of a control or
    /// format character is `\x` and two digits, and letters of any script stand as they are. So it ends no line of a
    /// log, and moves no cursor.
    pub struct Escaped<'a>(pub &'a str);

    impl Display for Escaped<'_> {
        fn fmt(&self, f: &mut Formatter<'_>) -> fmt::Result {
            // (a word that is none of the six stands at the end of its sentence; an escaped byte takes four)
            let (before, len) = ("Invalid ID map prefix ".len(), self.0.len());
            let fault = Fault { kind: FAULT_PREFIX, quoted: len, wanted: len, ..Fault::default() };
            let (mut out, mut told) = (vec![0; before + 4 * len], 0);
            // Sound: the text is lent for the call, which writes to `out` and `told` alone.
            unsafe { virtiofs_map_fault_text(&fault, self.0.as_ptr(), len, out.as_mut_ptr(), out.len(), &mut told) };
            f.write_str(&String::from_utf8_lossy(&out[before..told]))
        }
    }
}

/// Ranges of a user namespace, as `--uid-map` and `--gid-map` give them.
pub mod idmap {
    use super::ffi;
    use std::error::Error;
    use std::fmt::{self, Display, Formatter};
    use std::num::ParseIntError;
    use std::str::FromStr;

    /// Why a text is no range.
    #[derive(Debug, Eq, PartialEq)]
    pub enum IdMapError {
        /// The text does not begin and end with one delimiter, which is not alphanumeric.
        InvalidDelimiter,
        /// The text does not have three fields.
        IncompleteMap,
        /// A field is no number.
        InvalidValue(ParseIntError),
    }

    impl Error for IdMapError {}

    impl Display for IdMapError {
        fn fmt(&self, f: &mut Formatter<'_>) -> fmt::Result {
            f.write_str(match self {
                IdMapError::InvalidDelimiter => {
                    "A delimiter has been found that does not match the delimiter the map started with"
                }
                IdMapError::IncompleteMap => "The map is empty or incorrect number of values are provided",
                IdMapError::InvalidValue(error) => return error.fmt(f),
            })
        }
    }

    impl From<ParseIntError> for IdMapError {
        fn from(error: ParseIntError) -> Self {
            IdMapError::InvalidValue(error)
        }
    }

    /// The byte that two processes of virtiofsd send each other while one sets up the namespace of the other.
    #[derive(Debug, Eq, PartialEq)]
    #[repr(u8)]
    pub enum IdMapSetUpPipeMessage {
        /// Set it up.
        Request = 1,
        /// It is set up.
        Done = 2,
    }

    macro_rules! range {
        ($type:ident, $inside:ident, $outside:ident, $doc:expr) => {
            #[doc = $doc]
            #[derive(Clone, Debug, PartialEq, Eq)]
            pub struct $type {
                /// The first id in the namespace.
                pub $inside: u32,
                /// The first id outside the namespace.
                pub $outside: u32,
                /// How many ids.
                pub count: u32,
            }

            impl FromStr for $type {
                type Err = IdMapError;

                fn from_str(text: &str) -> Result<Self, IdMapError> {
                    read(text).map(|it| $type { $inside: it.inside, $outside: it.outside, count: it.count })
                }
            }

            impl Display for $type {
                fn fmt(&self, f: &mut Formatter<'_>) -> fmt::Result {
                    write!(f, ":{}:{}:{}:", self.$inside, self.$outside, self.count)
                }
            }
        };
    }

    range!(UidMap, inside_uid, outside_uid, "A range of user ids.");
    range!(GidMap, inside_gid, outside_gid, "A range of group ids.");

    fn read(text: &str) -> Result<ffi::Range, IdMapError> {
        let (mut range, mut fault) = (ffi::Range::default(), ffi::Fault::default());
        // Sound: the text is lent for the call, which writes to the two structs alone.
        let code = unsafe { ffi::virtiofs_map_range_read(text.as_ptr(), text.len(), &mut range, &mut fault) };
        match (code, fault.kind) {
            (ffi::OK, _) => Ok(range),
            (_, ffi::FAULT_RANGE_DELIMITER) => Err(IdMapError::InvalidDelimiter),
            (_, ffi::FAULT_RANGE_VALUE) => Err(number_fault(text)),
            _ => Err(IdMapError::IncompleteMap),
        }
    }

    /// What std says of the first field that is no number. The library found one, and tells no more than that.
    fn number_fault(text: &str) -> IdMapError {
        let delimiter = text.chars().last().unwrap_or(':');
        let mut read = text.split(delimiter).skip(1).take(3).map(str::parse::<u32>);
        read.find_map(Result::err).map_or(IdMapError::IncompleteMap, IdMapError::InvalidValue)
    }
}

/// Maps of user ids and of group ids between guest and host.
pub mod soft_idmap {
    /// Specifications, as `--translate-uid` and `--translate-gid` give them.
    pub mod cmdline {
        use super::super::ffi::{self, Escaped};
        use std::error::Error;
        use std::fmt::{self, Display, Formatter};
        use std::num::ParseIntError;
        use std::str::FromStr;

        /// One specification. A count of 0 covers no id.
        #[derive(Clone, Copy, Debug, PartialEq, Eq)]
        #[rustfmt::skip]
        pub enum IdMap {
            /// Each of `count` guest ids from `from_guest` on becomes the host id as far above `to_host`.
            Guest { from_guest: u32, to_host: u32, count: u32 },
            /// Each of `count` host ids from `from_host` on becomes the guest id as far above `to_guest`.
            Host { from_host: u32, to_guest: u32, count: u32 },
            /// Each of `count` guest ids from `from_guest` on becomes `to_host`.
            SquashGuest { from_guest: u32, to_host: u32, count: u32 },
            /// Each of `count` host ids from `from_host` on becomes `to_guest`.
            SquashHost { from_host: u32, to_guest: u32, count: u32 },
            /// `Guest` and `Host` together, with `guest` as the first guest id and `host` as the first host id.
            Bidirectional { guest: u32, host: u32, count: u32 },
            /// The use of each of `count` guest ids from `from_guest` on fails.
            ForbidGuest { from_guest: u32, count: u32 },
        }

        /// Why a text is no specification. What is printed of the text has its control characters escaped.
        #[derive(Debug)]
        #[rustfmt::skip]
        pub enum IdMapError {
            /// The word is none of the six; here it is in lower case.
            InvalidPrefix(String),
            /// The word takes `expected` numbers, and there are `seen`; 1 and 0 where no separator follows the word.
            InvalidLength { expected: usize, seen: usize },
            /// The field `value` is no number, of which std says `error`.
            InvalidValue { value: String, error: ParseIntError },
            /// The library was refused memory. virtiofsd has no such variant.
            OutOfMemory,
        }

        impl Error for IdMapError {}

        impl Display for IdMapError {
            fn fmt(&self, f: &mut Formatter<'_>) -> fmt::Result {
                match self {
                    IdMapError::InvalidPrefix(prefix) => write!(f, "Invalid ID map prefix {}", Escaped(prefix)),
                    IdMapError::InvalidLength { expected, seen } => {
                        write!(f, "Invalid ID map length (expected {expected} elements, got {seen} elements)")
                    }
                    IdMapError::InvalidValue { value, error } => {
                        write!(f, "Invalid value {} in ID map: {error}", Escaped(value))
                    }
                    IdMapError::OutOfMemory => f.write_str("Out of memory"),
                }
            }
        }

        impl FromStr for IdMap {
            type Err = IdMapError;

            fn from_str(text: &str) -> Result<Self, IdMapError> {
                let (mut spec, mut fault) = (ffi::Spec::default(), ffi::Fault::default());
                // (what is quoted is a part of the text, in lower case)
                let mut quoted = vec![0; text.len()];
                let (at, len, to) = (text.as_ptr(), text.len(), quoted.as_mut_ptr());
                // Sound: the text is lent for the call, which writes to the two structs and to `quoted` alone.
                match unsafe { ffi::virtiofs_map_spec_read(at, len, &mut spec, &mut fault, to, len) } {
                    ffi::OK => Ok(IdMap::of(spec)),
                    _ => Err(error_of(&fault, &quoted)),
                }
            }
        }

        fn error_of(fault: &ffi::Fault, quoted: &[u8]) -> IdMapError {
            match fault.kind {
                ffi::FAULT_PREFIX => {
                    // (the library has the letters of ASCII in lower case)
                    let word = ffi::quoted(fault, quoted);
                    IdMapError::InvalidPrefix(word.chars().flat_map(char::to_lowercase).collect())
                }
                ffi::FAULT_LENGTH => IdMapError::InvalidLength { expected: fault.expected, seen: fault.seen },
                ffi::FAULT_VALUE => {
                    let value = ffi::quoted(fault, quoted);
                    let error = value.parse::<u32>().expect_err("the library found it to be no number");
                    IdMapError::InvalidValue { value, error }
                }
                _ => IdMapError::OutOfMemory,
            }
        }

        impl IdMap {
            pub(in super::super) fn of(spec: ffi::Spec) -> IdMap {
                let ffi::Spec { kind, first, to, count } = spec;
                match kind {
                    ffi::GUEST => IdMap::Guest { from_guest: first, to_host: to, count },
                    ffi::HOST => IdMap::Host { from_host: first, to_guest: to, count },
                    ffi::SQUASH_GUEST => IdMap::SquashGuest { from_guest: first, to_host: to, count },
                    ffi::SQUASH_HOST => IdMap::SquashHost { from_host: first, to_guest: to, count },
                    ffi::MAP => IdMap::Bidirectional { guest: first, host: to, count },
                    _ => IdMap::ForbidGuest { from_guest: first, count },
                }
            }

            pub(in super::super::super) fn spec(&self) -> ffi::Spec {
                let (kind, first, to, count) = match *self {
                    IdMap::Guest { from_guest, to_host, count } => (ffi::GUEST, from_guest, to_host, count),
                    IdMap::Host { from_host, to_guest, count } => (ffi::HOST, from_host, to_guest, count),
                    IdMap::SquashGuest { from_guest, to_host, count } => {
                        (ffi::SQUASH_GUEST, from_guest, to_host, count)
                    }
                    IdMap::SquashHost { from_host, to_guest, count } => (ffi::SQUASH_HOST, from_host, to_guest, count),
                    IdMap::Bidirectional { guest, host, count } => (ffi::MAP, guest, host, count),
                    IdMap::ForbidGuest { from_guest, count } => (ffi::FORBID_GUEST, from_guest, 0, count),
                };
                ffi::Spec { kind, first, to, count }
            }
        }

        impl Display for IdMap {
            fn fmt(&self, f: &mut Formatter<'_>) -> fmt::Result {
                let ffi::Spec { kind, first, to, count } = self.spec();
                match ["guest", "host", "squash-guest", "squash-host", "map"].get(kind as usize) {
                    Some(word) => write!(f, "{word}:{first}:{to}:{count}"),
                    None => write!(f, "forbid-guest:{first}:{count}"),
                }
            }
        }
    }

    /// The types of ids.
    pub mod id_types {
        use std::fmt::{self, Debug, Display, Formatter};
        use std::ops::{Add, Sub};

        /// An id of a user or of a group, of a guest or of the host.
        #[rustfmt::skip]
        pub trait Id: Clone + Copy + Debug + Display + Eq + From<Self::Inner> + Ord + PartialEq + PartialOrd
            + Send + Sub<Self> + Sync + 'static {
            /// The plain number.
            type Inner: Clone + Copy + From<u32> + Into<u32>;
            /// Whether this is root's id.
            fn is_root(&self) -> bool;
            /// The plain number.
            fn into_inner(self) -> Self::Inner;
        }

        /// An id of a guest.
        pub trait GuestId: Id + Add<<Self::HostType as Sub>::Output, Output = Self> {
            /// The type of the same kind of id on the host.
            type HostType: HostId;
            /// The host's id of the same number.
            fn id_mapped(self) -> Self::HostType;
        }

        /// An id of the host.
        pub trait HostId: Id + Add<<Self::GuestType as Sub>::Output, Output = Self> {
            /// The type of the same kind of id in the guest.
            type GuestType: GuestId;
            /// The guest's id of the same number.
            fn id_mapped(self) -> Self::GuestType;
        }

        /// How far one user id is above another.
        pub struct UidOffset(u32);

        /// How far one group id is above another.
        pub struct GidOffset(u32);

        #[rustfmt::skip]
        macro_rules! id {
            ($type:ident, $side:ident, $other_type:ident = $other:ident, $offset:ident, $doc:expr) => {
                #[doc = $doc]
                #[derive(Clone, Copy, Debug, Default, Eq, Ord, PartialEq, PartialOrd)]
                #[repr(transparent)]
                pub struct $type(u32);

                impl From<u32> for $type {
                    fn from(number: u32) -> Self { $type(number) }
                }

                impl Id for $type {
                    type Inner = u32;
                    fn is_root(&self) -> bool { self.0 == 0 }
                    fn into_inner(self) -> u32 { self.0 }
                }

                impl $side for $type {
                    type $other_type = $other;
                    fn id_mapped(self) -> $other { $other(self.0) }
                }

                impl Add<$offset> for $type {
                    type Output = $type;
                    fn add(self, offset: $offset) -> $type { $type(self.0 + offset.0) }
                }

                impl Sub<$type> for $type {
                    type Output = $offset;
                    fn sub(self, from: $type) -> $offset { $offset(self.0 - from.0) }
                }

                impl Display for $type {
                    fn fmt(&self, f: &mut Formatter<'_>) -> fmt::Result { write!(f, "{}", self.0) }
                }
            };
        }

        id!(GuestUid, GuestId, HostType = HostUid, UidOffset, "A user id in the guest.");
        id!(GuestGid, GuestId, HostType = HostGid, GidOffset, "A group id in the guest.");
        id!(HostUid, HostId, GuestType = GuestUid, UidOffset, "A user id on the host.");
        id!(HostGid, HostId, GuestType = GuestGid, GidOffset, "A group id on the host.");
    }

    use super::ffi;
    pub use self::id_types::{GuestGid, GuestId, GuestUid, HostGid, HostId, HostUid, Id};
    use std::convert::TryFrom;
    use std::error::Error;
    use std::fmt::{self, Debug, Display, Formatter};
    use std::io;
    use std::marker::PhantomData;
    use std::mem::MaybeUninit;

    /// A map of ids between guest and host. An id that no specification covers keeps its number.
    #[derive(Clone)]
    #[repr(transparent)]
    pub struct IdMap<Guest: GuestId<HostType = Host>, Host: HostId<GuestType = Guest>> {
        words: Box<[u32]>,
        pair: PhantomData<(Guest, Host)>,
    }

    // (lookups are in line: under a map with no specifications they call nothing)
    type Lookup = unsafe extern "C" fn(*const u32, usize, u32, *mut u32) -> u32;

    /// How many words a map has under which every id keeps its number. Any other has more.
    const NO_RANGES: usize = 4;

    /// Why an id is not mapped.
    #[derive(Clone, Debug)]
    #[rustfmt::skip]
    pub enum MapError<Source: Id> {
        /// A specification forbids the use of this id.
        ExplicitFailMapping { id: Source },
    }

    impl<Source: Id> Display for MapError<Source> {
        fn fmt(&self, f: &mut Formatter<'_>) -> fmt::Result {
            let MapError::ExplicitFailMapping { id } = self;
            write!(f, "Use of ID {id} has been configured to fail")
        }
    }

    impl<Source: Id> Error for MapError<Source> {}

    impl<Source: Id> From<MapError<Source>> for io::Error {
        fn from(error: MapError<Source>) -> Self {
            io::Error::new(io::ErrorKind::PermissionDenied, error)
        }
    }

    /// Why there is no id to act with. virtiofsd has no such type.
    #[derive(Clone, Copy, Debug, Eq, PartialEq)]
    #[rustfmt::skip]
    pub enum CheckedMapError<Source: Id> {
        /// A specification forbids the use of this id: EPERM.
        Forbidden { id: Source },
        /// This id is 4294967295, or becomes it: EINVAL.
        NoId { id: Source },
    }

    impl<Source: Id> Display for CheckedMapError<Source> {
        fn fmt(&self, f: &mut Formatter<'_>) -> fmt::Result {
            match self {
                CheckedMapError::Forbidden { id } => write!(f, "Use of ID {id} has been configured to fail"),
                CheckedMapError::NoId { id } => write!(f, "ID {id} becomes 4294967295, which is no ID"),
            }
        }
    }

    impl<Source: Id> Error for CheckedMapError<Source> {}

    impl<Source: Id> From<CheckedMapError<Source>> for io::Error {
        fn from(error: CheckedMapError<Source>) -> Self {
            let kind = match error {
                CheckedMapError::Forbidden { .. } => io::ErrorKind::PermissionDenied,
                CheckedMapError::NoId { .. } => io::ErrorKind::InvalidInput,
            };
            io::Error::new(kind, error)
        }
    }

    impl<Guest: GuestId<HostType = Host>, Host: HostId<GuestType = Guest>> Debug for IdMap<Guest, Host> {
        fn fmt(&self, f: &mut Formatter<'_>) -> fmt::Result {
            f.debug_struct("IdMap").finish_non_exhaustive()
        }
    }

    impl<Guest: GuestId<HostType = Host>, Host: HostId<GuestType = Guest>> IdMap<Guest, Host> {
        /// The map under which every id keeps its number.
        pub fn empty() -> Self {
            IdMap::made(&[]).ok().expect("a map of no specifications is not refused")
        }

        fn made(specs: &[ffi::Spec]) -> Result<Self, ffi::Fault> {
            let words = ffi::made(ffi::virtiofs_map_ids_bound(specs.len()), |words, wanted, fault| {
                let (to, room) = (words.as_mut_ptr(), words.len());
                // Sound: the list is lent for the call, which writes to `words` and to the two others alone.
                unsafe { ffi::virtiofs_map_ids_make(specs.as_ptr(), specs.len(), to, room, wanted, fault) }
            })?;
            debug_assert!(!specs.is_empty() || words.len() == NO_RANGES);
            Ok(IdMap { words, pair: PhantomData })
        }

        /// The numbers, for `virtiofs_map_acl.rs`.
        pub(in super::super) fn words(&self) -> &[u32] {
            &self.words
        }

        /// The host's id for a guest's, as virtiofsd answers it. The answer may be 4294967295.
        ///
        /// **To `chown` and `setresuid`, 4294967295 is no id: they read it as "leave unchanged". A file that is made so
        /// for the guest belongs to the daemon's own user, which is root.** So a daemon that acts by the answer asks
        /// [`checked_map_guest`](IdMap::checked_map_guest), or tests for 4294967295 itself.
        #[inline(always)]
        pub fn map_guest(&self, guest_id: Guest) -> Result<Host, MapError<Guest>> {
            match self.asked(ffi::virtiofs_map_ids_to_host, guest_id.into_inner().into()) {
                Ok(host) => Ok(Host::from(host.into())),
                Err(code) => unchanged(code)
                    .map(|host| Host::from(host.into()))
                    .ok_or(MapError::ExplicitFailMapping { id: guest_id }),
            }
        }

        /// The guest's id for a host's, as virtiofsd answers it. The answer may be 4294967295.
        ///
        /// **To `chown` and `setresuid`, 4294967295 is no id: they read it as "leave unchanged".** A guest that is told
        /// of such an owner reads it so too; [`checked_map_host`](IdMap::checked_map_host) never answers it.
        #[inline(always)]
        pub fn map_host(&self, host_id: Host) -> Result<Guest, MapError<Host>> {
            match self.asked(ffi::virtiofs_map_ids_to_guest, host_id.into_inner().into()) {
                Ok(guest) => Ok(Guest::from(guest.into())),
                Err(code) => unchanged(code)
                    .map(|guest| Guest::from(guest.into()))
                    .ok_or(MapError::ExplicitFailMapping { id: host_id }),
            }
        }

        /// The host's id for a guest's, with which a daemon may act: never 4294967295.
        #[inline(always)]
        pub fn checked_map_guest(&self, guest_id: Guest) -> Result<Host, CheckedMapError<Guest>> {
            match self.asked(ffi::virtiofs_map_ids_to_host, guest_id.into_inner().into()) {
                Ok(host) => Ok(Host::from(host.into())),
                Err(ffi::NO_ID) => Err(CheckedMapError::NoId { id: guest_id }),
                Err(_) => Err(CheckedMapError::Forbidden { id: guest_id }),
            }
        }

        /// The guest's id for a host's: never 4294967295. No id of the host is forbidden.
        #[inline(always)]
        pub fn checked_map_host(&self, host_id: Host) -> Result<Guest, CheckedMapError<Host>> {
            match self.asked(ffi::virtiofs_map_ids_to_guest, host_id.into_inner().into()) {
                Ok(guest) => Ok(Guest::from(guest.into())),
                Err(ffi::NO_ID) => Err(CheckedMapError::NoId { id: host_id }),
                Err(_) => Err(CheckedMapError::Forbidden { id: host_id }),
            }
        }

        /// What the id becomes, or the code of the call.
        #[inline(always)]
        fn asked(&self, call: Lookup, number: u32) -> Result<u32, u32> {
            if self.words.len() == NO_RANGES {
                return if number == u32::MAX { Err(ffi::NO_ID) } else { Ok(number) };
            }
            let mut to = MaybeUninit::uninit();
            // Sound: the words are lent for the call, a lookup of the library, which writes to `to` alone.
            match unsafe { call(self.words.as_ptr(), self.words.len(), number, to.as_mut_ptr()) } {
                // Sound: the call wrote it.
                ffi::OK => Ok(unsafe { to.assume_init() }),
                code => Err(code),
            }
        }
    }

    /// What virtiofsd answers where no id is to be had: 4294967295, unless the id is forbidden.
    // (so a lookup with an id tests the code once)
    #[cold]
    #[inline(never)]
    fn unchanged(code: u32) -> Option<u32> {
        (code == ffi::NO_ID).then_some(u32::MAX)
    }

    impl<Guest, Host> TryFrom<Vec<cmdline::IdMap>> for IdMap<Guest, Host>
    where
        Guest: GuestId<HostType = Host> + From<u32>,
        Host: HostId<GuestType = Guest> + From<u32>,
    {
        type Error = io::Error;

        fn try_from(cmdline: Vec<cmdline::IdMap>) -> io::Result<Self> {
            let specs: Vec<ffi::Spec> = cmdline.iter().map(cmdline::IdMap::spec).collect();
            IdMap::made(&specs).map_err(|fault| error_of(&fault))
        }
    }

    /// What an `io::Error` of a list holds (`get_ref`), if memory did not run out: it prints virtiofsd's text.
    #[derive(Clone, Debug, Eq, PartialEq)]
    pub struct BuildError {
        /// The place of the specification in the list, from 0.
        pub place: usize,
        text: String,
    }

    impl Display for BuildError {
        fn fmt(&self, f: &mut Formatter<'_>) -> fmt::Result {
            f.write_str(&self.text)
        }
    }

    impl Error for BuildError {}

    /// virtiofsd's kind and text.
    pub(in super::super) fn error_of(fault: &ffi::Fault) -> io::Error {
        let (spec, place) = (cmdline::IdMap::of(fault.spec), fault.place);
        let (kind, text) = match fault.kind {
            ffi::FAULT_OVERFLOW => (io::ErrorKind::InvalidInput, format!("Parameter {spec}: Range overflow")),
            ffi::FAULT_INTERSECTS => {
                let to_host = fault.direction == ffi::GUEST_TO_HOST;
                let direction = if to_host { "Guest-to-host" } else { "Host-to-guest" };
                let entry = entry_of(fault.spec, to_host);
                let text = format!("{spec}: {direction} mapping '{entry}' intersects previously added entry");
                (io::ErrorKind::Other, text)
            }
            _ => return io::ErrorKind::OutOfMemory.into(),
        };
        io::Error::new(kind, BuildError { place, text })
    }

    /// What a specification sets up in a direction, as its faults print it.
    fn entry_of(spec: ffi::Spec, to_host: bool) -> String {
        let (first, to, count) = (u64::from(spec.first), u64::from(spec.to), u64::from(spec.count));
        let (from, to) = if spec.kind == ffi::MAP && !to_host { (to, first) } else { (first, to) };
        let from_end = from + count;
        match spec.kind {
            ffi::SQUASH_GUEST | ffi::SQUASH_HOST => format!("squash [{from}, {from_end}) to {to}"),
            ffi::FORBID_GUEST => format!("fail [{from}, {from_end})"),
            _ => format!("map [{from}, {from_end}) to [{to}, {})", to + count),
        }
    }
}

/// Maps of the names of extended attributes, as `--xattrmap` gives them.
pub mod xattrmap {
    use super::ffi::{self, Escaped};
    use std::borrow::Cow;
    use std::convert::TryFrom;
    use std::error;
    use std::ffi::{CStr, CString};
    use std::fmt::{self, Debug, Display, Formatter};
    use std::io;
    use std::mem::MaybeUninit;
    use std::slice;

    /// What is wrong.
    #[derive(Eq, PartialEq)]
    #[rustfmt::skip]
    pub enum ErrorKind {
        /// There is no such scope: what the rule has in its place, and the three scopes.
        InvalidScope { got: String, expected: String },
        /// There is no such type: what the rule has in its place, and the usual types.
        InvalidType { got: String, expected: String },
        /// Never answered: a character that is not a rule's delimiter is part of its field.
        InvalidDelimiter,
        /// A field is not closed by the rule's delimiter.
        IncompleteRule,
        /// Something follows a `map` rule.
        MapRuleViolation,
        /// The text has no rules.
        NoRulesProvided,
        /// No rule decides a name, or a name of a list.
        UnterminatedMapping,
        /// A key or a prepend holds a zero. virtiofsd has no such kind, and panics.
        NulInPattern { pattern: PatternField },
        /// The library was refused memory. virtiofsd has no such kind.
        OutOfMemory,
    }

    /// The part of a rule that names are compared with.
    #[derive(Clone, Copy, Debug, Eq, PartialEq)]
    pub enum PatternField {
        /// What a guest's name is compared with.
        Key,
        /// What a host's name is compared with.
        Prepend,
    }

    impl ErrorKind {
        /// What is wrong, for whoever wrote the text. What is quoted of it has its control characters escaped.
        pub fn sentence(&self) -> String {
            let unexpected = |what: &str, got: &str, expected: &str| {
                format!("invalid {what} '{}', expected one of: {expected}", Escaped(got))
            };
            match self {
                ErrorKind::InvalidScope { got, expected } => return unexpected("scope", got, expected),
                ErrorKind::InvalidType { got, expected } => return unexpected("type", got, expected),
                ErrorKind::InvalidDelimiter => "the delimiter is not the rule's first",
                ErrorKind::IncompleteRule => "the rule is incomplete",
                ErrorKind::MapRuleViolation => "a map rule has to stand last",
                ErrorKind::NoRulesProvided => "there are no rules",
                ErrorKind::UnterminatedMapping => "no rule decides this name",
                ErrorKind::NulInPattern { pattern: PatternField::Key } => "Key holds NUL",
                ErrorKind::NulInPattern { pattern: PatternField::Prepend } => "Prepend holds NUL",
                ErrorKind::OutOfMemory => "Out of memory",
            }
            .into()
        }
    }

    impl error::Error for ErrorKind {}

    /// As virtiofsd prints it, which reads the lowest byte of each character of `got`. Where it takes that for a word, `got`
    /// is printed as it is.
    impl Debug for ErrorKind {
        fn fmt(&self, f: &mut Formatter<'_>) -> fmt::Result {
            let words = ["prefix", "ok", "bad", "unsupported", "map", "all", "client", "server"];
            let unexpected = |f: &mut Formatter<'_>, name: &str, got: &str, expected: &str| {
                let low: Vec<u8> = got.chars().map(|it| it as u8).collect();
                let read = String::from_utf8_lossy(&low);
                let got = if words.contains(&&*read) { got } else { &read };
                f.debug_struct(name).field("got", &got).field("expected", &expected).finish()
            };
            f.write_str(match self {
                ErrorKind::InvalidScope { got, expected } => return unexpected(f, "InvalidScope", got, expected),
                ErrorKind::InvalidType { got, expected } => return unexpected(f, "InvalidType", got, expected),
                ErrorKind::InvalidDelimiter => "InvalidDelimiter",
                ErrorKind::IncompleteRule => "IncompleteRule",
                ErrorKind::MapRuleViolation => "MapRuleViolation",
                ErrorKind::NoRulesProvided => "NoRulesProvided",
                ErrorKind::UnterminatedMapping => "UnterminatedMapping",
                ErrorKind::NulInPattern { pattern } => {
                    return f.debug_struct("NulInPattern").field("pattern", pattern).finish();
                }
                ErrorKind::OutOfMemory => "OutOfMemory",
            })
        }
    }

    impl Display for ErrorKind {
        fn fmt(&self, f: &mut Formatter<'_>) -> fmt::Result {
            write!(f, "{self:?}")
        }
    }

    /// What is wrong, and in which rule.
    #[derive(Debug, Eq, PartialEq)]
    pub struct Error {
        /// What is wrong.
        pub cause: ErrorKind,
        /// The number of the rule in the text, from 1.
        pub rule: Option<usize>,
    }

    impl Error {
        /// What is wrong, and in which rule, as `virtiofs_fault_text` writes it: `rule 2: the rule is incomplete`.
        /// (What `Display` prints is virtiofsd's text, which has the names of this file.)
        pub fn sentence(&self) -> String {
            match self.rule {
                Some(rule) => format!("rule {rule}: {}", self.cause.sentence()),
                None => self.cause.sentence(),
            }
        }
    }

    impl error::Error for Error {
        fn source(&self) -> Option<&(dyn error::Error + 'static)> {
            Some(&self.cause)
        }
    }

    impl Display for Error {
        fn fmt(&self, f: &mut Formatter<'_>) -> fmt::Result {
            write!(f, "{self:?}")
        }
    }

    impl From<ErrorKind> for Error {
        fn from(cause: ErrorKind) -> Self {
            Error { cause, rule: None }
        }
    }

    /// Says the sentence. The kind is `PermissionDenied` (EPERM) where no rule decides a name, `InvalidInput` (EINVAL)
    /// where a text of rules is refused, and `OutOfMemory` (ENOMEM). virtiofsd has no such conversion.
    impl From<Error> for io::Error {
        fn from(error: Error) -> Self {
            match error.cause {
                ErrorKind::OutOfMemory => io::ErrorKind::OutOfMemory.into(),
                ErrorKind::UnterminatedMapping => io::Error::new(io::ErrorKind::PermissionDenied, error.sentence()),
                _ => io::Error::new(io::ErrorKind::InvalidInput, error.sentence()),
            }
        }
    }

    /// What becomes of a name that the guest asks for.
    #[derive(Debug, Eq, PartialEq)]
    pub enum AppliedRule<'a> {
        /// The name goes to the host as this one.
        Pass(Cow<'a, CStr>),
        /// The guest may not use the name: EPERM.
        Deny,
        /// The name is refused as unsupported: ENOTSUP.
        Unsupported,
    }

    /// Whether something holds of all names. virtiofsd has no such questions.
    #[derive(Clone, Debug, Eq, PartialEq)]
    pub enum Audit {
        /// What was asked holds of all names.
        Yes,
        /// What was asked does not hold of this name, and this is the least such name.
        No(CString),
    }

    /// A map of attribute names, made of a text of rules. Two maps are equal where their rules are.
    #[derive(Clone, Eq, PartialEq)]
    #[repr(transparent)]
    pub struct XattrMap {
        bytes: Box<[u8]>,
    }

    impl Debug for XattrMap {
        fn fmt(&self, f: &mut Formatter<'_>) -> fmt::Result {
            f.debug_struct("XattrMap").finish_non_exhaustive()
        }
    }

    impl<'t> TryFrom<&'t str> for XattrMap {
        type Error = Error;

        fn try_from(text: &'t str) -> Result<Self, Error> {
            // (what is quoted is a field of the text)
            let (mut quoted, len) = (vec![0; text.len()], text.len());
            let quote = quoted.as_mut_ptr();
            let made = ffi::made(ffi::virtiofs_map_names_bound(len), |bytes, wanted, fault| {
                let (text, to, room) = (text.as_ptr(), bytes.as_mut_ptr(), bytes.len());
                // Sound: the text is lent for the call, which writes to `bytes`, `quoted` and the two others alone.
                unsafe { ffi::virtiofs_map_names_make(text, len, to, room, wanted, fault, quote, len) }
            });
            made.map(|bytes| XattrMap { bytes }).map_err(|fault| Error {
                rule: Some(fault.place).filter(|place| *place > 0),
                cause: cause_of(&fault, &quoted),
            })
        }
    }

    fn cause_of(fault: &ffi::Fault, quoted: &[u8]) -> ErrorKind {
        let (got, list) = (ffi::quoted(fault, quoted), String::from);
        match fault.kind {
            ffi::FAULT_SCOPE => ErrorKind::InvalidScope { got, expected: list("all, client, server") },
            ffi::FAULT_TYPE => ErrorKind::InvalidType { got, expected: list("prefix, ok, bad, map") },
            ffi::FAULT_INCOMPLETE => ErrorKind::IncompleteRule,
            ffi::FAULT_MAP_RULE => ErrorKind::MapRuleViolation,
            ffi::FAULT_NO_RULES => ErrorKind::NoRulesProvided,
            ffi::FAULT_NUL_KEY => ErrorKind::NulInPattern { pattern: PatternField::Key },
            ffi::FAULT_NUL_PREPEND => ErrorKind::NulInPattern { pattern: PatternField::Prepend },
            _ => ErrorKind::OutOfMemory,
        }
    }

    /// Names of the kernel have at most 255 bytes, and a zero after them; a longer answer costs a second call.
    const ROOM: usize = 256;

    impl XattrMap {
        /// What becomes of a name that the guest asks for. A name that passes as it is is borrowed.
        #[inline]
        pub fn map_client_xattr<'a>(&self, xattr_name: &'a CStr) -> Result<AppliedRule<'a>, Error> {
            let (mut out, mut len) = ([MaybeUninit::uninit(); ROOM], MaybeUninit::uninit());
            // (the answer is written in its place, so that one without a name copies none; an owned name comes in two
            // registers)
            let mut answer = MaybeUninit::new(Ok(AppliedRule::Deny));
            match self.client(xattr_name, &mut out[..ROOM - 1], &mut len) {
                ffi::DENIED => {}
                ffi::AS_IT_IS => { answer.write(Ok(AppliedRule::Pass(Cow::Borrowed(xattr_name)))); }
                ffi::UNSUPPORTED => { answer.write(Ok(AppliedRule::Unsupported)); }
                // Sound: the call wrote the length.
                code => { answer.write(match self.owned(code, xattr_name, &mut out, unsafe { len.assume_init() }) {
                    Some(name) => Ok(AppliedRule::Pass(Cow::Owned(name))),
                    None => Err(ErrorKind::UnterminatedMapping.into()),
                }); }
            }
            // Sound: it was written at first.
            unsafe { answer.assume_init() }
        }

        /// The name that the call wrote to `out`, or would have written if that were longer.
        #[inline(never)]
        fn owned(
            &self, code: u32, xattr_name: &CStr, out: &mut [MaybeUninit<u8>; ROOM], len: usize,
        ) -> Option<CString> {
            match code {
                ffi::OK => {
                    out[len].write(0);
                    // Sound: the call wrote the bytes before this zero, and a name holds none.
                    let name = unsafe { slice::from_raw_parts(out.as_ptr() as *const u8, len + 1) };
                    Some(unsafe { CString::from_vec_with_nul_unchecked(name.to_vec()) })
                }
                ffi::NO_ROOM => self.long_client(xattr_name, len),
                _ => None,
            }
        }

        #[cold]
        fn long_client(&self, xattr_name: &CStr, wanted: usize) -> Option<CString> {
            let (mut out, mut len) = (Vec::with_capacity(wanted + 1), MaybeUninit::uninit());
            if self.client(xattr_name, out.spare_capacity_mut(), &mut len) != ffi::OK {
                return None;
            }
            // Sound: the call wrote the length, and so many bytes.
            unsafe { out.set_len(len.assume_init()) };
            Some(c_string(out))
        }

        /// The code for a name. The call writes to `len` the length of what is written to `out`, or that is needed.
        #[inline]
        fn client(&self, name: &CStr, out: &mut [MaybeUninit<u8>], len: &mut MaybeUninit<usize>) -> u32 {
            let (bytes, map_len, name) = (self.bytes.as_ptr(), self.bytes.len(), name.to_bytes());
            let (to, room, len) = (out.as_mut_ptr() as *mut u8, out.len(), len.as_mut_ptr());
            // Sound: map and name are lent for the call, which writes to `len` and to `out` alone.
            unsafe { ffi::virtiofs_map_name_to_host_bytes(bytes, map_len, name.as_ptr(), name.len(), to, room, len) }
        }

        /// The list that the guest gets for the host's, as virtiofsd makes it: each name with a zero after it, one zero
        /// where none is left. A name that is only its rule's prepend becomes the empty name. With one of these Linux
        /// answers EIO; [`list_to_guest`](XattrMap::list_to_guest) leaves them out.
        pub fn map_server_xattrlist(&self, xattr_names: Vec<u8>) -> Result<Vec<u8>, Error> {
            let (code, out) = self.seen(ffi::virtiofs_map_server_xattrlist, &xattr_names);
            if code == ffi::OK { Ok(out) } else { Err(ErrorKind::UnterminatedMapping.into()) }
        }

        /// The list that a daemon hands on to its guest for the host's: each name for which
        /// [`name_to_guest`](XattrMap::name_to_guest) has one, with a zero after it; empty where none is left. virtiofsd
        /// has no such call.
        pub fn list_to_guest(&self, xattr_names: &[u8]) -> Result<Vec<u8>, Error> {
            let (code, out) = self.seen(ffi::virtiofs_map_list_to_guest, xattr_names);
            if code == ffi::OK { Ok(out) } else { Err(ErrorKind::UnterminatedMapping.into()) }
        }

        /// The guest's name for one of the host's; `None` where the guest does not see it, or would see it as the empty
        /// name. virtiofsd has no such call.
        pub fn name_to_guest(&self, xattr_name: &CStr) -> Result<Option<CString>, Error> {
            match self.seen(ffi::virtiofs_map_name_to_guest, xattr_name.to_bytes()) {
                (ffi::OK, name) => Ok(Some(c_string(name))),
                (ffi::HIDDEN, _) => Ok(None),
                _ => Err(ErrorKind::UnterminatedMapping.into()),
            }
        }

        /// The code of a call on names of the host, and what it wrote, which is at most one byte longer.
        fn seen(&self, call: OfHost, names: &[u8]) -> (u32, Vec<u8>) {
            let (bytes, map_len, mut len, room) = (self.bytes.as_ptr(), self.bytes.len(), 0, names.len() + 1);
            let mut out = Vec::with_capacity(room);
            // Sound: map and names are lent for the call, which writes to `len` and to the room of `out` alone.
            let code = unsafe { call(bytes, map_len, names.as_ptr(), names.len(), out.as_mut_ptr(), room, &mut len) };
            if code == ffi::OK {
                // Sound: the call wrote so many bytes.
                unsafe { out.set_len(len) };
            }
            (code, out)
        }

        /// Whether no name and no list is ever answered as `UnterminatedMapping`.
        pub fn is_terminated(&self) -> bool {
            let (bytes, map_len, mut yes) = (self.bytes.as_ptr(), self.bytes.len(), false);
            // Sound: the map is lent for the call, which writes to `yes` alone.
            unsafe { ffi::virtiofs_map_names_is_terminated(bytes, map_len, &mut yes) == ffi::OK && yes }
        }

        /// Whether each name that passes, except the empty one, is listed back to the guest as itself.
        pub fn audit(&self) -> Result<Audit, Error> {
            self.decided(ffi::virtiofs_map_names_audit)
        }

        /// Whether each name of the host that is listed, except the empty one, is opened by the name under which the
        /// guest sees it: that name passes as this very name of the host. The name of a `No` is one of the host's.
        pub fn audit_listed(&self) -> Result<Audit, Error> {
            self.decided(ffi::virtiofs_map_names_audit_listed)
        }

        /// Whether the other map hides every non-empty name of the host that the guest of this map can reach. Then
        /// names that the guest of this map reaches make no difference to the lists of the other.
        pub fn keeps_apart(&self, other: &XattrMap) -> Result<Audit, Error> {
            self.compared(other, ffi::virtiofs_map_names_keeps_apart)
        }

        /// Whether no non-empty name of the host is reached by the guest of this map and by that of the other. The
        /// name of a `No` is one of the guest of this map, and the least whose host name the other reaches too.
        pub fn shares_no_name(&self, other: &XattrMap) -> Result<Audit, Error> {
            self.compared(other, ffi::virtiofs_map_names_shares_no_name)
        }

        fn compared(&self, other: &XattrMap, call: Comparison) -> Result<Audit, Error> {
            let (bytes, map_len) = (self.bytes.as_ptr(), self.bytes.len());
            let (others, other_len) = (other.bytes.as_ptr(), other.bytes.len());
            // Sound: the maps are lent for the call, which writes to `yes`, `len` and the room of `out` alone.
            told(|yes, out, room, len| unsafe { call(bytes, map_len, others, other_len, yes, out, room, len) })
        }

        fn decided(&self, call: Decision) -> Result<Audit, Error> {
            let (bytes, map_len) = (self.bytes.as_ptr(), self.bytes.len());
            // Sound: the map is lent for the call, which writes to `yes`, `len` and the room of `out` alone.
            told(|yes, out, room, len| unsafe { call(bytes, map_len, yes, out, room, len) })
        }
    }

    type OfHost = unsafe extern "C" fn(*const u8, usize, *const u8, usize, *mut u8, usize, &mut usize) -> u32;
    type Decision = unsafe extern "C" fn(*const u8, usize, &mut bool, *mut u8, usize, &mut usize) -> u32;
    type Comparison =
        unsafe extern "C" fn(*const u8, usize, *const u8, usize, &mut bool, *mut u8, usize, &mut usize) -> u32;

    /// The answer of an audit, which is asked again where its name has more than `ROOM` bytes.
    fn told(ask: impl Fn(&mut bool, *mut u8, usize, &mut usize) -> u32) -> Result<Audit, Error> {
        let (mut yes, mut len, mut out) = (false, 0, vec![0; ROOM]);
        let mut code = ask(&mut yes, out.as_mut_ptr(), out.len(), &mut len);
        if code == ffi::NO_ROOM {
            out.resize(len, 0);
            code = ask(&mut yes, out.as_mut_ptr(), out.len(), &mut len);
        }
        out.truncate(len);
        match code {
            ffi::OK if yes => Ok(Audit::Yes),
            ffi::OK => Ok(Audit::No(c_string(out))),
            _ => Err(ErrorKind::OutOfMemory.into()),
        }
    }

    /// The name as a `CString`, which takes no memory where there is room for one byte more.
    fn c_string(name: Vec<u8>) -> CString {
        // Sound: a name that the library answers with holds no zero.
        unsafe { CString::from_vec_unchecked(name) }
    }
}

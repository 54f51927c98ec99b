//! A DNS zone that a program keeps.

use crate::limits::ZONE_LENGTH;
use crate::{raw, Entry, Name, Refusal, Standing};

/// A DNS zone: at most 64 names, each static or held by one owner, with at most four addresses of
/// each family. Several boxes may share it; the requests of RFC 4703 and the steps of
/// [`Job`](crate::Job)s change it.
///
/// ```
/// use jespurla::{Answer, Dhcid, Name, Standing, Zone};
/// use std::net::Ipv4Addr;
///
/// let name: Name = "pipe7.stage.".parse()?;
/// let (owner, address) = (Dhcid::new([7; 35]), Ipv4Addr::new(10, 0, 0, 7));
/// let mut zone = Zone::new();
/// assert_eq!(zone.request_a(&name, &owner, address)?, Answer::NoError);
/// assert_eq!(zone.request_a(&name, &owner, address)?, Answer::YxDomain);
///
/// let Standing::Held { owner: holder, addresses } = zone.find(&name)? else {
///     panic!("the name is held");
/// };
/// assert_eq!(holder, owner);
/// assert!(addresses.contains(address));
/// # Ok::<(), Box<dyn std::error::Error>>(())
/// ```
///
/// # Where to keep it
///
/// A zone has 23,936 octets. The calls here change it where it lies and copy none, so it can be in
/// a `static`, behind a lock, or in memory of your own, by [`Zone::from_bytes_mut`]; octets of 0
/// are a zone without names. As a local variable it stands on the stack, and so does one that is
/// passed or returned by value, `Box::new(Zone::new())` among it where the compiler does not see
/// better.
///
/// ```
/// use jespurla::Zone;
/// use std::sync::Mutex;
///
/// static ZONE: Mutex<Zone> = Mutex::new(Zone::new());
/// assert!(ZONE.lock().expect("not poisoned").is_empty());
///
/// let mut octets = vec![0; jespurla::limits::ZONE_LENGTH];
/// let zone: &mut Zone = Zone::from_bytes_mut(&mut octets)?;
/// assert!(zone.is_empty());
/// # Ok::<(), jespurla::Refusal>(())
/// ```
///
/// # Its form
///
/// A value of this type always keeps the form of a zone: nothing makes one that breaks it, and
/// every request and step keeps it. As names, addresses and policies have types of their own too,
/// the calls on a zone are refused only where its memory has been damaged.
///
/// # How names are spelled
///
/// The calls compare names as [`Name`] does, so a zone has no two names that differ only in the case
/// of letters. A name keeps the octets that it was first written with, by request A or among the
/// entries that the zone was made of, for as long as it stands, whatever letters later requests
/// have. Where it was deleted and is added again, it has the new ones. [`Zone::entries`] gives them.
///
/// ```
/// use jespurla::{Dhcid, Entry, Name, Policy, Zone};
/// use std::net::{Ipv4Addr, Ipv6Addr};
///
/// let (typed, asked): (Name, Name) = ("Oboe.stage".parse()?, "oboe.stage".parse()?);
/// let owner = Dhcid::new([7; 35]);
/// let mut zone = Zone::new();
/// zone.request_a(&typed, &owner, Ipv4Addr::new(10, 0, 0, 7))?;
/// zone.request_b(&asked, &owner, Ipv6Addr::LOCALHOST, Policy::KeepOthers)?;
/// assert_eq!(zone.find(&asked)?, zone.find(&typed)?);
///
/// let entry = zone.entries().find(|entry| entry.name == asked).expect("it stands");
/// assert_eq!(entry.name.to_string(), "Oboe.stage.");
/// let other = Zone::from_entries([Entry { name: asked, ..entry }])?;
/// assert_eq!(zone, other);
/// # Ok::<(), Box<dyn std::error::Error>>(())
/// ```
///
/// # Equality
///
/// Zones are equal where they have the same names, with the same owner at each and the same
/// addresses of each family. Which place a name has, how it is spelled and what stands in places
/// that are free does not matter, although [`Zone::as_bytes`] shows it.
#[repr(transparent)]
#[derive(Clone)]
pub struct Zone(pub(crate) raw::Zone);

/// A full name, for a check that is about the zone alone.
const ANY_NAME: raw::Name = {
    let mut name = raw::Name::EMPTY;
    (name.octets[0], name.octets[1]) = (1, b'a');
    name.length = 3;
    name
};

impl Zone {
    /// A zone without names.
    pub const fn new() -> Zone {
        Zone(raw::Zone::EMPTY)
    }

    /// A zone with these names; the only way to have static ones.
    ///
    /// # Errors
    ///
    /// [`Refusal::Zone`] where there are over 64, or two are equal, as `Oboe` and `oboe` are.
    ///
    /// # Examples
    ///
    /// ```
    /// use jespurla::{Addresses, Entry, Refusal, Zone};
    /// # fn main() -> Result<(), Refusal> {
    /// let desk = Entry {
    ///     name: "desk.stage.".parse().expect("a name"),
    ///     owner: None,
    ///     addresses: Addresses::from_slice(&[[10, 0, 0, 1].into()])?,
    /// };
    /// let zone = Zone::from_entries([desk.clone()])?;
    /// assert_eq!(zone.entries().next(), Some(desk));
    /// # Ok(())
    /// # }
    /// ```
    pub fn from_entries(entries: impl IntoIterator<Item = Entry>) -> Result<Zone, Refusal> {
        let mut zone = Zone::new();
        for (at, entry) in entries.into_iter().enumerate() {
            *zone.0.entries.get_mut(at).ok_or(Refusal::Zone)? = entry.to_raw();
        }
        zone.check()?;
        Ok(zone)
    }

    /// The zone that is stored in these octets, where they are.
    ///
    /// # Errors
    ///
    /// [`Refusal::Zone`] where they are not [`ZONE_LENGTH`] octets or break the form.
    ///
    /// # Examples
    ///
    /// ```
    /// use jespurla::Zone;
    ///
    /// let stored = Zone::new().as_bytes().to_vec();
    /// assert_eq!(Zone::from_bytes(&stored), Ok(&Zone::new()));
    /// ```
    pub fn from_bytes(octets: &[u8]) -> Result<&Zone, Refusal> {
        let octets: &[u8; ZONE_LENGTH] = octets.try_into().map_err(|_| Refusal::Zone)?;
        let zone = raw::zone_in(octets);
        zone.check().map(|()| zone)
    }

    /// The same for a zone that is changed where its octets are.
    ///
    /// # Errors
    ///
    /// Those of [`Zone::from_bytes`].
    pub fn from_bytes_mut(octets: &mut [u8]) -> Result<&mut Zone, Refusal> {
        let octets: &mut [u8; ZONE_LENGTH] = octets.try_into().map_err(|_| Refusal::Zone)?;
        let zone = raw::zone_in_mut(octets);
        zone.check().map(|()| zone)
    }

    /// Its octets, to be stored: those of the struct `jespurla_zone` of C, on every machine the
    /// same.
    pub fn as_bytes(&self) -> &[u8; ZONE_LENGTH] {
        raw::zone_octets(&self.0)
    }

    /// The check that every call on a zone makes first.
    ///
    /// # Errors
    ///
    /// [`Refusal::Zone`] where the zone breaks its form. No value of this type does, unless its
    /// memory has been damaged, and it is to be restored then: no call changes it any more.
    pub fn check(&self) -> Result<(), Refusal> {
        let (family, policy) = (raw::FAMILY_4, raw::KEEP_OTHERS);
        let told = raw::zone_check_lent(&self.0, &ANY_NAME, family, policy);
        Refusal::check(told.refusal)
    }

    /// What stands at a name, in whatever letters the zone has it.
    ///
    /// # Errors
    ///
    /// That of [`Zone::check`].
    pub fn find(&self, name: &Name) -> Result<Standing, Refusal> {
        let told = raw::zone_find(&self.0, name.as_raw());
        Refusal::check(told.refusal).map(|()| Standing::of(&told.entry))
    }

    /// The names as they are spelled in the zone, each with its owner and its addresses, in no order
    /// that means anything.
    pub fn entries(&self) -> impl Iterator<Item = Entry> + '_ {
        self.0.entries.iter().filter_map(Entry::of)
    }

    /// How many names there are.
    pub fn len(&self) -> usize {
        let taken = |entry: &&raw::Entry| entry.kind != raw::FREE;
        self.0.entries.iter().filter(taken).count()
    }

    /// Whether there is none.
    pub fn is_empty(&self) -> bool {
        self.len() == 0
    }
}

/// A zone without names.
impl Default for Zone {
    fn default() -> Zone {
        Zone::new()
    }
}

/// Equality of what the zones mean; see [the type](Zone#equality).
impl PartialEq for Zone {
    fn eq(&self, other: &Zone) -> bool {
        raw::zone_same(&self.0, &other.0).same == 1
    }
}

impl Eq for Zone {}

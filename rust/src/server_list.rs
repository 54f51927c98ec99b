//! The DNS servers that routers announce.

use core::fmt;
use core::net::Ipv6Addr;

use crate::limits::SERVERS_MAX;
use crate::{raw, Expiry, Moment, Refusal, Span};

/// A DNS server of the list. It is in use [`until`](Server::until) the earlier of its two moments.
#[derive(Clone, Copy, PartialEq, Eq, Hash, Debug)]
pub struct Server {
    /// Its address.
    pub address: Ipv6Addr,
    /// When it expires by the option that last named it.
    pub expiry: Expiry,
    /// Up to when the router that sent this option said that it would be there.
    pub router: Moment,
}

impl Server {
    /// The last moment at which it is in use: the earlier one of its expiry and its router's
    /// moment. A second later it is gone, unless a router has named it again.
    pub fn until(&self) -> Moment {
        match self.expiry {
            Expiry::At(moment) => moment.min(self.router),
            Expiry::Never => self.router,
        }
    }

    fn to_raw(self) -> raw::Server {
        raw::Server {
            address: self.address.octets(),
            expiry: self.expiry.to_raw(),
            router: self.router.to_raw(),
        }
    }

    /// The server of a list that is known to keep its form.
    fn from_raw(server: &raw::Server) -> Server {
        Server {
            address: server.address.into(),
            expiry: Expiry::from_raw(server.expiry),
            router: Moment::from_raw(server.router),
        }
    }
}

/// The DNS servers that routers have announced (RFC 5006), the preferred one first, and the last
/// accepted clock.
///
/// ```
/// use jespurla::{Moment, Refusal, ServerList, Span};
///
/// // An option for one server, with the Lifetime 60.
/// let mut area = [0; 24];
/// (area[0], area[1], area[7]) = (25, 3, 60);
/// area[8..].copy_from_slice(&[0x20, 1, 0x0d, 0xb8, 0, 0, 0, 0, 0, 0, 0, 0, 0, 0, 0, 1]);
///
/// // A router that will be there for half an hour announces it.
/// let mut servers = ServerList::new();
/// servers.advance(Moment::try_from(100)?, Span(1_800), &area)?;
/// let server = servers.iter().next().expect("one server");
/// assert_eq!(server.address.to_string(), "2001:db8::1");
/// assert_eq!(server.until(), Moment::try_from(160)?);
///
/// // At that moment a server is still there; a second later it is gone.
/// servers.expire(Moment::try_from(160)?)?;
/// assert_eq!(servers.len(), 1);
/// servers.expire(Moment::try_from(161)?)?;
/// assert!(servers.is_empty());
/// # Ok::<(), Refusal>(())
/// ```
///
/// A server goes with its router. One router says goodbye, another is unplugged:
///
/// ```
/// use jespurla::{Expiry, Moment, Refusal, ServerList, Span};
///
/// // An option for the server of this number, for good.
/// let for_good = |number: u8| {
///     let mut area = [0; 24];
///     (area[0], area[1], area[23]) = (25, 3, number);
///     area[4..8].fill(255);
///     area
/// };
/// let mut servers = ServerList::new();
/// servers.advance(Moment::try_from(100)?, Span(1_800), &for_good(1))?;
/// servers.advance(Moment::try_from(100)?, Span(9_000), &for_good(2))?;
///
/// // The second router says goodbye: its server goes at once, that of the first stays.
/// servers.advance(Moment::try_from(200)?, Span(0), &for_good(2))?;
/// let left = servers.iter().next().expect("the server of the first router");
/// assert_eq!((servers.len(), left.address), (1, [0, 0, 0, 0, 0, 0, 0, 1].into()));
///
/// // The first one is unplugged and says nothing: its server goes when its lifetime is over.
/// assert_eq!((left.expiry, left.until()), (Expiry::Never, Moment::try_from(1_900)?));
/// servers.expire(Moment::try_from(1_900)?)?;
/// assert_eq!(servers.len(), 1);
/// servers.expire(Moment::try_from(1_901)?)?;
/// assert!(servers.is_empty());
/// # Ok::<(), Refusal>(())
/// ```
#[derive(Clone)]
pub struct ServerList(raw::ServerListState);

impl ServerList {
    /// A list without servers, at clock 0.
    pub const fn new() -> ServerList {
        ServerList(raw::ServerListState::EMPTY)
    }

    /// The list of these servers at this clock, as one that was stored. Those that have expired by
    /// then are left out.
    ///
    /// # Errors
    ///
    /// [`Refusal::ServerList`] where there are over eight, or two of one address.
    pub fn from_servers(clock: Moment, servers: &[Server]) -> Result<ServerList, Refusal> {
        if servers.len() > SERVERS_MAX {
            return Err(Refusal::ServerList);
        }
        let mut list = ServerList::new();
        (list.0.count, list.0.clock) = (servers.len(), clock.to_raw());
        for (entry, server) in list.0.entries.iter_mut().zip(servers) {
            *entry = server.to_raw();
        }
        list.expire(clock)?;
        Ok(list)
    }

    /// The list after a router's option area has come in.
    ///
    /// `clock` is now; `router_lifetime` is for how long from now the router says that it is there,
    /// the Router Lifetime of its advertisement; `area` has the options of the same advertisement,
    /// one behind the other.
    ///
    /// First every server goes for which the earlier of its two moments, [`Server::until`], is less
    /// than the clock. Then the options act in turn. One acts where its Type is 25 and its Length is
    /// odd and at least 3; of its addresses the first three count. Where the option's Lifetime is 0,
    /// or the router lifetime, an address is taken off the list. With any others an address that is
    /// there gets the expiry [`clock.after(lifetime)`](Moment::after) and the router's moment
    /// `clock.after(router_lifetime)`, and keeps its place. One that is not there is put ahead of
    /// all servers that this option did not put in, behind those that it did; where the list has
    /// eight, the one whose earlier moment is the first is dropped to make room, of several the one
    /// furthest back. A server that the area does not name keeps its moments, whatever the router
    /// lifetime is.
    ///
    /// # Errors
    ///
    /// In the order in which they are tried: [`Refusal::Clock`] a clock behind the list's, or a
    /// router lifetime above [`ROUTER_LIFETIME_MAX`](crate::limits::ROUTER_LIFETIME_MAX);
    /// [`Refusal::Area`] an area of over [`AREA_MAX`](crate::limits::AREA_MAX) octets, or with an
    /// option of Length 0 or one past the end. The area is tested whole before anything of it is
    /// applied. A host that gets the latter drops the advertisement.
    pub fn after(
        &self,
        clock: Moment,
        router_lifetime: Span,
        area: &[u8],
    ) -> Result<ServerList, Refusal> {
        let told = raw::server_list(&self.0, clock.to_raw(), router_lifetime.to_raw(), area);
        Refusal::check(told.refusal).map(|()| ServerList(told.list))
    }

    /// Makes the list what [`after`](ServerList::after) gives.
    ///
    /// # Errors
    ///
    /// Those of [`after`](ServerList::after), which leave the list as it was.
    pub fn advance(
        &mut self,
        clock: Moment,
        router_lifetime: Span,
        area: &[u8],
    ) -> Result<(), Refusal> {
        *self = self.after(clock, router_lifetime, area)?;
        Ok(())
    }

    /// Drops the servers that have expired by this clock: what [`advance`](ServerList::advance)
    /// does with an area without options. A router that was unplugged says nothing, so a host calls
    /// this from time to time, or when the least [`until`](Server::until) of its servers has
    /// passed.
    ///
    /// # Errors
    ///
    /// [`Refusal::Clock`] a clock behind the list's, which leaves the list as it was.
    pub fn expire(&mut self, clock: Moment) -> Result<(), Refusal> {
        // No server is named, so the router lifetime plays no part.
        self.advance(clock, Span::default(), &[])
    }

    /// The last accepted clock.
    pub fn clock(&self) -> Moment {
        Moment::from_raw(self.0.clock)
    }

    /// The servers, the preferred one first.
    pub fn iter(&self) -> impl Iterator<Item = Server> + '_ {
        self.0.held().iter().map(Server::from_raw)
    }

    /// How many servers there are.
    pub fn len(&self) -> usize {
        self.0.count
    }

    /// Whether there is none.
    pub fn is_empty(&self) -> bool {
        self.len() == 0
    }
}

/// A list without servers, at clock 0.
impl Default for ServerList {
    fn default() -> ServerList {
        ServerList::new()
    }
}

/// Lists are equal where they have the same servers in the same order, with the same moments, and
/// the same clock.
impl PartialEq for ServerList {
    fn eq(&self, other: &ServerList) -> bool {
        self.clock() == other.clock() && self.iter().eq(other.iter())
    }
}

impl Eq for ServerList {}

impl fmt::Debug for ServerList {
    fn fmt(&self, to: &mut fmt::Formatter) -> fmt::Result {
        write!(to, "ServerList at {} [", self.clock())?;
        let mut between = "";
        for server in self.iter() {
            write!(to, "{between}{} until {}", server.address, server.expiry)?;
            write!(to, ", its router until {}", server.router)?;
            between = "; ";
        }
        to.write_str("]")
    }
}

//! The same value in the other program's types.

use jespurla::raw::{self, Address, Dhcid, Moment, Server, ServerListState, Set4, Set6};
use second::zone::Set;
use second::{job, lease_query, server_list, zone};

pub trait Twin {
    type Other;
    fn twin(&self) -> Self::Other;
}

impl Twin for lease_query::Lease {
    type Other = raw::Lease;

    fn twin(&self) -> raw::Lease {
        raw::Lease {
            last: Moment(self.last_transaction),
            expiry: Moment(self.expiry),
            chaddr: self.chaddr,
            id: self.id,
            relay: self.relay,
            address: self.address,
            state: self.state,
            htype: self.htype,
            hlen: self.hlen,
            idlen: self.id_len,
            relaylen: self.relay_len,
        }
    }
}

impl Twin for [lease_query::Lease] {
    type Other = Vec<raw::Lease>;

    fn twin(&self) -> Vec<raw::Lease> {
        self.iter().map(Twin::twin).collect()
    }
}

impl Twin for server_list::ServerList {
    type Other = ServerListState;

    fn twin(&self) -> ServerListState {
        ServerListState {
            entries: self.entries.map(|entry| Server {
                address: entry.address,
                expiry: Moment(entry.expiry),
                router: Moment(entry.router),
            }),
            count: self.count,
            clock: Moment(self.clock),
        }
    }
}

impl Twin for ServerListState {
    type Other = server_list::ServerList;

    fn twin(&self) -> server_list::ServerList {
        server_list::ServerList {
            entries: self.entries.map(|server| server_list::Entry {
                address: server.address,
                expiry: server.expiry.0,
                router: server.router.0,
            }),
            count: self.count,
            clock: self.clock.0,
        }
    }
}

impl Twin for zone::Name {
    type Other = raw::Name;

    fn twin(&self) -> raw::Name {
        raw::Name {
            octets: self.octets,
            length: self.len,
        }
    }
}

impl Twin for raw::Name {
    type Other = zone::Name;

    fn twin(&self) -> zone::Name {
        zone::Name {
            octets: self.octets,
            len: self.length,
        }
    }
}

impl Twin for zone::Entry {
    type Other = raw::Entry;

    fn twin(&self) -> raw::Entry {
        let (v4, v6) = (self.v4, self.v6);
        raw::Entry {
            kind: self.kind,
            name: self.name.twin(),
            dhcid: Dhcid { octets: self.dhcid },
            v4: Set4 {
                items: v4.items,
                count: v4.count,
            },
            v6: Set6 {
                items: v6.items,
                count: v6.count,
            },
        }
    }
}

impl Twin for raw::Entry {
    type Other = zone::Entry;

    fn twin(&self) -> zone::Entry {
        zone::Entry {
            kind: self.kind,
            name: self.name.twin(),
            dhcid: self.dhcid.octets,
            v4: Set {
                items: self.v4.items,
                count: self.v4.count,
            },
            v6: Set {
                items: self.v6.items,
                count: self.v6.count,
            },
        }
    }
}

impl Twin for zone::Zone {
    type Other = raw::Zone;

    fn twin(&self) -> raw::Zone {
        raw::Zone {
            entries: std::array::from_fn(|at| self.entries[at].twin()),
        }
    }
}

impl Twin for raw::Zone {
    type Other = zone::Zone;

    fn twin(&self) -> zone::Zone {
        zone::Zone {
            entries: std::array::from_fn(|at| self.entries[at].twin()),
        }
    }
}

impl Twin for job::Job {
    type Other = raw::Job;

    fn twin(&self) -> raw::Job {
        raw::Job {
            stage: self.stage,
            count: self.count,
            family: self.family,
            policy: self.policy,
            name: self.name.twin(),
            dhcid: Dhcid { octets: self.dhcid },
            address: Address {
                octets: self.address,
            },
        }
    }
}

impl Twin for raw::Job {
    type Other = job::Job;

    fn twin(&self) -> job::Job {
        job::Job {
            stage: self.stage,
            count: self.count,
            family: self.family,
            policy: self.policy,
            name: self.name.twin(),
            dhcid: self.dhcid.octets,
            address: self.address.octets,
        }
    }
}

// The root of the oracle program. `oracle/build` copies it to target/oracle with the two folders put in.
//
// The files of the Rust stand here by path, unchanged. wire/mod.rs is not among them, since it names files that are not in the folder;
// the two names of it that the others need are `field` and `take`, in shims.rs.
#![allow(unexpected_cfgs)]

extern crate self as byteorder;
pub use shims::{ByteOrder, NetworkEndian};

#[macro_use]
#[path = "@ORACLE@/shims.rs"]
mod shims;

#[allow(dead_code)]
#[path = "@SRC@/src/error.rs"]
mod error;

#[allow(dead_code, unused_imports)]
mod wire {
    pub(crate) use crate::shims::{field, take};

    #[path = "@SRC@/src/wire/ieee802154.rs"]
    pub mod ieee802154;
    #[path = "@SRC@/src/wire/ip.rs"]
    pub mod ip;
    #[path = "@SRC@/src/wire/ipv6.rs"]
    pub mod ipv6;
    #[path = "@SRC@/src/wire/sixlowpan/mod.rs"]
    pub mod sixlowpan;

    // The names that wire/mod.rs gives them.
    pub use ieee802154::{Address as Ieee802154Address, Repr as Ieee802154Repr};
    pub use ip::Protocol as IpProtocol;
    pub(crate) use ipv6::AddressExt as Ipv6AddrExt;
    pub use ipv6::{Address as Ipv6Addr, Cidr as Ipv6Cidr};
}

#[path = "@ORACLE@/main.rs"]
mod oracle;

fn main() {
    oracle::main()
}

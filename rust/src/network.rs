//! Networks: an address and how many of its bits count.

use std::fmt;
use std::net::{IpAddr, Ipv4Addr, Ipv6Addr};
use std::str::FromStr;

use crate::error::MaxMindDbError;
use crate::refusal::Refusal;

/// An address and a prefix length, written as `203.0.113.0/24`. An address alone is the network of itself.
///
/// It stands where maxminddb has `ipnetwork::IpNetwork`. As there, the address may have bits past the prefix, and
/// [`network`](Self::network) is the address without them.
///
/// ```
/// use ermopinaw::IpNetwork;
///
/// let network: IpNetwork = "203.0.113.9/24".parse()?;
/// assert_eq!(network.network().to_string(), "203.0.113.0");
/// assert!(network.contains("203.0.113.200".parse().unwrap()));
/// assert_eq!(IpNetwork::new("2001:db8::".parse().unwrap(), 129).unwrap_err().number(), Some(16));
/// # Ok::<(), ermopinaw::MaxMindDbError>(())
/// ```
#[derive(Clone, Copy, Debug, PartialEq, Eq, Hash, PartialOrd, Ord)]
pub struct IpNetwork {
    ip: IpAddr,
    prefix: u8,
}

/// How many bits an address has.
fn width(ip: IpAddr) -> u8 {
    match ip {
        IpAddr::V4(_) => 32,
        IpAddr::V6(_) => 128,
    }
}

/// The address with its bits past the prefix at 0.
fn masked(ip: IpAddr, prefix: u8) -> IpAddr {
    // a shift by the whole width leaves nothing
    let past = u32::from(width(ip).saturating_sub(prefix));
    match ip {
        IpAddr::V4(ip) => {
            let mask = u32::MAX.checked_shl(past).unwrap_or(0);
            Ipv4Addr::from(u32::from(ip) & mask).into()
        }
        IpAddr::V6(ip) => {
            let mask = u128::MAX.checked_shl(past).unwrap_or(0);
            Ipv6Addr::from(u128::from(ip) & mask).into()
        }
    }
}

impl IpNetwork {
    /// A network, or refusal 16 for a prefix that is longer than the address.
    pub fn new(ip: IpAddr, prefix: u8) -> Result<IpNetwork, MaxMindDbError> {
        if prefix > width(ip) {
            return Err(Refusal::PrefixLength.into());
        }
        Ok(IpNetwork { ip, prefix })
    }

    /// The address as it was given.
    pub fn ip(&self) -> IpAddr {
        self.ip
    }

    /// How many bits count.
    pub fn prefix(&self) -> u8 {
        self.prefix
    }

    /// The first address of the network.
    pub fn network(&self) -> IpAddr {
        masked(self.ip, self.prefix)
    }

    /// Whether it is one of IPv4.
    pub fn is_ipv4(&self) -> bool {
        self.ip.is_ipv4()
    }

    /// Whether it is one of IPv6.
    pub fn is_ipv6(&self) -> bool {
        self.ip.is_ipv6()
    }

    /// Whether an address of the same version lies in it.
    pub fn contains(&self, ip: IpAddr) -> bool {
        ip.is_ipv4() == self.is_ipv4() && masked(ip, self.prefix) == self.network()
    }
}

impl fmt::Display for IpNetwork {
    fn fmt(&self, f: &mut fmt::Formatter<'_>) -> fmt::Result {
        write!(f, "{}/{}", self.ip, self.prefix)
    }
}

impl FromStr for IpNetwork {
    type Err = MaxMindDbError;

    fn from_str(text: &str) -> Result<IpNetwork, MaxMindDbError> {
        let wrong = || MaxMindDbError::InvalidNetwork(text.to_string());
        let (ip, prefix) = match text.split_once('/') {
            Some((ip, prefix)) => (ip, Some(prefix)),
            None => (text, None),
        };
        let ip: IpAddr = ip.parse().map_err(|_| wrong())?;
        match prefix {
            None => IpNetwork::new(ip, width(ip)),
            // `parse` alone would take a sign
            Some(prefix) if prefix.bytes().all(|b| b.is_ascii_digit()) => {
                let prefix: u64 = prefix.parse().map_err(|_| wrong())?;
                IpNetwork::new(ip, u8::try_from(prefix).unwrap_or(u8::MAX))
            }
            Some(_) => Err(wrong()),
        }
    }
}

impl From<IpAddr> for IpNetwork {
    fn from(ip: IpAddr) -> IpNetwork {
        IpNetwork {
            ip,
            prefix: width(ip),
        }
    }
}

impl TryFrom<(IpAddr, u8)> for IpNetwork {
    type Error = MaxMindDbError;

    fn try_from((ip, prefix): (IpAddr, u8)) -> Result<IpNetwork, MaxMindDbError> {
        IpNetwork::new(ip, prefix)
    }
}

#[cfg(test)]
mod tests {
    use super::*;

    fn shown(text: &str) -> String {
        match text.parse::<IpNetwork>() {
            Ok(network) => format!("{} {}", network, network.network()),
            Err(error) => error.to_string(),
        }
    }

    #[test]
    fn networks_are_read_and_masked() {
        assert_eq!(shown("192.0.2.255/25"), "192.0.2.255/25 192.0.2.128");
        assert_eq!(shown("192.0.2.255/0"), "192.0.2.255/0 0.0.0.0");
        assert_eq!(shown("192.0.2.255"), "192.0.2.255/32 192.0.2.255");
        assert_eq!(shown("2001:db8::ff/0"), "2001:db8::ff/0 ::");
        assert_eq!(shown("2001:db8::ff/124"), "2001:db8::ff/124 2001:db8::f0");
        assert_eq!(shown("2001:db8::ff/128"), "2001:db8::ff/128 2001:db8::ff");
    }

    #[test]
    fn what_is_no_network_is_refused() {
        for text in [
            "",
            "/",
            "/8",
            "192.0.2.0/",
            "192.0.2.0/+8",
            "192.0.2/8",
            "192.0.2.0/8/8",
        ] {
            let error = text.parse::<IpNetwork>().unwrap_err();
            assert!(
                matches!(error, MaxMindDbError::InvalidNetwork(_)),
                "{text}: {error}"
            );
        }
        for text in [
            "192.0.2.0/33",
            "192.0.2.0/256",
            "192.0.2.0/288",
            "2001:db8::/129",
        ] {
            assert_eq!(
                text.parse::<IpNetwork>().unwrap_err().number(),
                Some(16),
                "{text}"
            );
        }
    }

    #[test]
    fn an_address_of_the_other_version_is_not_contained() {
        let all: IpNetwork = "0.0.0.0/0".parse().unwrap();
        assert!(all.contains("203.0.113.9".parse().unwrap()));
        assert!(!all.contains("::".parse().unwrap()));
    }
}

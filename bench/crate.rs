//! The CPU time of each operation of the crate; ours is ours.c, line for line.
//!
//!     crate IMAGE ADDRESSES TIMES WHAT..      writes lines: what, how many, a sum, seconds (the best of TIMES)
use maxminddb::{Reader, WithinOptions};
use std::net::IpAddr;

const OPENINGS: u64 = 1000;

fn cpu() -> f64 {
    #[repr(C)]
    struct T {
        s: i64,
        n: i64,
    }
    extern "C" {
        fn clock_gettime(c: i32, t: *mut T) -> i32;
    }
    let mut t = T { s: 0, n: 0 };
    unsafe { clock_gettime(2, &mut t) };
    t.s as f64 + t.n as f64 / 1e9
}

fn measure(times: u32, what: &str, mut f: impl FnMut() -> (u64, u64)) {
    if !std::env::args().skip(4).any(|w| w == what) {
        return;
    }
    let (mut best, mut said) = (f64::MAX, (0, 0));
    for _ in 0..times {
        let from = cpu();
        said = f();
        best = best.min(cpu() - from);
    }
    println!("{what} {} {} {best:.9}", said.0, said.1);
}

fn lookups(r: &Reader<&[u8]>, list: &[IpAddr]) -> (u64, u64) {
    let mut sum = 0u64;
    for &a in list {
        if let Some(o) = r.lookup(a).unwrap().offset() {
            sum = sum.wrapping_add(o as u64);
        }
    }
    (list.len() as u64, sum)
}

/// Each result is handed to its user whole, as a row is.
fn walk(r: &Reader<&[u8]>, options: WithinOptions) -> (u64, u64) {
    let (mut count, mut sum) = (0u64, 0u64);
    for x in r.networks(options).unwrap() {
        count += 1;
        if let Some(o) = std::hint::black_box(x.unwrap()).offset() {
            sum = sum.wrapping_add(o as u64);
        }
    }
    (count, sum)
}

/// Every network with its length, by `network()`.
fn shown(r: &Reader<&[u8]>, options: WithinOptions) -> (u64, u64) {
    let (mut count, mut sum) = (0u64, 0u64);
    for x in r.networks(options).unwrap() {
        count += 1;
        sum += u64::from(std::hint::black_box(x.unwrap().network().unwrap()).prefix());
    }
    (count, sum)
}

fn address(s: &str) -> IpAddr {
    if s.len() == 8 {
        IpAddr::V4(u32::from_str_radix(s, 16).unwrap().into())
    } else {
        IpAddr::V6(u128::from_str_radix(s, 16).unwrap().into())
    }
}

fn main() {
    let a: Vec<String> = std::env::args().collect();
    let image = std::fs::read(&a[1]).unwrap();
    let mixed: Vec<IpAddr> = std::fs::read_to_string(&a[2]).unwrap().lines().map(address).collect();
    let times: u32 = a[3].parse().unwrap();
    let v4: Vec<IpAddr> = mixed.iter().copied().filter(IpAddr::is_ipv4).collect();
    let v6: Vec<IpAddr> = mixed.iter().copied().filter(IpAddr::is_ipv6).collect();
    let r = Reader::from_source(&image[..]).unwrap();
    let base = |r: &Reader<&[u8]>| {
        let m = r.metadata();
        u64::from(m.node_count) * u64::from(m.record_size) / 4 + 16
    };
    measure(times, "open", || {
        (OPENINGS, (0..OPENINGS).map(|_| base(&Reader::from_source(&image[..]).unwrap())).sum())
    });
    measure(times, "lookup-v4", || lookups(&r, &v4));
    measure(times, "lookup-v6", || lookups(&r, &v6));
    measure(times, "lookup-mixed", || lookups(&r, &mixed));
    let all = WithinOptions::default().include_aliased_networks().include_networks_without_data();
    measure(times, "rows", || walk(&r, WithinOptions::default()));
    measure(times, "rows-all", || walk(&r, all));
    measure(times, "rows-shown", || shown(&r, all));
    measure(times, "single", || walk(&r, WithinOptions::default()));
    measure(times, "single-all", || walk(&r, all));
    measure(times, "verify", || (1, r.verify().is_err() as u64));
}

//! The plain searches that `bench/run` holds `best` against: Dijkstra's from the head-end, and from
//! both ends at once. Both are tuned, and stop once no cheaper route is left. Neither has lower bounds,
//! an order of equal routes, or the links of the route: a cost is all that they find.
//!
//! `plain_search JOURNAL REQUESTS LOAD TIMES SEARCH` reads the first LOAD batches, and requests without
//! hops. A link without a reverse is left out. SEARCH, `plain` or `bidirectional`, answers all requests
//! TIMES times. Then it is checked that both find the same cost for each request, and one line is
//! printed: SEARCH ANSWERS COST, with the sum of the costs.
use std::collections::BTreeMap;
use std::hint::black_box;
use std::net::Ipv4Addr;

/// The most routers. A key of the heap is a cost and a router, so the router has ten bits of it.
const ROUTERS: usize = 1024;
const NONE: u64 = u64::MAX;

type Costs = [u64; ROUTERS];

struct Link {
    peer: u32,
    metric: u32,
    group: u32,
}

/// The links of all routers in one direction: what is asked of a link for each way that gets cheaper,
/// and beside it, by setup priority, the unreserved bandwidth.
struct Links {
    list: Vec<Link>,
    free: [Vec<u64>; 8],
}

/// The links that leave a router, and the reverses of these, stand in both lists at the same indices.
struct Network {
    first: Vec<u32>,
    leaving: Links,
    entering: Links,
}

struct Request {
    from: usize,
    to: usize,
    setup: usize,
    bandwidth: u64,
    exclude_any: u32,
    include_any: u32,
    include_all: u32,
}

impl Request {
    #[inline(always)]
    fn accepts(&self, group: u32, free: u64) -> bool {
        group & self.exclude_any == 0
            && (self.include_any == 0 || group & self.include_any != 0)
            && group & self.include_all == self.include_all
            && self.bandwidth <= free
    }
}

/// A heap of keys in which each has four below it. A router's earlier keys stay until they come out.
struct Heap(Vec<u64>);

impl Heap {
    #[inline(always)]
    fn least(&self) -> Option<u64> {
        self.0.first().map(|key| key / ROUTERS as u64)
    }

    #[inline(always)]
    fn push(&mut self, cost: u64, router: usize) {
        let key = cost * ROUTERS as u64 + router as u64;
        let mut at = self.0.len();
        self.0.push(key);
        while at > 0 && key < self.0[(at - 1) / 4] {
            self.0[at] = self.0[(at - 1) / 4];
            at = (at - 1) / 4;
        }
        self.0[at] = key;
    }

    #[inline(always)]
    fn pop(&mut self) -> Option<(u64, usize)> {
        let last = self.0.pop()?;
        let top = self.0.first().copied().unwrap_or(last);
        let (keys, mut at) = (&mut self.0[..], 0);
        while let Some((below, key)) = least_below(keys, at).filter(|(_, key)| *key < last) {
            keys[at] = key;
            at = below;
        }
        if let Some(hole) = keys.get_mut(at) {
            *hole = last;
        }
        Some((top / ROUTERS as u64, top as usize % ROUTERS))
    }
}

/// The least of the four keys below an index, with its index.
#[inline(always)]
fn least_below(keys: &[u64], at: usize) -> Option<(usize, u64)> {
    let first = 4 * at + 1;
    let less = |a: (usize, u64), b: (usize, u64)| if b.1 < a.1 { b } else { a };
    if let Some(&[a, b, c, d]) = keys.get(first..first + 4) {
        return Some(less(less((first, a), (first + 1, b)), less((first + 2, c), (first + 3, d))));
    }
    (first..keys.len()).map(|index| (index, keys[index])).reduce(less)
}

/// One end's labels and heap, which are kept from request to request.
struct End {
    costs: Costs,
    heap: Heap,
}

impl End {
    fn new() -> End {
        End { costs: [NONE; ROUTERS], heap: Heap(Vec::with_capacity(1 << 15)) }
    }

    fn begin(&mut self, router: usize) {
        self.costs.fill(NONE);
        self.heap.0.clear();
        self.costs[router] = 0;
        self.heap.push(0, router);
    }

    /// Takes the least key from the heap and offers its router's links. `most` is the least cost of a
    /// route so far, and no key goes in that leads to no cheaper one: `ahead` is what the rest of a
    /// route costs at least, and the other end's label of the router, if there is one, gives a route.
    #[inline(always)]
    fn settle(&mut self, network: &Network, links: &Links, request: &Request, most: u64, ahead: u64, other: impl Fn(usize) -> u64) -> u64 {
        let Some((cost, router)) = self.heap.pop().filter(|(cost, router)| *cost == self.costs[*router]) else {
            return most;
        };
        let rows = network.first[router] as usize..network.first[router + 1] as usize;
        let mut most = most;
        for (link, free) in links.list[rows.clone()].iter().zip(&links.free[request.setup][rows]) {
            let (new, peer) = (cost + u64::from(link.metric), link.peer as usize % ROUTERS);
            if new < self.costs[peer] && request.accepts(link.group, *free) {
                self.costs[peer] = new;
                most = most.min(new.saturating_add(other(peer)));
                if new + ahead < most {
                    self.heap.push(new, peer);
                }
            }
        }
        most
    }
}

fn plain(network: &Network, request: &Request, [end, _]: &mut [End; 2]) -> u64 {
    end.begin(request.from);
    let (to, mut most) = (request.to, NONE);
    while end.heap.least().is_some_and(|cost| cost < most) {
        most = end.settle(network, &network.leaving, request, most, 0, |peer| if peer == to { 0 } else { NONE });
    }
    most
}

fn bidirectional(network: &Network, request: &Request, [one, other]: &mut [End; 2]) -> u64 {
    one.begin(request.from);
    other.begin(request.to);
    let mut most = NONE;
    while let (Some(near), Some(far)) = (one.heap.least(), other.heap.least()) {
        if near + far >= most {
            break;
        }
        most = if one.heap.0.len() <= other.heap.0.len() {
            one.settle(network, &network.leaving, request, most, far, |peer| other.costs[peer])
        } else {
            other.settle(network, &network.entering, request, most, near, |peer| one.costs[peer])
        };
    }
    most
}

fn mask(text: &str) -> u32 {
    u32::from_str_radix(&text[2..], 16).unwrap()
}

fn address(text: &str) -> Ipv4Addr {
    text.parse().unwrap()
}

/// The rows of the first batches, by router and local address.
fn rows_of(journal: &str, load: usize) -> BTreeMap<(Ipv4Addr, Ipv4Addr), Vec<&str>> {
    let (mut rows, mut ends) = (BTreeMap::new(), 0);
    for row in journal.lines().map(|line| line.split(',').collect::<Vec<&str>>()) {
        match row[0] {
            "put" => drop(rows.insert((address(row[1]), address(row[2])), row)),
            _ => ends += 1,
        }
        if ends == load {
            break;
        }
    }
    rows
}

fn add(links: &mut Links, peer: usize, row: &[&str]) {
    links.list.push(Link { peer: peer as u32, metric: row[5].parse().unwrap(), group: mask(row[6]) });
    for (free, text) in links.free.iter_mut().zip(&row[7..15]) {
        free.push(text.parse().unwrap());
    }
}

/// The network of these rows, and its routers in ascending order.
fn network_of(rows: &BTreeMap<(Ipv4Addr, Ipv4Addr), Vec<&str>>) -> (Network, Vec<Ipv4Addr>) {
    let mut routers: Vec<Ipv4Addr> = rows.iter().flat_map(|(key, row)| [key.0, address(row[3])]).collect();
    routers.sort_unstable();
    routers.dedup();
    assert!(routers.len() <= ROUTERS);
    let none = || Links { list: Vec::new(), free: Default::default() };
    let mut network = Network { first: vec![0; routers.len() + 1], leaving: none(), entering: none() };
    for (key, row) in rows {
        let (from, to) = (routers.binary_search(&key.0).unwrap(), routers.binary_search(&address(row[3])).unwrap());
        if let Some(back) = rows.get(&(address(row[3]), address(row[4]))).filter(|back| back[3..5] == row[1..3]) {
            add(&mut network.leaving, to, row);
            add(&mut network.entering, to, back);
        }
        network.first[from + 1] = network.leaving.list.len() as u32;
    }
    // a router that no row is from begins and ends where the one before it ends
    for at in 0..routers.len() {
        network.first[at + 1] = network.first[at + 1].max(network.first[at]);
    }
    (network, routers)
}

fn request_of(line: &str, routers: &[Ipv4Addr]) -> Request {
    let row: Vec<&str> = line.split(',').collect();
    let index = |text: &str| routers.binary_search(&address(text)).unwrap();
    Request {
        from: index(row[2]),
        to: index(row[3]),
        setup: row[4].parse().unwrap(),
        bandwidth: row[5].parse().unwrap(),
        exclude_any: mask(row[6]),
        include_any: mask(row[7]),
        include_all: mask(row[8]),
    }
}

fn main() {
    let words: Vec<String> = std::env::args().collect();
    let (journal, requests) = (std::fs::read_to_string(&words[1]).unwrap(), std::fs::read_to_string(&words[2]).unwrap());
    let (network, routers) = network_of(&rows_of(&journal, words[3].parse().unwrap()));
    let asked: Vec<Request> = requests.lines().map(|line| request_of(line, &routers)).collect();
    let search = match words[5].as_str() {
        "plain" => plain,
        _ => bidirectional,
    };
    let mut ends = [End::new(), End::new()];
    for _ in 0..words[4].parse().unwrap() {
        for request in &asked {
            black_box(search(&network, request, &mut ends));
        }
    }
    let mut sum = 0;
    for request in &asked {
        let cost = plain(&network, request, &mut ends);
        assert_eq!(cost, bidirectional(&network, request, &mut ends));
        sum += if cost == NONE { 0 } else { cost };
    }
    println!("{} {} {sum}", words[5], asked.len());
}

"""Compares the public calls of the library with the signatures that their callers were promised.

Two rules hold for each call. Whatever allocates takes `alloc: Global`, after self and after rt. A call that may wait or starts workers
takes `rt: &R`, where R may do so, and no other call does.
"""
import re

from checks import TOP
from gate.public import Tree, present

# Each call by its path and its signature. Other public calls may stand beside these.
PROMISED = """
cspf_addr::Addr::parse(text: &[u8]) -> Result<Addr, AddrError>
cspf_addr::Addr::text(self, alloc: Global) -> Result<String, AllocError>
cspf_addr::Prefix::new(address: Addr, length: u8) -> Result<Prefix, PrefixError>
cspf_addr::Prefix::covers(&self, address: Addr) -> bool
cspf_addr::Prefix::parse(text: &[u8]) -> Result<Prefix, PrefixError>
cspf_addr::Prefix::text(self, alloc: Global) -> Result<String, AllocError>
cspf_addr::Hop::text(self, alloc: Global) -> Result<String, AllocError>
cspf_addr::parse_hops(text: &[u8]) -> Result<Hops, HopsError>
cspf_addr::Mask::parse(text: &[u8]) -> Result<Mask, MaskError>
cspf_addr::Mask::text(self, alloc: Global) -> Result<String, AllocError>
cspf_db::Link::new(from: Addr, local: Addr, to: Addr, remote: Addr, metric: u32, group: Mask, free: [u64; 8]) -> Result<Link, LinkError>
cspf_db::Request::new(id: u64, from: Addr, to: Addr, setup: u8, bandwidth: u64, exclude_any: Mask, include_any: Mask, include_all: Mask,
    hops: Hops) -> Result<Request, RequestError>
cspf_db::Table::new(alloc: Global) -> Result<Table, AllocError>
cspf_db::Table::check(&self, batch: &Batch) -> Result<(), Refusal>
cspf_db::Table::absorb(&mut self, batch: &Batch)
cspf_db::Table::links(&self) -> &[Link]
cspf_db::Table::find(&self, from: Addr, local: Addr) -> Option<Link>
cspf_db::Table::has_router(&self, router: Addr) -> bool
cspf_db::Table::owns(&self, router: Addr, prefix: Prefix) -> bool
cspf_graph::accepts(link: &Link, request: &Request) -> bool
cspf_graph::member(table: &Table, router: Addr, leg: usize, request: &Request) -> bool
cspf_graph::inside(table: &Table, router: Addr, leg: usize, request: &Request) -> bool
cspf_search::Route::links(&self) -> &[Link]
cspf_search::Route::cost(&self) -> u64
cspf_search::Route::again(&self) -> bool
cspf_search::best(alloc: Global, table: &Table, request: &Request) -> Result<Outcome, AllocError>
cspf_search::best_by_rounds(alloc: Global, table: &Table, request: &Request) -> Result<Outcome, AllocError>
cspf_ero::write_ero(alloc: Global, route: &Route) -> Result<Vec<u8>, AllocError>
cspf_ero::read_ero(bytes: &[u8]) -> Result<Hops, EroError>
cspf_ero::reply_line(alloc: Global, id: u64, version: u32, outcome: &Outcome) -> Result<Vec<u8>, AllocError>
cspf_rows::Row::read(fields: &ByteRecord) -> Result<Row, RowError>
cspf_rows::batch_text(alloc: Global, batch: &Batch) -> Result<Vec<u8>, AllocError>
cspf_rows::read_journal<R: Read + Drop>(alloc: Global, reader: R) -> Result<Journal, ReadError>
cspf_rows::read_requests<R: Read + Drop>(alloc: Global, reader: R) -> Result<Vec<Request>, RequestsError>
cspf_rows::put_all<W: Write>(to: &mut W, text: &[u8]) -> Result<(), usize>
cspf_publish::open<W: Write, R: Wait>(rt: &R, alloc: Global, journal: W, askers: usize)
    -> Result<(Publisher<W>, Vec<Asker>), (OpenError, W)>
cspf_publish::Publisher::apply<R: Wait>(&mut self, rt: &R, alloc: Global, batch: &Batch) -> Result<u32, ApplyError>
cspf_publish::Publisher::tell(&mut self) -> Told
cspf_publish::Publisher::version(&self) -> u32
cspf_publish::Publisher::close<R: Wait>(self, rt: &R) -> W
cspf_publish::Told::version(&self) -> u32
cspf_publish::Asker::ask(&mut self, alloc: Global, request: &Request) -> Result<Answer, AskError>
cspf_publish::Asker::learn(&mut self, told: Told)
cspf_publish::Asker::meet(&mut self, told: Told) -> u32
cspf_publish::Asker::seen(&self) -> u32
cspf_serve::Gate::reached(&self, worker: usize, index: usize)
cspf_serve::Gate::answered(&self, worker: usize, index: usize)
cspf_serve::answer_all<G: Gate + Sync, R: Threads + Sync>(rt: &R, alloc: Global, askers: Vec<Asker>, requests: &[Request], gate: &G)
    -> Result<Answers, (ServeError, Vec<Asker>)>
cspf_serve::Drawer::draw(&mut self) -> u64
cspf_serve::Drawer::left(&self) -> u64
cspf_serve::run_live<W: Write, G: Gate + Sync, R: Threads + Wait + Sync>(rt: &R, alloc: Global, publisher: Publisher<W>, askers: Vec<Asker>,
    batches: &[Batch], requests: &[Request], gate: &G) -> Result<Live<W>, (ServeError, Publisher<W>, Vec<Asker>)>
cspf_serve::run_solve<R: Read + Drop, W: Write>(alloc: Global, reader: R, writer: &mut W) -> Result<Summary, SolveError>
cspf_serve::run_batch<R: Read + Drop, Q: Read + Drop, W: Write, G: Gate + Sync, T: Threads + Wait + Sync>(rt: &T, alloc: Global, journal: R,
    requests: Q, writer: &mut W, workers: usize, accept_torn: bool, gate: &G) -> Result<u8, RunError>
cspf_serve::run_live_rows<R: Read + Drop, Q: Read + Drop, J: Write, W: Write, G: Gate + Sync, T: Threads + Wait + Sync>(rt: &T,
    alloc: Global, updates: R, requests: Q, journal: J, writer: &mut W, workers: usize, gate: &G) -> (Result<u8, RunError>, J)
cspf_serve::run_audit<R: Read + Drop, Q: Read + Drop, P: Read + Drop, W: Write>(alloc: Global, journal: R, requests: Q, replies: P,
    writer: &mut W) -> Result<u8, RunError>
cspf_serve::audit<R: Read + Drop, Q: Read + Drop, P: Read + Drop>(alloc: Global, journal: R, requests: Q, replies: P)
    -> Result<Audit, AuditError>
"""
# The crates whose calls these are, all of which keep the two rules.
CRATES = sorted({line.partition("::")[0] for line in PROMISED.split("\n") if line.startswith("cspf_")})
FUNCTION = re.compile(r"(?:(?:const|unsafe|final) )*fn \w+(.*)", re.S)
WAITS = re.compile(r"(\w+): (?:[^,<>]* \+ )?(?:Threads|Wait)\b")


def promised():
    """The signature of each call, by its path."""
    lines = re.sub(r"\n +", " ", PROMISED).strip().split("\n")
    return {line[:at]: line[at:] for line in lines for at in [re.search(r"[<(]", line).start()]}


def calls_of(tree):
    """The signature of each public call of these crates, by its path."""
    found = {}
    for contract in tree.contracts:
        signatures = [it[1] for it in map(FUNCTION.fullmatch, contract.parts) if it]
        if signatures:
            found.update({path: signatures[0] for path in contract.paths if path.partition("::")[0] in CRATES})
    return found


def parameters(signature):
    """The names of the parameters, in order."""
    generic = signature.startswith("<")
    depth, names, piece = 0, [], ""
    for char in signature.partition(">(" if generic else "(")[2]:
        depth += {"(": 1, "[": 1, "<": 1, ")": -1, "]": -1, ">": -1}.get(char, 0)
        if depth < 0 or char == "," and not depth:
            names += [piece.strip().partition(":")[0].replace("&", "").replace("mut ", "")] if piece.strip() else []
            piece = ""
        else:
            piece += char
        if depth < 0:
            return names
    raise ValueError(f"the parameters end nowhere: {signature}")


def ruled(signature):
    """What is wrong with a signature by the two rules."""
    names = parameters(signature)
    rest = [it for it in names if it != "self"]
    bounds = {it[1] for it in WAITS.finditer(signature.partition("(")[0])}
    lent = {it[1] for it in re.finditer(r"\brt: &(\w+)", signature)}
    wrong = []
    if ("rt" in names) != bool(bounds) or lent != bounds or "rt" in rest[1:]:
        wrong.append("rt is the first parameter after self, of the type that may wait or start workers")
    if "alloc" in rest and rest.index("alloc") != int("rt" in rest):
        wrong.append("alloc comes after self and rt")
    if "AllocError" in signature.rpartition("->")[2] and "alloc: Global" not in signature:
        wrong.append("what allocates takes alloc: Global")
    return wrong


def signatures(checks):
    calls, wanted = calls_of(Tree(present(TOP))), promised()
    checks.true("signatures are promised", len(wanted) > 50, len(wanted))
    for path, signature in wanted.items():
        checks.same(f"the signature of {path}", calls.get(path), signature)
    for path, signature in sorted(calls.items()):
        checks.same(f"the parameters of {path}", ruled(signature), [])
    for signature in ("(alloc: Global, rt: &R)", "<R: Wait>(alloc: Global, rt: &R)", "<R: Read + Wait>(alloc: Global)",
                      "(a: u8, alloc: Global)",
                      "<R: Read>(rt: &R)", "(&self) -> Result<u8, AllocError>", "<R: Threads, S>(rt: &S, alloc: Global)"):
        checks.true(f"this is against the rules: {signature}", ruled(signature))

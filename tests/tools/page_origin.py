"""A page of another origin, which would ask by `routed-tools page`: by a picture, a form and a script."""
import contextlib
import http.server
import json
import re
import threading
import time

from tools.page_seen import opened, pin

SOON = 0.3  # seconds, in which requests that were sent come


class Evil(http.server.BaseHTTPRequestHandler):
    """A page of another origin."""

    def do_GET(self):
        data = self.server.page.encode()
        self.send_response(200)
        self.send_header("Content-Type", "text/html; charset=utf-8")
        self.send_header("Content-Length", str(len(data)))
        self.end_headers()
        self.wfile.write(data)

    def log_message(self, *given):
        pass


@contextlib.contextmanager
def other_origin(page):
    """The URL of a page of another site than 127.0.0.1."""
    server = http.server.ThreadingHTTPServer(("127.0.0.1", 0), Evil)
    server.page = page
    threading.Thread(target=server.serve_forever, daemon=True).start()
    try:
        yield f"http://localhost:{server.server_address[1]}/"
    finally:
        server.shutdown()
        server.server_close()


SCRIPT = """
var said = [];
const read = (name, url, how) => fetch(url, how).then(it => it.text()).then(
  text => said.push(`${name}: ${text || "nothing"}`), () => said.push(`${name}: nothing`));
for (const it of document.images) {
  it.onerror = () => said.push(`${it.id} by a picture: nothing`);
  it.onload = () => said.push(`${it.id} by a picture: loaded`);
  it.src = asks[it.id];
}
for (const [name, url] of Object.entries(asks)) for (const mode of ["cors", "no-cors"]) read(`${name} by a script, ${mode}`, url, {mode});
read("the page", page, {});
for (const it of document.forms) it.submit();
"""


def page_of(url, asks):
    """A page with a picture and a form for each path that asks, and a script."""
    forms = "".join(f"<img id={name}><form action='{url}{name}' target=inner>" + "".join(
        f"<input type=hidden name={field} value={value}>" for field, value in re.findall(r"[?&](\w+)=([^&]*)", asked)) + "</form>"
        for name, asked in asks.items())
    return (f"<!doctype html><link rel=icon href=data:,><iframe name=inner></iframe>{forms}"
            f"<script>const asks = {json.dumps(asks)}, page = {json.dumps(url)};{SCRIPT}</script>")


def asks_of(figures):
    """How often pages have asked, by outcome."""
    return {name: number for name, number in figures.items() if name[0] == "routed_page_asks_total"}


def at_rest(window, at):
    """Waits until the page has asked again for the version that it was told of, and none of its asks is under way."""
    window.until("!askAgain.due")
    found, before = asks_of(at.figures()), None
    while found != before:
        time.sleep(SOON)
        found, before = asks_of(at.figures()), found


def others(window, path, checks):
    """A picture, a form and a script of another origin read 403 or nothing, and start no program, whether they know the token or not."""
    with opened(window, path) as at:
        pin(window, 1, 3)
        at_rest(window, at)
        page = window.value("page.page")
        for token in ("", at.token):
            fields = f"token={token}&page={page}&head=192.0.2.1&tail=192.0.2.3&router=192.0.2.2&version=1"
            asks = {name: f"{at.url}{name}?{fields}" for name in ("ask", "why", "pin", "whatif", "at", "events")}
            before, how = at.figures(), "with" if token else "without"
            with other_origin(page_of(at.url, asks)) as url:
                window.go(url)
                kinds = "picture", "script, cors", "script, no-cors"
                wanted = sorted([f"{name} by a {kind}: nothing" for name in asks for kind in kinds] + ["the page: nothing"])
                checks.same(f"what it reads {how} the token", sorted(window.until("said", lambda said: len(said) >= len(wanted))), wanted)
                window.go(url)
                window.run("location.href = arguments[0]", asks["ask"])
                found = window.until("location.pathname === '/ask' ? document.body.textContent : ''")
                checks.true(f"by going there {how} the token", "refused" in found and "route" not in found, found)
            time.sleep(SOON)
            after = at.figures()
            checks.same(f"no ask was made {how} the token", asks_of(after), asks_of(before))
            refused = [figures.get(("routed_page_requests_total", "403"), 0) for figures in (before, after)]
            checks.true(f"it read 403 {how} the token", refused[1] >= refused[0] + 4 * len(asks), refused)
            with open(f"/proc/{at.child.pid}/task/{at.child.pid}/children", encoding="ascii") as children:
                checks.same(f"no program was started {how} the token", children.read(), "")
    window.told()

"""The links that the page fades for drawn asks, in Chromium, against tests/reference."""
import random

from reference import admission, formats
from tools.browser import count_of
from tools.page_seen import opened

ASKS, NETWORKS = 1000, 20  # drawn asks, and networks on which they are asked
FADED = """
const [asks, done] = arguments, found = [];
(async () => {
  for (const told of await Promise.all(asks.map(words => get("ask", words)))) {
    answer = told;
    changed();
    show();
    const states = [...document.querySelectorAll("#frame .links path")].map(it => [it.dataset.key, it.dataset.state]);
    found.push([answer.version, Object.fromEntries(states)]);
  }
})().then(() => done(found), fault => done(String(fault)));
"""


def words_of(row):
    """The fields of the form that ask what a row asks."""
    _, _, head, tail, setup, bandwidth, exclude, include, whole, _ = row.split(",")
    words = {"head": head, "tail": tail, "setup": setup, "bandwidth": f"{bandwidth}B" if bandwidth != "0" else "0", "exclude": exclude,
             "include": include, "all": whole}
    return [*words.items()]


def wanted_of(network, row):
    """Each link's reason by the reference, an empty text where it is admitted."""
    asked, found = formats.row(row.split(","))[1], {}
    for link in network.links.values():
        key = " ".join(formats.address_text(link[name]) for name in ("from", "local"))
        found[key] = admission.word(network, link, asked, link["from"] != asked["from"]) or ""
    return found


def drawn_asks(window, path, checks):
    """For drawn asks the links that are faded, and their reasons, are those of the reference."""
    draw, faults, seen, before, count = random.Random(1983), [], set(), [], 0
    with opened(window, path, None, places="") as at:
        for _ in range(NETWORKS):
            rows = list(admission.network_rows(draw))
            gone = [f"drop,{','.join(row.split(',')[1:3])}" if row.startswith("put") else f"node,{row.split(',')[1]},1" for row in before]
            if gone:
                at.publish(gone)
            at.publish(rows)
            before, network = rows, formats.Network().after([formats.row(row.split(",")) for row in rows])
            window.until(count_of("#frame .links path"), lambda count: count == len(network.links))
            asks = [admission.ask_row(draw) for _ in range(ASKS // NETWORKS)]
            found = window.run_on(FADED, [words_of(row) for row in asks])
            for row, (version, states) in zip(asks, found):
                wanted = wanted_of(network, row)
                seen |= {*wanted.values()}
                count += 1
                if version != at.version or states != wanted:
                    faults.append((row, version, {key: (states.get(key), word) for key, word in wanted.items() if states.get(key) != word}))
    checks.same("drawn asks whose faded links aren't those of the reference", (faults[:1], count), ([], ASKS))
    checks.same("the reasons that were drawn", seen, {word or "" for word in admission.WORDS})

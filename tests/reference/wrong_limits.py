"""Wrong programs: the limits of a database and of a batch, with one of them turned."""


def takes_one_link_too_many(it):
    it.MOST_LINKS += 1


def takes_one_link_too_few(it):
    it.MOST_LINKS -= 1


def takes_one_router_too_many(it):
    it.MOST_ROUTERS += 1


def takes_one_router_too_few(it):
    it.MOST_ROUTERS -= 1


def takes_one_mark_too_many(it):
    it.MOST_MARKS += 1


def takes_one_mark_too_few(it):
    it.MOST_MARKS -= 1


def counts_marks_before_changes(it):
    right = it.Network.after

    def after(network, changes):
        marks = network.marks | {change["router"] for kind, change in changes if kind == "node" and not change["transit"]}
        if len(marks) > it.MOST_MARKS:
            raise it.Refused("marks")
        return right(network, changes)
    it.Network.after = after


def looks_at_marks_before_routers(it):
    right = it.Network.after

    def after(network, changes):
        try:
            return right(network, changes)
        except it.Refused as words:
            marks = len(network.marks) + sum(kind == "node" and not change["transit"] for kind, change in changes)
            raise it.Refused("marks" if str(words) in ("full", "routers") and marks > it.MOST_MARKS else words)
    it.Network.after = after


def takes_one_change_too_many(it):
    it.MOST_CHANGES += 1


def takes_one_change_too_few(it):
    it.MOST_CHANGES -= 1

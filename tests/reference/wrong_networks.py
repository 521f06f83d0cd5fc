"""Wrong programs: links, routes and marks, with one rule turned."""
from reference.turning import rebound


def looks_at_bandwidth_at_priority_0(it):
    right = it.accepts
    it.accepts = lambda link, request: right(link, {**request, "setup": 0})


def fits_no_link_to_an_empty_include_any(it):
    right = it.accepts
    it.accepts = lambda link, request: right(link, request) and bool(link["group"] & request["include_any"])


def asks_for_no_reverse(it):
    it.has_reverse = lambda network, link: True


def takes_any_link_back_between_two_routers(it):
    it.has_reverse = lambda network, link: any((back["from"], back["to"]) == (link["to"], link["from"]) for back in network.links.values())


def takes_a_link_from_the_far_interface_to_anywhere(it):
    it.has_reverse = lambda network, link: (link["to"], link["remote"]) in network.links


def wants_a_reverse_that_is_admissible_too(it):
    right = it.admissible
    it.admissible = lambda network, link, request: (
        right(network, link, request) and it.accepts(network.links[link["to"], link["remote"]], request))


def meets_no_hop_by_a_link_without_a_reverse(it):
    right = it.Network.owners

    def owners(network, prefix, bits):
        both_ways = it.Network({key: link for key, link in network.links.items() if it.has_reverse(network, link)})
        return right(both_ways, prefix, bits) | {router for router in network.routers() if it.covers(prefix, bits, router)}
    it.Network.owners = owners


def reads_any_transit(it):
    it.node = lambda fields: {"router": it.address(fields, 2), "transit": it.number(fields, 3, 32) != 0}


def takes_transit_away_by_a_1(it):
    right = it.Network.mark
    it.Network.mark = lambda network, router, transit: right(network, router, not transit)


def keeps_a_mark_that_is_taken_away(it):
    right = it.Network.mark
    it.Network.mark = lambda network, router, transit: None if transit else right(network, router, transit)


def passes_through_marked_routers(it):
    it.may_leave = lambda network, router, count: True


def leaves_no_marked_head_end(it):
    it.may_leave = lambda network, router, count: router not in network.marks


def ends_at_no_marked_tail_end(it):
    right = it.Network.least
    it.Network.least = lambda network, request: None if request["to"] in network.marks else right(network, request)


def passes_the_marked_head_end_again(it):
    right = it.Network.least
    it.Network.least = lambda network, request: right(it.Network(network.links, network.marks - {request["from"]}), request)


def passes_through_a_marked_router_that_a_hop_names(it):
    right = it.Network.least

    def least(network, request):
        named = {router for prefix, bits, _ in request["hops"] for router in network.owners(prefix, bits)}
        return right(it.Network(network.links, network.marks - named), request)
    it.Network.least = least


def meets_no_hop_by_a_marked_router(it):
    right = it.Network.owners
    it.Network.owners = lambda network, prefix, bits: right(network, prefix, bits) - network.marks


def makes_a_router_of_a_mark(it):
    right = it.Network.routers
    it.Network.routers = lambda network: right(network) | network.marks


def refuses_a_mark_of_no_router(it):
    right = it.Network.after

    def after(network, changes):
        result = right(network, changes)
        for place, (kind, change) in enumerate(changes, 1):
            if kind == "node" and change["router"] not in result.routers():
                raise it.Refused(f"absent {place}")
        return result
    it.Network.after = after


def drops_the_marks_of_routers_that_go(it):
    right = it.Network.after

    def after(network, changes):
        result = right(network, changes)
        return it.Network(result.links, result.marks - (network.routers() - result.routers()))
    it.Network.after = after


def refuses_transit_of_a_router_without_a_mark(it):
    right = it.Network.after

    def after(network, changes):
        result = right(network, changes)
        for place, (kind, change) in enumerate(changes, 1):
            if kind == "node" and change["transit"] and change["router"] not in network.marks:
                raise it.Refused(f"absent {place}")
        return result
    it.Network.after = after


def takes_two_changes_of_one_mark(it):
    it.key_of = rebound(it.key_of, '(change["router"],)', '(change["router"], id(change))')


def has_one_key_for_a_router_and_its_links(it):
    it.key_of = rebound(it.key_of, '(change["from"], change["local"])', '(change["from"],)')


def marks_in_every_other_version(it):
    right = it.Network.answer
    it.Network.answer = lambda network, version, request: right(network if version % 2 else it.Network(network.links), version, request)


def goes_by_local_addresses_alone(it):
    right = it.object_of
    it.object_of = lambda walk: right([{**link, "remote": link["local"]} for link in walk])

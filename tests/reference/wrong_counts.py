"""Wrong books: rows, what is counted, and what a place row is answered, with one rule turned."""


def reads_a_holding_priority_above_7(it):
    right = it.place
    it.place = lambda fields: right([*fields[:4], "7" if fields[4] == "8" else fields[4], *fields[5:]])


def takes_more_fields_of_a_release(it):
    right = it.row
    it.row = lambda fields: right(fields[:2] if fields[0] == "release" else fields)


def counts_on_one_link_too_few(it):
    right = it.counted
    it.counted = lambda placements: right([it.Placement(request, route[:-1]) for request, route in placements])


def counts_on_the_first_link_alone(it):
    right = it.counted
    it.counted = lambda placements: right([it.Placement(request, route[:1]) for request, route in placements])


def counts_at_one_priority_too_few(it):
    it.counts_at = lambda placement, priority: placement.request["hold"] < priority


def counts_at_one_priority_too_many(it):
    it.counts_at = lambda placement, priority: placement.request["hold"] <= priority + 1


def counts_at_each_priority(it):
    it.counts_at = lambda placement, priority: True


def counts_at_the_holding_priority_alone(it):
    it.counts_at = lambda placement, priority: placement.request["hold"] == priority


def counts_from_the_holding_priority_up(it):
    it.counts_at = lambda placement, priority: placement.request["hold"] >= priority


def counts_on_the_reverse_too(it):
    right = it.counted

    def counted(placements):
        back = [it.Placement(request, tuple({"from": link["to"], "local": link["remote"]} for link in route if "remote" in link))
                for request, route in placements]
        return right([*placements, *back])
    it.counted = counted


def counts_by_the_router_alone(it):
    right = it.key_of

    def with_right_keys(function):
        """A function that is run with the right keys, so that only what is counted has others."""
        def run(*given):
            turned, it.key_of = it.key_of, right
            try:
                return function(*given)
            finally:
                it.key_of = turned
        return run

    it.key_of = lambda link: (right(link)[0], 0)
    it.admits, it.Book.place, it.Book.restore = map(with_right_keys, (it.admits, it.Book.place, it.Book.restore))


def counts_against_itself(it):
    right = it.Book.place

    def place(book, request):
        before = book.others
        book.others = lambda name: list(book.placements)
        try:
            line = right(book, request)
        finally:
            book.others = before
        last = book.placements[-1:]
        if " route " in line:
            book.placements = [*before(request["id"]), *last]
        return line
    it.Book.place = place


def keeps_the_placement_that_is_moved(it):
    right = it.Book.place

    def place(book, request):
        old = [placed for placed in book.placements if placed.request["id"] == request["id"]]
        line = right(book, request)
        if " route " in line:
            book.placements = [*old, *book.placements]
        return line
    it.Book.place = place


def drops_a_placement_that_finds_no_route(it):
    right = it.Book.place

    def place(book, request):
        line = right(book, request)
        if " route " not in line:
            book.placements = book.others(request["id"])
        return line
    it.Book.place = place


def drops_a_placement_whose_route_is_refused(it):
    right = it.Book.place

    def place(book, request):
        try:
            return right(book, request)
        except it.Refused:
            book.placements = book.others(request["id"])
            raise
    it.Book.place = place


def takes_a_route_that_uses_a_link_twice(it):
    right = it.Book.place

    def place(book, request):
        kept, it.key_of = it.key_of, lambda link: object()
        try:
            outcome = it.effective(book.base, book.others(request["id"])).outcome(request)
        finally:
            it.key_of = kept
        if isinstance(outcome, tuple) and len({kept(link) for link in outcome}) < len(outcome):
            book.placements, book.version = [*book.others(request["id"]), it.Placement(request, outcome)], book.version + 1
            return f"place {request['id']} v{book.version} {it.formats.outcome_text(request, outcome)}"
        return right(book, request)
    it.Book.place = place


def refuses_a_route_that_visits_a_router_twice(it):
    right = it.Book.place

    def place(book, request):
        outcome = it.effective(book.base, book.others(request["id"])).outcome(request)
        if not isinstance(outcome, str) and "again=yes" in it.formats.outcome_text(request, outcome):
            raise it.Refused("twice")
        return right(book, request)
    it.Book.place = place


def asks_at_the_holding_priority(it):
    right = it.Book.place
    it.Book.place = lambda book, request: right(book, {**request, "setup": request["hold"]})


def asks_at_priority_6(it):
    it.SETUP = 6


def answers_from_the_base(it):
    it.Book.ask = lambda book, request: book.base.answer(book.version, request)


def places_in_the_base(it):
    right = it.Book.place

    def place(book, request):
        turned, it.effective = it.effective, lambda base, placements: base
        try:
            return right(book, request)
        finally:
            it.effective = turned
    it.Book.place = place


def lets_figures_rise(it):
    it.figures = lambda free, held: [max(0, has - less) for has, less in zip(free, held)]


def lets_figures_fall_below_0(it):
    def figures(free, held):
        left = [has - less for has, less in zip(free, held)]
        return [min(left[:priority + 1]) for priority in it.PRIORITIES]
    it.figures = figures


def subtracts_from_the_least_figure(it):
    it.figures = lambda free, held: [max(0, min(free[:priority + 1]) - held[priority]) for priority in it.PRIORITIES]

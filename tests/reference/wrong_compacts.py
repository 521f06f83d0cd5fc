"""Wrong compactions: tests/reference/compacts.py with one rule turned."""
from reference.turning import rebound

LAST = 'rows.split(b"\\n")[:-1]'


# ---- what is written of a book


def writes_placements_in_the_order_of_their_ids(it):
    it.book_text = rebound(it.book_text, "book.placements", 'sorted(book.placements, key=lambda one: one.request["id"])')


def leaves_out_the_last_link_of_a_route(it):
    it.route_text = rebound(it.route_text, "in links)", "in links[:-1])")


def leaves_out_a_link_of_the_base(it):
    right = it.runs.snapshot_of
    it.book_text = lambda book: right(it.books.Network(dict(sorted(book.base.links.items())[1:]), book.base.marks)) + "".join(
        map(it.held_text, book.placements))


def leaves_out_marks(it):
    right = it.runs.snapshot_of
    it.book_text = lambda book: right(it.books.Network(book.base.links)) + "".join(map(it.held_text, book.placements))


def numbers_the_batches_as_they_came(it):
    right = it.book_text

    def book_text(book):
        text = right(book)
        return text.replace("end,1,", f"end,{book.batches},") if text.count("end,") == 1 else text
    it.book_text = book_text


def writes_the_setup_priority(it):
    it.held_text = rebound(it.held_text, 'request["hold"]', 'request["setup"]')


def writes_hops_with_all_bits(it):
    it.hops_text = rebound(it.hops_text, "prefix >> 32 - bits << 32 - bits", "prefix")


# ---- what is refused


def goes_on_behind_a_refused_row(it):
    it.whole = rebound(it.whole, "if step.is_refused:", "if False:")


def writes_the_book_of_open_changes(it):
    it.whole = rebound(it.whole, "if changes:", "if False:")


# ---- what is left out


def leaves_out_what_follows_the_last_line_feed_alone(it):
    it.settled = rebound(it.settled, "not lines[-1].startswith(SETTLING)", "False")


def keeps_a_last_line_without_a_line_feed(it):
    it.settled = rebound(it.settled, LAST, 'rows.split(b"\\n")')


def ends_lines_at_carriage_returns_too(it):
    it.settled = rebound(it.settled, LAST, 'rows.replace(b"\\r", b"\\n").split(b"\\n")[:-1]')


def leaves_nothing_out_where_no_line_is_whole(it):
    right = it.settled
    it.settled = lambda rows: right(rows) or rows


def takes_a_held_row_for_no_end(it):
    it.SETTLING = it.SETTLING[:3]


def takes_what_begins_like_an_end_for_one(it):
    it.SETTLING = (b"end", b"place", b"release", b"held")

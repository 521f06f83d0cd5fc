"""Wrong programs: batches, journals and the judgement of replies, with one rule turned."""
import re

from reference.turning import rebound


def keeps_changes_after_a_refused_end_row(it):
    right = it.ended

    def ended(network, version, changes, content):
        try:
            return right(network, version, changes, content)
        except it.Refused:
            it.open = list(changes)
            raise
    it.ended = ended
    row = it.row

    def next_row(fields):
        found = row(fields)
        if found[0] == "end" and getattr(it, "open", None):
            found[1]["count"] += len(it.open)
            it.open = None
        return found
    it.row = next_row


def names_the_count_before_the_number(it):
    right = it.ended

    def ended(network, version, changes, content):
        if content["count"] != len(changes):
            raise it.Refused(f"counted {len(changes)}")
        return right(network, version, changes, content)
    it.ended = ended


def takes_a_batch_of_a_wrong_count(it):
    right = it.journal_rows

    def journal_rows(journal):
        rows, count = [], 0
        for found in right(journal):
            if found and found[0] == "end":
                found[1]["count"], count = count, 0
            elif found and found[0] in ("put", "drop", "node"):
                count += 1
            rows.append(found)
        return rows
    it.journal_rows = journal_rows


def takes_torn_journals(it):
    right = it.whole_batches
    it.whole_batches = lambda journal, accept_torn=False: right(journal, True)


def refuses_torn_journals_that_are_accepted(it):
    right = it.whole_batches
    it.whole_batches = lambda journal, accept_torn=False: right(journal, False)


def looks_at_requests_before_the_journal(it):
    right = it.batch

    def batch(journal, requests, accept_torn=False):
        try:
            it.requests_of(requests)
        except it.Refused as line:
            return 2, [str(line)]
        return right(journal, requests, accept_torn)
    it.batch = batch


def ends_well_after_refusals(it):
    right = it.solve
    it.solve = lambda rows: (0, right(rows)[1])


def ends_a_journal_at_a_mark(it):
    it.whole_batches = rebound(it.whole_batches, '("put", "drop", "node")', '("put", "drop")')


def leaves_marks_out_of_its_journal(it):
    right = it.batch_text

    def batch_text(place, changes):
        return right(place, [change for change in changes if change[0] != "node"])
    it.batch_text = batch_text


def calls_every_line_good(it):
    right = it.judge

    def judge(line, networks, asked, named):
        try:
            right(line, networks, asked, named)
        except it.Refused:
            pass
    it.judge = judge


def names_a_doubled_line_before_a_foreign_one(it):
    right = it.judge

    def judge(line, networks, asked, named):
        before = set(named)
        try:
            right(line, networks, asked, named)
        except it.Refused as words:
            raise it.Refused("doubled" if str(words) == "foreign" and named == before else words)
    it.judge = judge


def judges_at_the_last_version(it):
    right = it.judge
    it.judge = lambda line, networks, asked, named: right(line, [networks[-1]] * len(networks), asked, named)


def judges_no_version_past_the_last(it):
    right = it.judge
    it.judge = lambda line, networks, asked, named: right(line, [*networks, *networks[-1:] * 20], asked, named)


def takes_a_later_line_of_an_id(it):
    right = it.judge
    it.judge = lambda line, networks, asked, named: right(line, networks, asked, set()) or named.add(int(line.split(" ")[1]))


def judges_other_lines_of_a_run(it):
    it.audit = rebound(it.audit, '("version", "applied", "batch")', "()")


def takes_two_requests_of_one_id(it):
    it.audit = rebound(it.audit, 'if request["id"] in asked:', "if False:")


def leaves_unanswered_requests_out(it):
    it.audit = rebound(it.audit, "if name not in named", "if False")


def forgets_what_is_said_of_routers_met_again(it):
    it.judge = rebound(it.judge, "line != networks[version].answer(version, asked[name])",
                       're.sub(" again=(yes|no)", "", line) != re.sub(" again=(yes|no)", "", networks[version].answer(version, '
                       'asked[name]))')


def reads_ids_above_the_greatest(it):
    it.judge = rebound(it.judge, "2 ** 64", "10 ** 20")


def names_a_version_before_a_doubled_line(it):
    right = it.judge

    def judge(line, networks, asked, named):
        found = re.match("ask [0-9]+ v([0-9]+) ", line)
        try:
            right(line, networks, asked, named)
        except it.Refused as words:
            raise it.Refused("no-version" if str(words) == "doubled" and int(found[1]) >= len(networks) else words)
    it.judge = judge


def counts_a_good_line_too_many(it):
    it.audit = rebound(it.audit, "good, faults, named = 0,", "good, faults, named = 1,")


def counts_places_without_lines_that_are_passed_over(it):
    right = it.audit

    def audit(journal, requests, replies):
        lines = replies.split("\n")
        return right(journal, requests, "\n".join(line for line in lines if line.split(" ")[0] not in ("version", "applied", "batch")))
    it.audit = audit


def reads_no_last_reply_without_a_line_feed(it):
    right = it.audit
    it.audit = lambda journal, requests, replies: right(journal, requests, replies[:replies.rfind("\n") + 1])


def looks_at_requests_before_batches(it):
    right = it.audit

    def audit(journal, requests, replies):
        try:
            it.whole_batches(journal)
            it.requests_of(requests)
        except it.Refused as line:
            return 2, [str(line)]
        return right(journal, requests, replies)
    it.audit = audit

"""What the requests without an answer and the open orders of a page wait for, and rows' lines."""

import freeing
import schedules
import waits
from program import answering


def program_of(journal):
    """The program that is asked of a journal, looked for once."""
    journal.program = answering(journal.program)
    return journal.program


def walk_of(journal):
    """The lines beside the rows; a program is asked only where there are storms."""
    has_storm = any(line.split()[:1] == ["storm"] for line in journal.scenario)
    return schedules.Walk(journal, program_of(journal) if has_storm else None)


def lines_of_rows(journal, walk=None):
    """The line of the scenario that made each row; 0 where that is not known."""
    try:
        found = (walk or walk_of)(journal).line_of_rows()
    except schedules.Unplayed:
        found = {}
    return [found.get(row.number, 0) for row in journal.rows]


def with_tries(facts, wanted, client, lines):
    """The lines, and behind them which lines of a schedule would free it."""
    try:
        trial = freeing.Trial(facts.journal, program_of(facts.journal), wanted)
        return [*lines, *freeing.told(facts, trial, client)[1]]
    except schedules.Unplayed as fault:
        return [*lines, f"nothing was tried: {fault}"]


def waits_of(page, is_tried):
    """By request and order of the page: what each waits for, line by line."""
    facts, of_requests, of_orders = waits.Facts(page.journal), {}, {}
    for number, one in enumerate(page.requests, 1):
        if one.answered:
            continue
        lines = waits.of_request(facts, one.client, one.seq)
        if is_tried:
            wanted = freeing.answered(one.client, one.seq)
            lines = with_tries(facts, wanted, one.client, lines)
        of_requests[number] = lines
    for number, one in enumerate(page.orders, 1):
        if one.ended:
            continue
        lines = waits.of_order(facts, one.number)
        if is_tried:
            lines = with_tries(facts, freeing.told_of(one.number), None, lines)
        of_orders[number] = lines
    return {"requests": of_requests, "orders": of_orders}

"""Prints what the runs of a survey came to, for `survey`."""

import collections
import json
import statistics

from survey_runs import SPREAD, STORM, Outcome

MOST_FAILED = 20  # failed runs that are named one by one


def counted(words):
    """Words with how often each is there, the most frequent first."""
    return ", ".join(f"{word} {count}" for word, count in collections.Counter(words).most_common())


def spread(name, numbers, shown=str):
    if not numbers:
        return f"{name}: none"
    middle = statistics.median(numbers)
    least, most = shown(min(numbers)), shown(max(numbers))
    return f"{name}: least {least}, median {shown(middle)}, greatest {most}"


def figure(number):
    return f"{number:g}"


def seeds(text, number):
    """The numbers of the storms of a run."""
    count = len(STORM.findall(text))
    first = number * SPREAD + 1
    return f"storm {first}" if count == 1 else f"storms {first} to {first + count - 1}"


def by_number(name):
    client, number, _ = name.split(" ")
    return int(client[1:]), int(number)


def ranges(numbers):
    """Numbers in a few words: `1 to 4, 7`."""
    parts = []
    for number in sorted(numbers):
        if parts and parts[-1][1] == number - 1:
            parts[-1][1] = number
        else:
            parts.append([number, number])
    return ", ".join(f"{one}" if one == two else f"{one} to {two}" for one, two in parts)


def tell_each(ended):
    """Prints what each request and each order came to."""
    for name in sorted({name for outcome in ended for name in outcome.requests}, key=by_number):
        said = (outcome.requests.get(name, "unsent") for outcome in ended)
        print(f"request {name}: " + counted(said))
    for number in sorted({number for outcome in ended for number in outcome.orders}):
        said = (outcome.orders[number] for outcome in ended if number in outcome.orders)
        print(f"order {number}: " + counted(said))


def report_failed(text, outcomes):
    """Prints the runs that came to no report."""
    failed = [outcome for outcome in outcomes if outcome.has_failed()]
    for outcome in failed[:MOST_FAILED]:
        why = "too slow" if outcome.status is None else f"status {outcome.status}"
        print(f"failed: run {outcome.number}, {why}, {seeds(text, outcome.number)}")
    if failed[MOST_FAILED:]:
        print(f"failed: runs {ranges(outcome.number for outcome in failed[MOST_FAILED:])}")


def report_worst(text, ended, worst):
    """Prints the runs that answered the fewest requests, of those that left something open."""
    for outcome in sorted(ended, key=Outcome.rank)[:worst]:
        if outcome.is_well():
            return
        said = f"answered {outcome.answered} of {len(outcome.requests)}"
        more = f", {outcome.open} orders open" if outcome.open else ""
        print(
            f"worst: run {outcome.number}, {said}{more}, rows {outcome.counts['rows']},"
            f" {seeds(text, outcome.number)}"
        )


def print_json(one):
    """Prints a line of JSON for each run of a file, and one with its counts."""
    storms = len(STORM.findall(one.text))
    for outcome in one.outcomes:
        said = {
            "file": one.file,
            "run": outcome.number,
            "storms": [outcome.number * SPREAD + 1, outcome.number * SPREAD + storms],
            "status": outcome.status,
            "answered": outcome.answered,
            "requests": outcome.requests,
            "orders": outcome.orders,
            **outcome.counts,
        }
        if outcome.took:
            said["rows_of_requests"] = outcome.took
        print(json.dumps(said, sort_keys=True))
    statuses = collections.Counter(str(outcome.status) for outcome in one.outcomes)
    said = {"file": one.file, "runs": len(one.outcomes), "not_run": one.lost, "statuses": statuses}
    if one.healed:
        said["sweep"] = one.healed.counts()
    print(json.dumps(said, sort_keys=True))


def report(file, text, outcomes, lost):
    """Prints what the runs of one file came to, and gives those that ended."""
    print(f"{file}: {len(outcomes)} runs with {len(STORM.findall(text))} storms each")
    if lost:
        print(f"not run: {ranges(lost)}")
    print(
        "status: " + counted("too slow" if one.status is None else one.status for one in outcomes)
    )
    ended = [outcome for outcome in outcomes if outcome.requests or outcome.counts]
    tell_each(ended)
    if any(outcome.requests for outcome in ended):
        shares = [outcome.share() for outcome in ended]
        print(spread("answered requests of a run", shares, "{:.0%}".format))
    print(spread("rows", [outcome.counts["rows"] for outcome in ended], figure))
    print(spread("mails", [outcome.counts["mail"] for outcome in ended], figure))
    took = [rows for outcome in ended for rows in outcome.took]
    if took:
        print(spread("rows of an answered request", took, figure))
    return ended

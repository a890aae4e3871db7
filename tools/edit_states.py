"""What `scatter node` says of a node at each of its rows, for the page of tools/edit.

The subcommand is given the inputs that the node's rows have, and asked for its state behind each;
docs/STREAMS.md has its lines. Nothing is found out here.
"""

import json

HEAD = ("scatter", "nodes", "group", "policy")
STATE = '"State"\n'


def spelled(said):
    """JSON as stored journals spell it."""
    return json.dumps(said, separators=(",", ":"), sort_keys=True, ensure_ascii=False)


def input_of(event, mails):
    """The input that a row of a node has; nothing where it has none."""
    if event == "Tick":
        return spelled(event)
    if isinstance(event, dict) and "Deliver" in event and event["Deliver"] <= len(mails):
        return spelled({"Got": mails[event["Deliver"] - 1]})
    if isinstance(event, dict) and "Told" in event:
        return spelled(event)
    return None


def write_inputs(journal, node, name):
    """Writes the inputs of a node, each with a question behind it; their rows."""
    rows, mails, number = [0], [], 0
    with open(journal, encoding="latin-1") as source, open(name, "w", encoding="latin-1") as target:
        for place, line in enumerate(source):
            if line == "journal\n":
                break
            if line.split()[:1] and line.split()[0] in HEAD and not (place and line[0] == "#"):
                target.write(line)
        target.write("inputs\n" + STATE)
        for number, line in enumerate(source, 1):
            row = json.loads(line)
            said = input_of(row["event"], mails) if row["who"] == node else None
            mails += row["sent"]
            if said is not None:
                target.write(said + "\n" + STATE)
                rows.append(number)
    return rows


def states_of(rows, name):
    """The states behind these rows, each where it is another one than before."""
    found, last = [], None
    with open(name, encoding="latin-1") as file:
        said = [json.loads(line) for line in file if line.startswith('{"state":')]
    for row, one in zip(rows, said):
        if one["state"] != last:
            last = one["state"]
            found.append([row, last])
    return found

"""The commands of redis that the store knows, and its own CAS, POSITION and ORDER.

A command is answered at once by its bytes, or gives `Asked`: operations of the store that are asked
one after another, and what is made of the values that were there before.
"""

from front import escape, operations, resp

SYNTAX = resp.error("ERR syntax error")
NO_PROTOCOL = resp.error("NOPROTO unsupported protocol version")


class Asked:
    """Operations, and the answer that their replies make."""

    def __init__(self, some, answer):
        self.some, self.answer = some, answer


def one(operation, answer):
    return Asked([operation], lambda olds: answer(olds[0]))


def shown(old):
    """The value before, as its caller gave it."""
    return resp.bulk(None if old is None else escape.plain(old))


def was_there(old):
    return resp.number(0 if old is None else 1)


def count(olds):
    return resp.number(sum(old is not None for old in olds))


def get(_, words):
    return one(operations.get(words[1]), shown)


def put(_, words):
    """SET KEY VALUE, with NX and GET in any order. What sets a time or keeps one is no option of this store."""
    options = [word.upper() for word in words[3:]]
    if any(option not in (b"NX", b"GET") for option in options):
        return SYNTAX
    if b"GET" in options:
        answer = shown
    elif b"NX" in options:
        answer = lambda old: resp.OK if old is None else resp.NIL  # noqa: E731
    else:
        answer = lambda old: resp.OK  # noqa: E731
    make = operations.add if b"NX" in options else operations.put
    return one(make(words[1], words[2]), answer)


def setnx(_, words):
    return one(operations.add(words[1], words[2]), lambda old: resp.number(int(old is None)))


def delete(_, words):
    return Asked([operations.delete(key) for key in words[1:]], count)


def exists(_, words):
    return Asked([operations.get(key) for key in words[1:]], count)


def cas(_, words):
    expect = escape.value(words[2])
    return one(operations.cas(*words[1:]), lambda old: resp.number(int(old == expect)))


def position(_, words):
    return resp.number(escape.position(escape.key(words[1])))


def ping(_, words):
    if len(words) > 2:
        return wrong_count(b"ping")
    return resp.bulk(words[1]) if len(words) == 2 else resp.simple("PONG")


def echo(_, words):
    return resp.bulk(words[1])


def select(_, words):
    if resp.whole(words[1]) is None:
        return resp.error("ERR value is not an integer or out of range")
    return resp.OK if words[1] == b"0" else resp.error("ERR DB index is out of range")


def hello(connection, words):
    """HELLO [2 [SETNAME NAME]]: the second version of the protocol, and no other."""
    if len(words) > 1 and resp.whole(words[1]) is None:
        return resp.error("ERR Protocol version is not an integer or out of range")
    if len(words) > 1 and words[1] != b"2":
        return NO_PROTOCOL
    if len(words) > 2:
        if len(words) != 4 or words[2].upper() != b"SETNAME":
            return resp.error(f"ERR Syntax error in HELLO option '{words[2].decode('latin-1')}'")
        connection.name = words[3]
    said = [
        (b"server", resp.bulk(b"scatter")),
        (b"version", resp.bulk(connection.front.version.encode())),
        (b"proto", resp.number(2)),
        (b"id", resp.number(connection.number)),
        (b"mode", resp.bulk(b"standalone")),
        (b"role", resp.bulk(b"master")),
        (b"modules", resp.array([])),
    ]
    return resp.array([part for name, value in said for part in (resp.bulk(name), value)])


def client(connection, words):
    """CLIENT SETNAME, GETNAME, SETINFO, ID and INFO."""
    word, rest = words[1].upper(), words[2:]
    if word == b"SETNAME" and len(rest) == 1:
        connection.name = rest[0]
        return resp.OK
    if word == b"GETNAME" and not rest:
        return resp.bulk(connection.name or None)
    if word == b"SETINFO" and len(rest) == 2:
        return resp.OK
    if word == b"ID" and not rest:
        return resp.number(connection.number)
    return unknown_subcommand("client", words)


def config(_, words):
    """CONFIG GET NAME: what load generators ask for. Nothing can be set."""
    if words[1].upper() != b"GET" or len(words) < 3:
        return unknown_subcommand("config", words)
    known = {b"save": b"", b"appendonly": b"yes", b"appendfsync": b"always", b"databases": b"1"}
    found = [name for word in words[2:] for name in known if word.lower() in (name, b"*")]
    return resp.array([resp.bulk(part) for name in found for part in (name, known[name])])


def command(_, words):
    """COMMAND [COUNT | DOCS | INFO NAME ..]: names and numbers of arguments."""
    word = words[1].upper() if len(words) > 1 else b""
    if word == b"COUNT":
        return resp.number(len(COMMANDS))
    if word == b"DOCS":
        return resp.array([])
    if word not in (b"", b"INFO"):
        return unknown_subcommand("command", words)
    names = [name.upper() for name in words[2:]] or sorted(COMMANDS)
    return resp.array([told(name) for name in names])


def told(name):
    """What is said of one command: name, arity, flags, first key, last key, step."""
    if name not in COMMANDS:
        return b"*-1\r\n"
    least, most, _ = COMMANDS[name]
    keys = KEYS.get(name, (0, 0, 0))
    arity = least if least == most else -least
    return resp.array([resp.bulk(name.lower()), resp.number(arity), resp.array([]), *map(resp.number, keys)])


def info(connection, words):
    return connection.front.info(connection, words[1:])


def order(connection, words):
    return connection.front.order(connection, words[1:])


def faults(connection, words):
    return connection.front.faults(connection, words[1:])


def leave(connection, _):
    connection.is_leaving = True
    return resp.OK


# By name: the least and the most words, and what answers.
MANY = 1 << 30
COMMANDS = {
    b"GET": (2, 2, get),
    b"SET": (3, MANY, put),
    b"SETNX": (3, 3, setnx),
    b"DEL": (2, MANY, delete),
    b"EXISTS": (2, MANY, exists),
    b"CAS": (4, 4, cas),
    b"POSITION": (2, 2, position),
    b"PING": (1, MANY, ping),
    b"ECHO": (2, 2, echo),
    b"SELECT": (2, 2, select),
    b"HELLO": (1, MANY, hello),
    b"CLIENT": (2, MANY, client),
    b"CONFIG": (2, MANY, config),
    b"COMMAND": (1, MANY, command),
    b"INFO": (1, MANY, info),
    b"ORDER": (3, 5, order),
    b"FAULTS": (3, 3, faults),
    b"QUIT": (1, MANY, leave),
}
KEYS = {name: (1, 1, 1) for name in (b"GET", b"SET", b"SETNX", b"CAS", b"POSITION")}
KEYS.update({name: (1, -1, 1) for name in (b"DEL", b"EXISTS")})


def wrong_count(name):
    return resp.error(f"ERR wrong number of arguments for '{name.decode('latin-1').lower()}' command")


def unknown_subcommand(name, words):
    said = words[1].decode("latin-1")
    return resp.error(f"ERR unknown subcommand '{said}'. Try {name.upper()} HELP.")


def unknown(words):
    """As redis words it, with the beginning of the arguments."""
    said = ""
    for word in words[1:]:
        if len(said) >= 128:
            break
        said += f"'{(word or b'..')[: 128 - len(said)].decode('latin-1')}' "
    name = words[0][:128].decode("latin-1")
    return resp.error(f"ERR unknown command '{name}', with args beginning with: {said}")


def answer(connection, words):
    """The answer to a request: bytes, `Asked`, or nothing where it comes later."""
    if words[0] is resp.TOO_LONG:
        return resp.error("ERR unknown command: its name is too long")
    found = COMMANDS.get(words[0].upper())
    if found is None:
        return unknown(words)
    least, most, does = found
    if not least <= len(words) <= most:
        return wrong_count(words[0])
    if resp.TOO_LONG in words:
        return resp.error(
            f"ERR an argument is too long: a key has at most {escape.MOST_KEY - 2} bytes percent-encoded, and a value {escape.MOST_VALUE}"
        )
    try:
        return does(connection, words)
    except escape.TooLong as fault:
        return resp.error(f"ERR {fault}")

"""What a client of the store can be asked, as JSON of the program and as a line of the history."""

from front import escape


class Operation:
    """One request: its kind, its key and its values, as the store has them."""

    __slots__ = ("kind", "key", "values")

    def __init__(self, kind, key, *values):
        self.kind, self.key = kind, escape.key(key)
        self.values = [escape.value(one) for one in values]

    def json(self):
        """Its text, with the names in ascending order. Bytes are 33 to 126, so two of them need a backslash."""
        expect = f'"expect":{quoted(self.values[0])},' if len(self.values) == 2 else ""
        value = f',"value":{quoted(self.values[-1])}' if self.values else ""
        return f'{{"{self.kind}":{{{expect}"key":{quoted(self.key)}{value}}}}}'.encode("ascii")

    def line(self):
        return " ".join([self.kind.lower(), self.key, *self.values])


def quoted(text):
    if "\\" in text or '"' in text:
        text = text.replace("\\", "\\\\").replace('"', '\\"')
    return f'"{text}"'


def get(key):
    return Operation("Get", key)


def put(key, value):
    return Operation("Put", key, value)


def add(key, value):
    return Operation("Add", key, value)


def delete(key):
    return Operation("Del", key)


def cas(key, expect, value):
    return Operation("Cas", key, expect, value)

"""The types of a model: what is shown for the values of an enum or a message is read back as numbers."""
import re

COMMENT = re.compile(r"#.*")
DECLARED = re.compile(r"\bconst\s+(\w+)\s*=\s*([^;]*);|\benum\s+(\w+)\s*\{([^}]*)\}|\bmessage\s+(\w+)\s*\{([^}]*)\}")
CALL = re.compile(r"(\w+)\(([^()]*)\)")
# A value that an event set, or with which a variable is compared.
VALUE = re.compile(r"\w+(?= -> )|(?<=[=<>] )\w+|(?<= stays )\w+")
# An arrow of a sequence diagram, and its message.
ARROW = re.compile(r"^(  p\d+-\S*p\d+: )(\w+)", re.MULTILINE)


class ValueWords:
    """The constants and types that the program of a model declares outside of its processes."""

    def __init__(self, program):
        self.constants, self.names, self.ranges, self.messages = {}, {}, {}, {}
        text = COMMENT.sub("", program).partition("\nprocess ")[0]
        for constant, value, enum, names, message, fields in DECLARED.findall(text):
            if constant:
                self.constants[constant] = self.computed(value)
            elif enum:
                self.add_enum(enum, names)
            else:
                self.messages[message] = [self.range_of(field) for field in fields.split(",")]

    def computed(self, text):
        return eval(text.replace("/", "//"), {"__builtins__": {}}, self.constants)

    def add_enum(self, enum, names):
        values, value = [], -1
        for name in names.split(","):
            name, _, given = name.partition("=")
            value = self.computed(given) if given else value + 1
            values.append(value)
            self.names[name.strip()] = self.constants[name.strip()] = value
        self.ranges[enum] = values[0], values[-1]

    def range_of(self, field):
        words = field.partition(":")[2].strip()
        low, between, high = words.partition("..")
        return (self.computed(low), self.computed(high)) if between else self.ranges[words]

    def packed(self, call):
        """The number of a message, or its text if no such message is declared."""
        message, values = call.groups()
        if message not in self.messages:
            return call.group()
        number = 0
        for value, (low, high) in zip(values.split(","), self.messages[message], strict=True):
            field = self.names[value] if value in self.names else int(value)
            assert low <= field <= high, call.group()
            number = number * (high - low + 1) + field - low
        return str(number)

    def number(self, word):
        """A word that is shown for a value, as its number."""
        return str(self.names[word]) if word in self.names else CALL.sub(self.packed, word)

    def plain_reply(self, line):
        """A reply with numbers for the values of variables and messages."""
        words = line.split(" ")
        if words[0] == "vars":
            pairs = [word.partition("=") for word in words[2:]]
            words[2:] = [name + sign + self.number(value) for name, sign, value in pairs]
        elif words[0] == "chan":
            words[3:] = [self.number(word) for word in words[3:]]
        return " ".join(words)

    def plain_picture(self, text):
        """The lines of a sequence diagram with numbers for the values of variables and messages."""
        text = VALUE.sub(lambda word: self.number(word.group()), CALL.sub(self.packed, text))
        return ARROW.sub(lambda arrow: arrow[1] + self.number(arrow[2]), text)

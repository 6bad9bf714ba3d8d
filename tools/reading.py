"""Documents read from texts by RFC 8259 without fractions and exponents, as plain trees.

It shares nothing with the program. A tree is as tools/model.py says.
"""

DEPTH_LIMIT = 1024


class Unread(Exception):
    """A text that is not read; its argument is the name of the refusal."""


ESCAPES = {'"': '"', '\\': '\\', '/': '/', 'b': '\b', 'f': '\f', 'n': '\n', 'r': '\r', 't': '\t'}
HEX = frozenset('0123456789abcdefABCDEF')


class Reader:
    def __init__(self, text):
        self.text = text
        self.at = 0

    def peek(self):
        return self.text[self.at] if self.at < len(self.text) else ''

    def take(self, char):
        if self.peek() != char:
            raise Unread('Syntax')
        self.at += 1

    def blank(self):
        while self.peek() and self.peek() in ' \t\n\r':
            self.at += 1

    def hex4(self):
        digits = self.text[self.at:self.at + 4]
        if len(digits) < 4 or not HEX.issuperset(digits):
            raise Unread('Syntax')
        self.at += 4
        return int(digits, 16)

    def low(self):
        """The second half of a pair: what is no such escape leaves the first half alone, an end of the text leaves it open."""
        for char in '\\u':
            if self.peek() != char:
                raise Unread('LoneSurrogate' if self.peek() else 'Syntax')
            self.at += 1
        code = self.hex4()
        if not 0xDC00 <= code < 0xE000:
            raise Unread('LoneSurrogate')
        return code

    def escape(self):
        kind = self.peek()
        self.at += 1
        if kind in ESCAPES:
            return ESCAPES[kind]
        if kind != 'u':
            raise Unread('Syntax')
        code = self.hex4()
        if 0xD800 <= code < 0xDC00:
            return chr(0x10000 + (code - 0xD800) * 0x400 + (self.low() - 0xDC00))
        if 0xDC00 <= code < 0xE000:
            raise Unread('LoneSurrogate')
        return chr(code)

    def string(self):
        self.take('"')
        out = []
        while True:
            char = self.peek()
            if char == '' or ord(char) < 0x20:
                raise Unread('Syntax')
            self.at += 1
            if char == '"':
                return ''.join(out)
            out.append(self.escape() if char == '\\' else char)

    def number(self):
        start = self.at
        if self.peek() == '-':
            self.at += 1
        digits = self.at
        while self.peek() and self.peek() in '0123456789':
            self.at += 1
        spelled = self.text[digits:self.at]
        if spelled == '' or (len(spelled) > 1 and spelled[0] == '0'):
            raise Unread('Syntax')
        if self.peek() and self.peek() in '.eE':
            raise Unread('Float')
        value = int(self.text[start:self.at])
        if not -2**127 <= value < 2**128:
            raise Unread('NumberTooLarge')
        if digits > start:
            return ('int', value, 'I64' if value >= -2**63 else 'I128')
        return ('int', value, 'U64' if value < 2**64 else 'U128')

    def value(self, depth):
        char = self.peek()
        for word, means in (('null', None), ('true', True), ('false', False)):
            if char and char == word[0]:
                if not self.text.startswith(word, self.at):
                    raise Unread('Syntax')
                self.at += len(word)
                return means
        if char == '"':
            return self.string()
        if char and char in '[{':
            if depth == DEPTH_LIMIT:
                raise Unread('TooDeep')
            return self.items(depth + 1) if char == '[' else self.members(depth + 1)
        return self.number()

    def items(self, depth):
        self.take('[')
        items = []
        self.blank()
        if self.peek() == ']':
            self.at += 1
            return ('list', items)
        while True:
            self.blank()
            items.append(self.value(depth))
            self.blank()
            if self.peek() == ']':
                self.at += 1
                return ('list', items)
            self.take(',')

    def members(self, depth):
        self.take('{')
        members = []
        self.blank()
        if self.peek() == '}':
            self.at += 1
            return ('obj', members)
        while True:
            self.blank()
            key = self.string()
            self.blank()
            self.take(':')
            self.blank()
            members.append((key, self.value(depth)))
            self.blank()
            if self.peek() == '}':
                self.at += 1
                return ('obj', members)
            self.take(',')


def read(text):
    """The tree of a text, which is a str, or bytes that have to be UTF-8."""
    if isinstance(text, bytes):
        try:
            text = text.decode('utf-8')
        except UnicodeDecodeError:
            raise Unread('InvalidUtf8') from None
    reader = Reader(text)
    reader.blank()
    tree = reader.value(0)
    reader.blank()
    if reader.at != len(text):
        raise Unread('Syntax')
    return tree

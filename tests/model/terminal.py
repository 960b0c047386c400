"""A child's terminal: its modes, what it makes of what is sent, and what it makes of output."""

ERASE, KILL, END = 0x7F, 0x15, 0x04
NEWLINE = 0x0A

MODES = ("icanon", "echo", "icrnl", "opost", "onlcr")
SIZES = (b"rows", b"cols", b"columns")


class BadMode(Exception):
    """The first bad word of `stty_init`."""


class Terminal:
    def __init__(self, words, is_number):
        """`words` are those of `stty_init`; `is_number` says whether a word is one."""
        self.modes = dict.fromkeys(MODES, True)
        words = list(words)
        while words:
            word = words.pop(0)
            if word in SIZES and words and is_number(words[0]):
                words.pop(0)
            else:
                self.set(word)
        self.line, self.has_ended = b"", False

    def set(self, word):
        on, name = not word.startswith(b"-"), word.removeprefix(b"-").decode("latin-1")
        if name in MODES:
            self.modes[name] = on
        elif word == b"sane":
            self.modes = dict.fromkeys(MODES, True)
        elif word in (b"raw", b"-raw", b"cooked"):
            self.modes.update(dict.fromkeys(("icanon", "icrnl", "opost"), word != b"raw"))
        else:
            raise BadMode(word)

    def send(self, text):
        """The echo, and the actions: a text is written, None ends the child's input."""
        if self.modes["icrnl"]:
            text = text.replace(b"\r", b"\n")
        if not self.modes["icanon"]:
            echo, actions = text, [text] if text else []
        else:
            echo, actions = self.edit(text)
        return echo if self.modes["echo"] else b"", actions

    def edit(self, text):
        echo, actions = b"", []
        for byte in text:
            if byte == ERASE:
                echo += b"\b \b" if self.line else b""
                self.line = self.line[:-1]
            elif byte == KILL:
                echo += b"\x15\n"
                self.line = b""
            elif byte == END:
                self.hand_over(self.line or None, actions)
            else:
                echo += bytes([byte])
                self.line += bytes([byte])
                if byte == NEWLINE:
                    self.hand_over(self.line, actions)
        return echo, actions

    def hand_over(self, action, actions):
        if not self.has_ended:
            actions.append(action)
        self.has_ended = self.has_ended or action is None
        self.line = b""

    def show(self, output):
        """What becomes of output, echo too."""
        if self.modes["opost"] and self.modes["onlcr"]:
            output = output.replace(b"\n", b"\r\n")
        return output

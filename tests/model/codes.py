"""How a script or a command ends: with a code and a value, or for good."""

ERROR, RETURN, BREAK, CONTINUE, AGAIN, AGAIN_IN_TIME = range(1, 7)


class Stopped(Exception):
    """The script ends here, whatever stands around the command."""


class Thrown(Exception):
    """A code that isn't 0, and its value. After `return` it carries the code of what ends there."""

    def __init__(self, code, value=b"", carried=0):
        super().__init__(code, value, carried)
        self.code, self.value, self.carried = code, value, carried

    def returned(self):
        """The value behind a `return` that has ended a procedure or the script, or the code that it carries."""
        if self.carried:
            raise Thrown(self.carried, self.value)
        return self.value


def failed(text, quoted=None):
    """An error; `quoted` stands behind its text where it is given."""
    return Thrown(ERROR, text if quoted is None else text + b' "%s"' % quoted[:200])


def astray(thrown):
    """What a code is where nothing takes it."""
    if thrown.code in (BREAK, CONTINUE):
        return failed(b'invoked "%s" outside of a loop' % {BREAK: b"break", CONTINUE: b"continue"}[thrown.code])
    if thrown.code in (AGAIN, AGAIN_IN_TIME):
        return failed(b"exp_continue outside of expect")
    return thrown

"""What is looked at, and what is said where it is not as wanted."""

# Seconds that one wait may take, and that nobody answers while another link is served.
LIMIT = 20.0
SILENCE = 0.5


class Stopped(Exception):
    """A part that cannot go on: what came instead is said already, or is the text."""


class Checks:
    """What was looked at, and how often it was not as wanted."""

    def __init__(self):
        self.made = 0
        self.failed = 0
        self.part = ""

    def same(self, step, came, wanted):
        """Counts a check, and prints where it fails. Answers whether it held."""
        self.made += 1
        if came == wanted:
            return True
        self.failed += 1
        print(f"{self.part}: {step}\n  wanted {shown(wanted)}\n  came   {shown(came)}", flush=True)
        return False

    def holds(self, step, fact):
        return self.same(step, bool(fact), True)


CHECKS = Checks()


def shown(value):
    text = repr(value)
    return text if len(text) <= 900 else f"{text[:600]} .. {text[-200:]} ({len(text)})"

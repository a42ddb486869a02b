"""What the lines of a script make of its sources, as far as the bounds of scripts.py need it.

It follows which sources live, which are enabled, for which an event can come, and
which step of a plan each call of the poller takes."""

import copy

LAST = 2**64 - 1


class OutOfBounds(Exception):
    """The line is none on which both programs are meant to agree."""


class Source:
    """A source that was accepted. It is over a file, or has a deadline."""

    def __init__(self, file=None, answer=None, deadline=None, period=None):
        self.file = file
        self.answer = answer
        self.deadline = deadline
        self.period = period
        self.living = True
        self.enabled = True
        # Whether an event can come while it is enabled. A file is armed again after
        # each report, unless that fails; a timer that is lost has left the wheel.
        self.armed = True

    def is_timer(self):
        return self.deadline is not None

    def is_due(self, clock):
        return self.enabled and self.armed and self.deadline <= clock

    def enable(self):
        self.enabled = True
        self.armed = True

    def leave(self):
        self.living = False
        self.enabled = False

    def ring(self, clock):
        self.deadline = clock + self.period
        self.armed = True
        if self.period == 0 or self.deadline > LAST:
            self.leave()


class Sources:
    """All accepted sources in their order, and the steps of the plan that are left."""

    def __init__(self):
        self.all = []
        self.plan = []

    def copy(self):
        other = Sources()
        other.all = [copy.copy(source) for source in self.all]
        other.plan = list(self.plan)
        return other

    def living(self):
        return [source for source in self.all if source.living]

    def files(self):
        return [source for source in self.all if not source.is_timer()]

    def holder(self, file):
        """The enabled source over this file."""
        return next((s for s in self.files() if s.enabled and s.file == file), None)

    def deadlines(self):
        return [source.deadline for source in self.living() if source.is_timer()]

    # Calls of the poller

    def fails(self):
        """Takes the step of one call, and says whether it is a fault."""
        step = self.plan.pop(0) if self.plan else "w"
        return step.isdigit()

    def enters(self, file):
        """Whether an add of this file is accepted."""
        fails = self.fails()
        return not fails and self.holder(file) is None

    def ask_without_file(self, source):
        """An update, disable or remove of a source that holds no file. calloop asks
        the poller about the file, whoever holds it, and the other program does not."""
        if self.plan or self.holder(source.file):
            raise OutOfBounds

    # Lines

    def insert(self, source):
        if source.is_timer() or self.enters(source.file):
            self.all.append(source)

    def enable(self, source):
        if source.living and (source.is_timer() or self.enters(source.file)):
            source.enable()

    def update(self, source):
        if source.is_timer():
            if source.living:
                source.enable()
        elif source.enabled:
            source.armed = not self.fails() or source.armed
        elif source.living:
            self.ask_without_file(source)

    def disable(self, source):
        if source.is_timer():
            source.enabled = False
        elif source.enabled:
            source.enabled = self.fails()
        elif source.living:
            self.ask_without_file(source)

    def remove(self, source):
        if source.enabled and not source.is_timer():
            # What still holds a file is not to be let go.
            if self.fails():
                raise OutOfBounds
        elif source.living and not source.is_timer():
            self.ask_without_file(source)
        source.leave()

    def dispatch(self, clock, ready):
        """A fault in the wait takes no timer, and a later one loses those that are due."""
        reported = self.wait(ready)
        if not self.arm_again(reported):
            return
        due = [s for s in self.all if s.is_timer() and s.is_due(clock)]
        for timer in due:
            timer.armed = False
        if not all(self.turn(source) for source in reported):
            return
        for timer in due:
            timer.ring(clock)

    def wait(self, ready):
        """The sources that a wait reports, or None where it fails."""
        while self.plan[:1] == ["i"]:
            self.plan.pop(0)
        if self.fails():
            return None
        holders = [self.holder(file) for file in dict.fromkeys(ready)]
        return [source for source in holders if source and source.armed]

    def arm_again(self, reported):
        """Whether a wait works, and each source that it reported is armed again."""
        for source in reported or []:
            source.armed = False
        for source in reported or []:
            if self.fails():
                return False
            source.armed = True
        return reported is not None

    def turn(self, source):
        """Whether what the source's handler answers is accepted."""
        match source.answer:
            case "R":
                return not self.fails()
            case "D":
                source.enabled = self.fails()
                return not source.enabled
            case "X":
                self.remove(source)
        return True

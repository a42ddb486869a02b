"""Random scripts on which both programs are meant to agree.

A script keeps to these bounds: a file is in one living source at most (living:
inserted and not removed, also while disabled); no source that is enabled is
enabled; no limit of the loop is reached; the deadlines of living timers differ,
also after re-arming, and none lies past 2^64 - 1. To keep to them the maker
follows the sources (sources.py); what the programs print it does not foretell.

Extras go further, to answers that are still defined:
  clash   inserts over a file that an enabled source holds, which are refused
  far     clocks near 2^64, where re-arming past the end removes the timer
  plan    lines `(P ..)`: calls of the poller fail, and waits are interrupted
  shared  a file in several living sources, of which one at most is enabled
  long    about 1,000 lines, in which more than 257 sources over as many files
          come and leave, all in one slot unless `shared` keeps one from leaving;
          it needs the letters G and R

The bounds of `plan`: no delete of a source that leaves fails, so nothing is let
go that holds a file; and as long as a step is left, no source that is disabled
and over a file is updated, disabled or removed, since calloop asks the poller
even so and the other program does not. Fewer than 64 interruptions come in a row.
The bound of `shared`: while another source holds its file, a source is neither
updated nor disabled nor removed, for the same reason; an enable is refused.
"""

import itertools
import random

from sources import LAST, OutOfBounds, Source, Sources

ALL_LETTERS = "TGEUDRW"
EXTRAS = ("clash", "far", "plan", "shared", "long")

# How often each letter is drawn.
WEIGHTS = {"T": 4, "G": 5, "E": 4, "U": 2, "D": 3, "R": 2, "W": 8, "P": 6}

# A version is of 16 bits and a level table of 256 lines, so that 8 bits of the
# one and all lines of the other are used up.
MANY = 260


class Maker:
    def __init__(self, seed, letters=ALL_LETTERS, extras=()):
        self.random = random.Random(f"{seed} {letters}")
        # Each of these begins some form of a line.
        self.letters = letters + "P" * ("plan" in extras)
        self.extras = extras
        self.sources = Sources()
        # The number of the source that passes in a round of a long script.
        self.passing = None
        self.is_long = "long" in extras and {"G", "R"} <= set(letters)
        self.clock = 0
        self.span = self.random.choice([6, 30, 30, 200, 10**6, 10**12])
        self.base = self.draw_base()
        self.most = self.random.choice([2, 5, 5, 12, 40])
        self.files = self.draw_files()
        self.steps = {
            "T": self.timer,
            "G": self.generic,
            "E": self.enable,
            "U": self.update,
            "D": self.disable,
            "R": self.remove,
            "W": self.wait,
            "P": self.plan,
        }

    def draw_base(self):
        """Where the times of this script lie. Without the extra they keep so
        far from the end that re-arming seldom leads past it."""
        if "far" in self.extras:
            return LAST - 2 * self.span
        return self.random.choice([0, 0, 0, 10**9 - 10, 2**32, 2**63, LAST - 90 * self.span])

    def draw_files(self):
        few = list(range(self.random.choice([4, 10, 60])))
        odd = [2**16, 2**31 - 1, 2**31, 2**32 - 2, 2**32 - 1]
        return few + self.random.sample(odd, 2)

    def lines(self):
        """The lines of the script."""
        if self.is_long:
            return self.rounds()
        return self.steps_of(self.random.randint(8, 70))

    def steps_of(self, count):
        """The lines of so many steps."""
        lines = [self.step() for _ in range(count)]
        return [line for line in lines if line is not None]

    def step(self):
        """A random line, or None where there is none or it is out of bounds."""
        if self.random.random() < 0.02:
            return self.no_form()
        weights = [WEIGHTS[letter] for letter in self.letters]
        return self.within(self.steps[self.random.choices(self.letters, weights)[0]])

    def within(self, step):
        """The step's line, or None and all as it was where it is out of bounds."""
        before = self.sources.copy()
        try:
            return step()
        except OutOfBounds:
            self.sources = before
            return None

    # Long scripts

    def rounds(self):
        """The lines of a long script, a round for each of the passing sources."""
        self.most = self.random.choice([1, 2, 4])
        lines = []
        passed = 0
        for file in itertools.count(self.random.choice([100, 2**30])):
            if passed == MANY:
                return lines
            lines += self.round(file)
            passed += self.passing is not None

    def round(self, file):
        """A source comes, and leaves at the end if it is still there."""
        lines = [self.insert(Source(file=file, answer=self.random.choice("CCRDX")))]
        came = bool(self.sources.all) and self.sources.all[-1].file == file
        self.passing = len(self.sources.all) - 1 if came else None
        lines += self.steps_of(self.random.randint(0, 6))
        if self.has_passed():
            return lines
        if self.sources.plan:
            lines.append(self.set_plan([]))
        line = self.within(lambda: self.call("R", self.passing))
        return lines + [line] if line else lines

    def has_passed(self):
        return self.passing is None or not self.sources.all[self.passing].living

    # Inserts

    def timer(self):
        deadline = self.draw_time()
        if self.is_full() or deadline in self.sources.deadlines():
            return None
        return self.insert(Source(deadline=deadline, period=self.draw_period()))

    def generic(self):
        answer = self.random.choice("CCRDX")
        if "clash" in self.extras and self.random.random() < 0.2:
            return self.over(self.held_files(), answer)
        if self.is_full():
            return None
        if "shared" in self.extras and self.random.random() < 0.4:
            return self.over(self.idle_files(), answer)
        taken = [source.file for source in self.sources.living()]
        return self.over([file for file in self.files if file not in taken], answer)

    def over(self, files, answer):
        """An insert of a source over one of these files."""
        if not files:
            return None
        return self.insert(Source(file=self.random.choice(files), answer=answer))

    def insert(self, source):
        self.sources.insert(source)
        if source.is_timer():
            return f"(T {source.deadline} {source.period})"
        return f"(G {source.file} {source.answer})"

    def held_files(self):
        return [source.file for source in self.sources.files() if source.enabled]

    def idle_files(self):
        """The files of living sources that no enabled source is over."""
        held = self.held_files()
        living = [source.file for source in self.sources.files() if source.living]
        return [file for file in living if file not in held]

    def is_full(self):
        """In a long script no other source may take the slot of a passing one."""
        full = len(self.sources.living()) >= self.most
        return full or self.is_long and self.has_passed()

    # Calls on a source

    def enable(self):
        # Sources that are disabled, for the most part; also such as have left.
        numbered = list(enumerate(self.sources.all))
        able = [n for n, s in numbered if s.living and not s.enabled]
        gone = [n for n, s in numbered if not s.living]
        n = self.draw_number(able if self.random.random() < 0.85 else gone)
        return self.call("E", n)

    def update(self):
        return self.call("U", self.draw_source())

    def disable(self):
        return self.call("D", self.draw_source())

    def remove(self):
        return self.call("R", self.draw_source())

    def call(self, letter, n):
        """A call on the source of a number, if there is one."""
        if n is None:
            return None
        calls = {
            "E": self.sources.enable,
            "U": self.sources.update,
            "D": self.sources.disable,
            "R": self.sources.remove,
        }
        if n < len(self.sources.all):
            calls[letter](self.sources.all[n])
        return f"({letter} {n})"

    def draw_source(self):
        """A source's number: mostly of a living one, at times of one that has left,
        seldom a number not reached."""
        living = [n for n, s in enumerate(self.sources.all) if s.living]
        some = living if self.random.random() < 0.75 else range(len(self.sources.all))
        return self.draw_number(some)

    def draw_number(self, numbers):
        if self.random.random() < 0.02:
            return len(self.sources.all) + self.random.choice([0, 0, 1, 1000, 2**32, 2**64])
        return self.random.choice(numbers) if numbers else None

    # Plans

    def plan(self):
        """A fault behind calls that work, or any steps behind some interruptions."""
        if self.random.random() < 0.6:
            return self.set_plan(["w"] * self.random.randint(0, 5) + [self.draw_code()])
        interrupted = ["i"] * self.random.choice([0, 0, 1, 2, 5])
        some = [self.draw_step() for _ in range(self.random.choice([0, 1, 2, 3, 8]))]
        return self.set_plan(interrupted + some)

    def draw_step(self):
        return self.random.choice(["w", "w", "w", "i", self.draw_code()])

    def draw_code(self):
        """Any code, also such as stands elsewhere for another refusal or an interruption."""
        return str(self.random.choice([0, 4, 11, 12, 15, 17, 2**32 - 1]))

    def set_plan(self, steps):
        self.sources.plan = steps
        return f"(P ({' '.join(steps)}))"

    # The dispatch

    def wait(self):
        clock = self.draw_clock()
        if clock is None:
            return None
        ready = self.draw_ready()
        self.sources.dispatch(clock, ready)
        self.clock = clock
        return f"(W {clock} ({' '.join(map(str, ready))}))"

    def draw_clock(self):
        """A clock after which the deadlines still keep to the bounds."""
        for _ in range(20):
            clock = self.draw_time()
            if self.is_in_bounds(clock):
                return clock
        return None

    def is_in_bounds(self, clock):
        after = []
        for timer in [source for source in self.sources.living() if source.is_timer()]:
            if not timer.is_due(clock):
                after.append(timer.deadline)
            elif timer.period > 0:
                after.append(clock + timer.period)
        kept = [deadline for deadline in after if deadline <= LAST]
        past = len(after) - len(kept)
        return len(set(kept)) == len(kept) and (past == 0 or "far" in self.extras)

    def draw_ready(self):
        """Files of all sorts, in any order, some of them twice."""
        used = [source.file for source in self.sources.files()]
        living = [source.file for source in self.sources.files() if source.living]
        ready = []
        for _ in range(self.random.choice([0, 0, 1, 2, 3, 5, 9])):
            ready.append(self.random.choice(self.random.choice([living, used, self.files]) or [0]))
        if ready and self.random.random() < 0.2:
            ready.append(ready[0])
        return ready

    # Times

    def draw_time(self):
        """A time at or beside the clock or a deadline, or any of the script's.
        The clock may so run on, stand or run back."""
        near = self.clock if self.clock >= self.base else self.base
        known = [near, near + self.random.randint(0, self.span), *self.sources.deadlines()]
        time = self.random.choice(
            [
                self.random.choice(known) + self.random.choice([-1, 0, 0, 1]),
                near + self.random.randint(0, self.span // 2),
                self.base + self.random.randint(0, 2 * self.span),
            ]
        )
        return min(max(time, 0), LAST)

    def draw_period(self):
        kind = self.random.random()
        if kind < 0.4:
            return 0
        if kind < 0.42 and "far" in self.extras:
            return LAST
        return self.random.randint(1, self.span)

    # Lines of no form

    def no_form(self):
        letter = self.random.choice(self.letters)
        good = {
            "T": "(T 5 0)",
            "G": "(G 5 C)",
            "W": "(W 5 (1 2))",
            "P": "(P (w 7 i))",
        }.get(letter, f"({letter} 0)")
        broken = {
            "T": ["(T 5)", "(T 5 0 0)", "(T 5 -1)", "(T 18446744073709551616 0)"],
            "G": ["(G 5)", "(G 5 Q)", "(G 5 c)", "(G 5 CC)", "(G C)", "(G 4294967296 C)"],
            "W": ["(W 5)", "(W 5 1)", "(W 5 (1 2)", "(W 5 ( 1))", "(W 5 (1  2))", "(W 5 (1 ))",
                  "(W 5 (01))", "(W (1))", "(W 5 () ())", "(W 5 (x))"],
            "P": ["(P)", "(P w)", "(P ()", "(P ( w))", "(P (w  i))", "(P (w ))", "(P (07))",
                  "(P (W))", "(P (w) ())", "(P (-1))", "(P (4294967296))"],
        }.get(letter, [f"({letter})", f"({letter} x)", f"({letter} 0 0)", f"({letter} 00)"])
        return self.random.choice(
            broken
            + [
                "",
                "()",
                "(Q 1)",
                good.lower(),
                good.replace(" ", "  ", 1),
                good.replace("(", "( ", 1),
                good.replace(" ", " 0", 1),
                good.replace(" ", "", 1),
                good[1:],
                good[:-1],
                " " + good,
                good + " ",
                good + good,
            ]
        )


def make(seed, letters=ALL_LETTERS, extras=()):
    """The script of a seed, as a list of lines."""
    return Maker(seed, letters, extras).lines()


def add_arguments(parser):
    """The switches that both programs share."""
    parser.add_argument("--letters", default=ALL_LETTERS, type=letters, metavar="LETTERS")
    parser.add_argument("--extras", default=(), type=extras, metavar=",".join(EXTRAS))


def letters(text):
    if not text or set(text) - set(ALL_LETTERS):
        raise ValueError(text)
    return "".join(letter for letter in ALL_LETTERS if letter in text)


def extras(text):
    names = tuple(text.split(","))
    if set(names) - set(EXTRAS):
        raise ValueError(text)
    return names

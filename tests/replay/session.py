"""Commands one after another on one image, and what a loss of power may leave at each moment."""
import collections

from replay.judge import State, fits
from replay.losses import found_together
from replay.room import Disk

# How many contents are opened at once.
BATCH = 32


class Watched:
    """A session: its room, the state that it is in, the disk below it, and the contents that are lost."""

    def __init__(self, judge, room, image, rng=None, limit=20):
        self.judge, self.room, self.state = judge, room, State((image or b"",), ())
        self.disk, self.rng, self.limit = Disk(image), rng, limit
        self.lost, self.commands, self.moments = [], 0, 0

    def answered(self, command, done):
        """Counts a command, and looks at its status."""
        self.commands += 1
        if done.returncode != command.status:
            raise ValueError(f"{command.words}: {done.stderr}")

    def look(self, words, states, answered=False):
        """Looks at what may be found now, up to the first content that is lost: what was found that fits, with its
        state."""
        self.moments, fitting = self.moments + 1, []
        contents = found_together(self.disk.files.values(), self.limit, self.rng)
        for batch in (contents[i:i + BATCH] for i in range(0, len(contents), BATCH)):
            for content, found in zip(batch, self.judge.found(batch)):
                state = next((state for state in states if fits(found, state, answered)), None)
                if state is None:
                    self.lost.append((words, content, found, states))
                    return fitting
                fitting.append((content, State(state.stack, ()) if found.recovered else state))
        return fitting


class Session(Watched):
    """The commands run under strace, and their calls are replayed on a disk that loses what wasn't synced."""

    def __init__(self, judge, room, image, rng, limit):
        super().__init__(judge, room, image, rng, limit)
        # What may be found before a command writes; nothing is said of that behind a command with -U.
        self.may, self.fitting = [self.state], []
        room.put(self.disk.now())

    def lose_here(self, words, states, answered=False):
        if states and not self.lost:
            self.fitting += self.look(words, states, answered)

    def run(self, command, unsynced=False, until=None, left_out=()):
        """A command, killed before the call `until`. The syncs `left_out` are left out of what is replayed. A sync is
        named by its file and its number among those of the file, as J:0, and a call that writes one of the other three
        by its number alone, as W:0."""
        steps, self.fitting, seen = command.steps(self.state), [], collections.Counter()
        done, calls = self.room.trace(command.words, command.input, unsynced)
        self.answered(command, done)
        for what, letter, *words in calls:
            kind = letter if what == "sync" else "-" if what == "name" or letter == "N" else "W"
            here = f"{kind}:{seen[kind]}"
            if here == until:
                break
            if what == "sync" and not unsynced:
                self.lose_here(command.words, steps if seen["W"] else self.may)
            if here not in left_out:
                self.disk.play(what, letter, *words)
            seen[kind] += 1
        if any(int(sync[2:]) >= seen[sync[0]] for sync in left_out):
            raise ValueError(f"{command.words}: no sync {left_out}")
        if until:
            self.kill(steps, seen["W"] > 0, unsynced)
        else:
            self.answer(command.words, steps[-1], seen["W"] > 0, unsynced)

    def kill(self, steps, wrote, unsynced):
        """The command was killed here: the next one finds what was written up to now."""
        self.room.put(self.disk.now())
        [found] = self.judge.found([self.disk.now()])
        state = next((state for state in steps if fits(found, state, False)), None)
        if state is None:
            raise ValueError(f"a killed command leaves {self.disk.now()}: {found}, and not one of {steps}")
        self.state = State(state.stack, ()) if found.recovered else state
        if wrote:
            self.may = None if unsynced else steps

    def answer(self, words, state, wrote, unsynced):
        """The command has answered."""
        if self.room.get() != self.disk.now():
            raise ValueError(f"{words}: the files differ from what was replayed")
        self.state = state
        if unsynced:
            self.may = None if wrote else self.may
        elif wrote or self.disk.is_settled():
            self.lose_here(words, [state], True)
            self.may = [state]
        else:
            self.lose_here(words, self.may)

    def lose(self):
        """The power is lost in the last command, and one of the contents that may be found is gone on with."""
        found = [(content, state) for content, state in self.fitting if None not in content[:2]]
        if found:
            content, self.state = self.rng.choice(found)
            self.disk, self.may = Disk(*content), [self.state]
            self.room.put(content)

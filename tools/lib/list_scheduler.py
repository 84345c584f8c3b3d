"""What one processor does with a script, by lists: a model to compare the program's reports with. It is written from the words of
`docs/DEFINITIONS.md` and `docs/FORMATS.md`, and shares nothing with the program.
"""
import collections


class Process:
    """A process: what it is, how far it is, and its journal."""

    def __init__(self, name, program, slot):
        self.name, self.program, self.slot = name, program, slot
        self.position, self.children, self.journal = 0, 0, []

    def note(self, line):
        """One step more, with this line."""
        self.position += 1
        self.journal.append(line)


class Files:
    """The file entries: pairs of an inode, 0 if the entry is free, and its uses."""

    def __init__(self, count):
        self.entries = [[0, 0] for _ in range(count)]

    def found(self, inode):
        """The first entry with this inode, or None."""
        return next((i for i, entry in enumerate(self.entries) if entry[0] == inode), None)

    def open(self, inode):
        at = self.found(inode)
        if at is None:
            at = self.found(0)
        if at is None:
            return f"open {inode} no-entry"
        self.entries[at] = [inode, self.entries[at][1] + 1]
        return f"open {inode} entry {at}"

    def close(self, inode):
        at = self.found(inode)
        if at is None:
            return f"close {inode} none"
        uses = self.entries[at][1] - 1
        self.entries[at] = [inode if uses > 0 else 0, uses]
        return f"close {inode} entry {at}"

    def stat(self, inode):
        at = self.found(inode)
        return f"stat {inode} none" if at is None else f"stat {inode} uses {self.entries[at][1]}"


class ListScheduler:
    """The lists that the processor works on."""

    def __init__(self, script):
        self.script = script
        self.ready = collections.deque(Process((i,), program, i) for i, program in enumerate(script["start"]))
        self.free = collections.deque(range(len(script["start"]), script["slots"]))
        self.counts = list(script["semaphores"])
        self.sleepers = [collections.deque() for _ in self.counts]
        self.files = Files(script["files"])
        self.births, self.is_shut, self.ended, self.halted = 0, False, [], []

    def enter_ready(self, process):
        """A process becomes ready, or halts."""
        (self.halted if self.is_shut else self.ready).append(process)

    def up(self, semaphore):
        if self.sleepers[semaphore]:
            woken = self.sleepers[semaphore].popleft()
            woken.note(f"down {semaphore}")
            self.enter_ready(woken)
        else:
            self.counts[semaphore] += 1
        return f"up {semaphore}"

    def spawn(self, parent, program):
        if self.births == self.script["births"]:
            return "spawn no-birth"
        if not self.free:
            return "spawn no-slot"
        child = Process((*parent.name, parent.children), program, self.free.popleft())
        self.births += 1
        parent.children += 1
        self.enter_ready(child)
        return "spawn " + ".".join(map(str, child.name))

    def line_of(self, process, op, argument):
        """Takes a step that does not put the process to sleep, and returns its line."""
        if op in ("open", "close", "stat"):
            return getattr(self.files, op)(argument)
        if op == "up":
            return self.up(argument)
        if op == "spawn":
            return self.spawn(process, argument)
        self.is_shut = self.is_shut or op == "shutdown"
        return op if argument is None else f"{op} {argument}"

    def run_turn(self, process):
        """One turn of a process."""
        steps = self.script["programs"][process.program]
        for _ in range(self.script["quantum"]):
            if process.position == len(steps):
                break
            op, argument = (*steps[process.position], None)[:2]
            if op == "down":
                if self.counts[argument] == 0:
                    self.sleepers[argument].append(process)
                    return
                self.counts[argument] -= 1
            process.note(self.line_of(process, op, argument))
            if op == "yield":
                break
        if process.position == len(steps):
            self.ended.append(process)
            self.free.append(process.slot)
        else:
            self.enter_ready(process)

    def report(self):
        """Runs the script to its end. The exit status and the report."""
        while self.ready:
            self.run_turn(self.ready.popleft())
        asleep = [process for sleepers in self.sleepers for process in sleepers]
        halted, stuck = (self.halted + asleep, []) if self.is_shut else (self.halted, asleep)
        rows = [(it, outcome) for all, outcome in ((self.ended, "ended"), (halted, "halted"), (stuck, "stuck")) for it in all]
        lines = []
        for it, outcome in sorted(rows, key=lambda row: row[0].name):
            lines.append(f"process {'.'.join(map(str, it.name))} program {it.program} slot {it.slot} {outcome}")
            lines += [f"  {line}" for line in it.journal]
        lines += [f"file {i} inode {inode} uses {uses}" for i, (inode, uses) in enumerate(self.files.entries) if inode != 0]
        lines.append(f"births {self.births} of {self.script['births']}")
        told = f" halted {len(halted)}" if self.script["version"] == 2 else ""
        lines.append(f"ended {len(self.ended)} stuck {len(stuck)}{told}")
        return 3 if stuck else 0, "\n".join(lines) + "\n"

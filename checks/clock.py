"""What steps in lanes print, by a clock that goes moment by moment and looks each time at all that has not begun; and plans
that are drawn, the same each time."""

import json
from collections import Counter, namedtuple

# A step of a change: what it does, how it ends, and what the script says of it.
Step = namedtuple("Step", "action said")
# An object that is refreshed or read before a plan: which of both, what the script says of it, and the names that it depends on.
Object = namedtuple("Object", "is_read said names")
# Steps of a change that go on without a break: its number, the first of them, and the one behind them.
Turn = namedtuple("Turn", "change first end")
COUNTED = {"create": "add", "update": "change", "delete": "remove"}

ACTIONS = ([["create"]] * 6 + [["update"], ["delete"], ["read"]] + [["delete", "create"]] * 3 + [["create", "delete"]] * 3
           + [["no-op"]])
SPANS = [{"seconds": seconds} for seconds in (0, 0, 0, 1, 1, 1, 2, 2, 3, 5, 10, 11, 25)]
FAILED = {"failed": {"summary": "x"}}
STEPS = [*SPANS, {"seconds": 1, **FAILED}, {"seconds": 0, "warning": {"summary": "x"}}, {"seconds": 2, "warning": {"summary": "x"}}]
PROVISIONERS = [
    {"seconds": 2, "provisioners": [{"provisioner": "a", "seconds": 3, "output": ["x", "y"]}]},
    {"seconds": 0, "provisioners": [{"provisioner": "a", "seconds": 0}, {"provisioner": "b", "seconds": 1}]},
    {"seconds": 5, "provisioners": [{"provisioner": "a", "seconds": 7}, {"provisioner": "b", "seconds": 1}]},
    {"seconds": 1, "provisioners": [{"provisioner": "a", "seconds": 1, **FAILED}]},
]
CREATES = [*SPANS[1:12], {"seconds": 12, **FAILED}, *PROVISIONERS]


class Draws:
    """Numbers below 16, as if they were drawn."""

    def __init__(self, state):
        self.state = state

    def next(self):
        self.state = (self.state * 6_364_136_223_846_793_005 + 1_442_695_040_888_963_407) % 2**64
        return self.state >> 60


def address(number):
    """The address of a change."""
    return f"null_resource.r{number}"


def drawn_waits(draws, order, number, second):
    """What a step waits for: a change before its own in an order, or, where it is the second, the first step of any."""
    place, waits = lambda it: (it * (order % 6 + 1) + order) % 7, []
    for other in (draws.next(), draws.next()):
        before, last = place(other) < place(number), draws.next() < 8
        if order < 12 and other < 6 and (before or second):
            waits.append({"address": address(other), **({} if before and last else {"step": 0})})
    return waits


def drawn_changes(draws):
    """Six changes, each a list of its steps. In a quarter of all orders no step waits."""
    order, changes = draws.next(), []
    for number in range(6):
        actions = ACTIONS[draws.next()]
        said = CREATES if actions == ["create"] else STEPS
        changes.append([Step(action, {**said[draws.next()], "after": drawn_waits(draws, order, number, second)})
                        for second, action in enumerate(actions) if action != "no-op"])
    return changes


def plan_of(changes):
    """The plan of the changes."""
    def planned(number, steps):
        name, actions = f"r{number}", [step.action for step in steps] or ["no-op"]
        return {"address": address(number), "mode": "managed", "type": "null_resource", "name": name, "change": {"actions": actions}}
    return json.dumps({"format_version": "1.2", "terraform_version": "1.9.0",
                       "resource_changes": [planned(number, steps) for number, steps in enumerate(changes)]}).encode()


def script_of(changes):
    """The script of the changes."""
    return json.dumps({"changes": [{"address": address(number), "steps": [step.said for step in steps]}
                                   for number, steps in enumerate(changes)]}).encode()


def name_of(number, is_read):
    """The name of an object. Two neighbours have one, unless one alone is read."""
    return f"{'data.' * is_read}a_b.n{number // 2}"


def drawn_objects(draws):
    """Six objects. In a quarter of all orders they may wait in a circle."""
    order, objects = draws.next(), []
    reads = [draws.next() < 4 for _ in range(6)]
    for number, is_read in enumerate(reads):
        others = [it for it in (draws.next(), draws.next()) if it < 6 and (it < number or order < 4)]
        said = {"seconds": (0, 0, 0, 1, 1, 2, 3, 5, 10, 11, 25, 0, 0, 1, 4, 20)[draws.next()], **(FAILED if draws.next() == 0 else {})}
        objects.append(Object(is_read, said, sorted({name_of(it, reads[it]) for it in others})))
    return objects


def state_of(objects):
    """A plan of no change that has these objects in its prior state."""
    resources = [{"address": f"{name_of(number, it.is_read)}[{number}]", "mode": "data" if it.is_read else "managed", "type": "a_b",
                  "name": f"n{number // 2}", "index": number, "depends_on": it.names} for number, it in enumerate(objects)]
    return json.dumps({"format_version": "1.2", "prior_state": {"values": {"root_module": {"resources": resources}}}}).encode()


def planning_of(objects):
    """A script of the objects, the last first."""
    said = [{"address": f"{name_of(number, it.is_read)}[{number}]", **it.said} for number, it in enumerate(objects)]
    return json.dumps({"changes": [], "planning": said[::-1]}).encode()


def shown_of_objects(objects, lanes):
    """What is printed of the objects, each line with its second, and when the last of them ends: by the clock, for which each is a
    step that waits for all of the names that it depends on, but for its own."""
    names = [name_of(number, it.is_read) for number, it in enumerate(objects)]
    after = [[{"address": address(other), "step": 0} for other, name in enumerate(names) if name in it.names and name != names[number]]
             for number, it in enumerate(objects)]
    lines, _ = Clock([[Step("read", {**it.said, "after": waits})] for it, waits in zip(objects, after)], lanes, None).run()
    printed = []
    for at, kind, where, _ in lines:
        number = int(where[-1])
        is_read = objects[number].is_read
        if kind != "apply_errored" and (is_read or kind != "apply_progress"):
            printed.append((at, kind if is_read else kind.replace("apply", "refresh"), f"{names[number]}[{number}]"))
    return printed, max((at for at, *_ in lines), default=0)


def course(step, halted):
    """What a step prints, with the seconds after its begin; how long it takes; and whether it was done."""
    if step.action == halted:
        return [], 0, False
    action, seconds, failed = {"action": step.action}, step.said["seconds"], "failed" in step.said
    lines = [(0, "apply_start", action)]
    for it in step.said.get("provisioners", []):
        named, end = {"provisioner": it["provisioner"]}, seconds + it["seconds"]
        lines.append((seconds, "provision_start", named))
        lines += [(end, "provision_progress", {**named, "output": text}) for text in it.get("output", [])]
        seconds, failed = end, "failed" in it
        lines.append((seconds, "provision_errored" if failed else "provision_complete", named))
        if failed:
            break
    progress = [(after, "apply_progress", {**action, "elapsed_seconds": after}) for after in range(10, seconds, 10)]
    lines = sorted([*progress, *lines], key=lambda line: line[0])
    end = "apply_errored" if failed else "apply_complete"
    return [*lines, (seconds, end, {**action, "elapsed_seconds": seconds})], seconds, not failed


class Clock:
    """The lanes of a plan. A moment is a second and a round within it."""

    def __init__(self, changes, lanes, halted):
        self.changes, self.halted = changes, halted
        self.free = [(0, 0)] * lanes
        self.begun, self.printed, self.counts = {}, [], Counter()
        self.left = [turn for number, steps in enumerate(changes) for turn in self.turns_of(number, steps)]

    def turns_of(self, number, steps):
        """A second step that waits for a step makes room for others before it."""
        if len(steps) == 2 and any(self.changes[int(it["address"][-1])] for it in steps[1].said["after"]):
            return [Turn(number, 0, 1), Turn(number, 1, 2)]
        return [Turn(number, 0, len(steps))] * bool(steps)

    def behind(self, moment, turn, end):
        """The moment at which the steps of a turn before that one are done, or nothing where one of them never is."""
        for step in self.changes[turn.change][turn.first:end]:
            _, seconds, is_done = course(step, self.halted)
            if not is_done:
                return None
            moment = (moment[0] + seconds, 0) if seconds else moment
        return moment

    def done(self, change, step):
        """The moment behind which that step is done, if it is known."""
        for turn, moment in self.begun.items():
            if turn.change == change and turn.first <= step < turn.end:
                return self.behind(moment, turn, step + 1)
        return None

    def ready(self, turn):
        """The moment from which on a turn may begin, if it is known."""
        waits = [(turn.change, 0)] * turn.first
        for it in self.changes[turn.change][turn.first].said["after"]:
            other = int(it["address"][-1])
            if self.changes[other]:
                waits.append((other, it.get("step", len(self.changes[other]) - 1)))
        moments = [self.done(*wait) for wait in waits]
        return None if None in moments else max([(0, 0), *((second, number + 1) for second, number in moments)])

    def begin(self, turn, lane, now):
        """A turn begins in a lane."""
        self.begun[turn], moment = now, now
        self.left.remove(turn)
        for step in self.changes[turn.change][turn.first:turn.end]:
            lines, seconds, is_done = course(step, self.halted)
            for after, kind, hook in lines:
                at = moment[0] + after
                self.printed.append((at, now[1] if at == now[0] else 0, lane, (kind, address(turn.change), hook)))
            moment = (moment[0] + seconds, 0) if seconds else moment
            if not is_done:
                break
            self.counts[COUNTED.get(step.action)] += 1
        self.free[lane] = moment

    def show(self, now):
        """All that begins at a moment, the turn that was ready first in the lane that was free first; whether anything does."""
        begins = False
        while True:
            ready = [(moment, turn) for turn in self.left if (moment := self.ready(turn)) is not None and moment <= now]
            free = [(moment, lane) for lane, moment in enumerate(self.free) if moment <= now]
            if not ready or not free:
                return begins
            self.begin(min(ready, key=lambda it: it[0])[1], min(free)[1], now)
            begins = True

    def run(self):
        """What is printed of steps, with the second of each line, and how many objects were added, changed and removed."""
        second = 0
        while second is not None:
            number = 0
            while self.show((second, number)) or number == 0:
                number += 1
            second = min((at for at, *_ in self.printed if at > second), default=None)
        lines = [(at, *line) for at, _, _, line in sorted(self.printed, key=lambda it: it[:3])]
        return lines, [self.counts[it] for it in COUNTED.values()]

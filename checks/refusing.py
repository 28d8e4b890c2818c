"""What the scripts that refuse a program something share: the examples, how it is run, and how its end is judged."""

import json
import os
import re
import subprocess
import tempfile
from collections import Counter, namedtuple
from concurrent.futures import ThreadPoolExecutor

HERE = os.path.dirname(os.path.abspath(__file__))
PROGRAM = f"{HERE}/../out/applystream"
CASES = f"{HERE}/../examples/cases"
MEMORY = b"applystream: out of memory\n"
THREAD = b"applystream: a worker could not be started\n"
OUTPUT = b"applystream: the output could not be written\n"
# The types of the messages that sum up a stream. In Terraform's form outputs stand behind the summary, and neither behind an
# error.
SUMS = "change_summary", "outputs"
# The types of the messages that stand before an apply, whoever applies.
BEFORE = "version", "planned_change", "refresh_start", "refresh_complete", "resource_drift"
# What is said for the refusal that was met first.
SAID = {"memory": MEMORY, "memory_of_thread": THREAD, "thread": THREAD, "output": OUTPUT}

Ended = namedtuple("Ended", "status printed said told")


def compile_library(folder):
    """The library that refuses, compiled into the folder."""
    library = f"{folder}/refuse.so"
    subprocess.run(["cc", "-O1", "-shared", "-fPIC", "-o", library, f"{HERE}/refuse.c"], check=True)
    return library


def cases_with(file):
    """The names, a group and a name in it, of the examples in whose folders such a file stands."""
    return sorted(f"{group}/{name}" for group in os.listdir(CASES) for name in os.listdir(f"{CASES}/{group}")
                  if os.path.exists(f"{CASES}/{group}/{name}/{file}"))


def examples():
    """The names of the examples that have a plan."""
    return cases_with("plan.json")


def checked_streams():
    """The names of the examples that check a stream."""
    return sorted(cases_with("input.jsonl") + cases_with("input.of"))


def validations():
    """What `validate` is tried on: the name, the words, the plan, and the folder in which they stand."""
    top = f"{HERE}/../examples/validations"
    for name in sorted(os.listdir(top)):
        folder = f"{top}/{name}"
        parts = {it: f"{folder}/{it}" for it in os.listdir(folder)}
        words = ["validate"]
        if "args.txt" in parts:
            with open(parts["args.txt"]) as text:
                words += text.read().splitlines()
        if "script.json" in parts:
            words += ["--script", "script.json"]
        plan = parts.get("plan.json")
        if "plan.of" in parts:
            with open(parts["plan.of"]) as path:
                plan = f"{HERE}/../examples/{path.read().strip()}"
        with open(plan, "rb") as text:
            yield f"validations/{name}", words, text.read(), folder


# Recordings that `record` is refused memory and writes on: of a plan alone and with its graph, of streams with and without a graph, with
# warnings, and refused ones.
RECORDED = ("plan_and_graph", "failed_with_graph", "update_vanishes", "precondition", "cut_off", "a_log", "queue_p1", "two_runs", "other_plan",
            "wrong_graph_apply")


def recordings():
    """What `record` is tried on: the name, the words, standard input, and the folder in which they stand. A stream is named, and given."""
    for name in RECORDED:
        folder = f"{HERE}/../examples/recordings/{name}"
        with open(f"{folder}/args.txt", encoding="utf-8") as text:
            words = ["record", *text.read().splitlines()]
        yield f"recordings/{name}", words, b"", folder
        if words[-1] in ("stream.jsonl", "job.log"):
            with open(f"{folder}/{words[-1]}", "rb") as stream:
                yield f"recordings/{name}, given", words[:-1], stream.read(), folder


def folder_of(name):
    """The folder of an example, in which the program runs: its arguments may name files there."""
    return f"{CASES}/{name}"


def plan_of(name):
    """The plan of an example, or the stream that it checks."""
    given = f"{CASES}/{name}/input.of"
    if os.path.exists(given):
        with open(given) as path, open(f"{CASES}/{name}/{path.read().strip()}", "rb") as text:
            return text.read()
    for given in "plan.json", "input.jsonl":
        if os.path.exists(f"{CASES}/{name}/{given}"):
            with open(f"{CASES}/{name}/{given}", "rb") as text:
                return text.read()


def arguments_of(name):
    """The arguments of an example."""
    arguments = []
    if os.path.exists(f"{CASES}/{name}/args.txt"):
        with open(f"{CASES}/{name}/args.txt", newline="\n") as text:
            arguments = [line.removesuffix("\n") for line in text]
    if os.path.exists(f"{CASES}/{name}/script.json"):
        arguments += ["--script", "script.json"]
    return arguments


def run(program, arguments, plan, folder=None, **environment):
    """How the program ends, what it printed and said, and what was refused and written on the way. The plan comes from
    a file: how much a read of a pipe gives differs from run to run, and with it how often memory is asked for. A program
    that has not ended after two minutes has no status. It runs in the folder, where one is named."""
    with open(os.memfd_create("told"), "rb") as told, open(os.memfd_create("plan"), "r+b") as given:
        given.write(plan)
        given.seek(0)
        try:
            ended = subprocess.run(
                [program, *arguments],
                stdin=given,
                cwd=folder,
                capture_output=True,
                env={**environment, "TOLD": str(told.fileno())},
                pass_fds=[told.fileno()],
                timeout=120,
            )
        except subprocess.TimeoutExpired as hung:
            return Ended(None, hung.stdout or b"", b"it hangs", [])
        told.seek(0)
        steps = [line.decode().split() for line in told]
    return Ended(ended.returncode, ended.stdout, ended.stderr, [(it[0], int(it[1]), int(it[2])) for it in steps])


def side_by_side(work, cases):
    """The answers for all cases, a processor each."""
    with ThreadPoolExecutor(os.cpu_count() or 1) as pool:
        return list(pool.map(work, cases))


def thread_memory(told):
    """The allocations that are a thread's own: the last before each thread was started, of a run in which none was
    refused."""
    return {allocations for what, _, allocations in told if what == "starts"}


def met_first(told, own=frozenset()):
    """The first refusal, or nothing. The allocations in `own` are threads' own."""
    for what, number, _ in told:
        if what == "memory" and number in own:
            return "memory_of_thread"
        if what in SAID and (what != "output" or number < 0):
            return what
    return None


def wrote_wrongly(told, faults=1):
    """What is wrong with the writes: one behind a failed one, or what is said in more writes than so many."""
    failed = False
    for what, result, _ in told:
        if what == "output" and failed:
            return "something was written behind a failed write"
        failed = failed or (what == "output" and result < 0)
    if sum(what == "faults" for what, _, _ in told) > faults:
        return "what is said went out in too many writes"
    return None


def lines_of(stream):
    """The lines of a stream as objects."""
    return [json.loads(line) for line in stream.split(b"\n")[:-1]]


def change_of(line):
    """The address of the change that a line is about, the empty text for a diagnostic that names none, and nothing for the
    lines that come first and last."""
    if "diagnostic" in line:
        return line["diagnostic"].get("address", "")
    return line.get("hook", {}).get("resource", {}).get("addr")


def is_sum_of_plan(line):
    """Whether a line sums up a plan, or tells what becomes of its outputs."""
    outputs = line.get("outputs", {}).values()
    return line.get("changes", {}).get("operation") == "plan" or any("action" in it for it in outputs)


def is_sum(line):
    """Whether a line sums up an apply, or tells its outputs."""
    return line["type"] in SUMS and not is_sum_of_plan(line)


def length_of_head(lines):
    """How many lines stand before the apply: one worker makes them, however many apply."""
    return max((number for number, line in enumerate(lines, 1) if line["type"] in BEFORE or is_sum_of_plan(line)), default=0)


def by_change(lines):
    """Each change's lines in their order, without the moments."""
    changes = {}
    for line in lines:
        address = change_of(line)
        if address is not None:
            changes.setdefault(address, []).append(json.dumps({**line, "@timestamp": ""}))
    return changes


def shared_addresses(plan):
    """The addresses of more than one object: a deposed one stands beside another."""
    try:
        changes = json.loads(plan).get("resource_changes") or []
    except (ValueError, AttributeError):
        return set()
    counted = Counter(change.get("address") for change in changes if isinstance(change, dict))
    return {address for address, count in counted.items() if count > 1}


def disorder(printed, wanted, plan, whole):
    """What is wrong with a stream of several workers, beside that of one: all of it, or what was printed up to a
    refusal."""
    if printed and not printed.endswith(b"\n"):
        return "a line is cut"
    found, known = lines_of(printed), lines_of(wanted)
    moments = [line["@timestamp"] for line in found]
    if moments != sorted(moments):
        return "moments go back"
    head = length_of_head(known)
    if found[:head] != known[: len(found[:head])]:
        return "the first lines are others"
    found, known = found[head:], known[head:]
    types = [line["type"] for line in found]
    sums = [line for line in known if is_sum(line)] if whole else []
    last = found[len(found) - len(sums) :]
    if length_of_head(found) or sum(is_sum(line) for line in found) != len(sums):
        return "the first or the last lines stand where they must not, or are missing"
    if [{**line, "@timestamp": ""} for line in last] != [{**line, "@timestamp": ""} for line in sums]:
        return "what sums up stands where it must not, or counts otherwise"
    messages = sum("hook" in line for line in found)
    if "diagnostic" in types[:messages]:
        return "a diagnostic stands before a hook's message"
    if "diagnostic" in types and messages < sum("hook" in line for line in known):
        return "a diagnostic stands there, and lines before it are missing"
    own, wanted_lines, shared = by_change(found), by_change(known), {"", *shared_addresses(plan)}
    for address, lines in own.items():
        rest = wanted_lines.get(address, [])
        # The lines of two objects with one address may come in turn, and so may diagnostics that name none.
        fits = not Counter(lines) - Counter(rest) if address in shared else lines == rest[: len(lines)]
        if not fits:
            return f"{address} has lines that are none of its own, or in another order"
    if whole and any(len(own.get(address, [])) != len(lines) for address, lines in wanted_lines.items()):
        return "lines of a change are missing"
    return None


# The options that `validate` takes too, in the order in which it is named with them, and those that say nothing new.
OF_VALIDATE = "--script", "--parallelism", "--form", "--command", "--refresh"
DEFAULTS = {"--form": "applystream", "--command": "saved", "--refresh": "true"}


def validate_line(words):
    """The second line of a refusal: the command that says where and what, with the options of the run that it takes. The
    program's own names of files need no quotes."""
    values, rest = {}, iter(words)
    for word in rest:
        name, equals, value = word.partition("=")
        if name in OF_VALIDATE:
            values[name] = value if equals else next(rest)
    for name, default in DEFAULTS.items():
        if values.get(name) == default:
            del values[name]
    # (a command has its form)
    if "--command" in values:
        values.pop("--form", None)
    options = "".join(f" {name} {values[name]}" for name in OF_VALIDATE if name in values)
    return f"applystream: applystream validate{options} says where and what\n"


def mistake(found, wanted, plan, in_order, own=frozenset(), unwritten=OUTPUT):
    """What is wrong with how a run ended in which something was refused, beside one in which nothing was; or nothing.
    The allocations in `own` are threads' own, and `unwritten` has to be said of an output that could not be written."""
    met = met_first(found.told, own)
    said = [wanted.said]
    if met == "memory":
        # The options that `validate` takes too are left out where there is no memory for them.
        said.append(re.sub(rb"(applystream validate) [^\n]*( says where and what\n)$", rb"\1\2", wanted.said))
        # And so are the prefixes that no address of the plan begins with.
        said.append(re.sub(rb"applystream: --halt-in [^\n]*\n", b"", wanted.said))
    if found.status == wanted.status and found.said in said:
        # It could do without, or nothing was refused.
        if in_order:
            return None if found.printed == wanted.printed else "another stream"
        return disorder(found.printed, wanted.printed, plan, whole=True) if wanted.printed else None
    if met is None or found.status != 3 or found.said != (unwritten if met == "output" else SAID[met]):
        return f"status {found.status} and {found.said!r} where {met} was refused first"
    if met in ("thread", "memory_of_thread") and found.printed:
        return "something was printed though a thread was refused"
    if met != "output" and found.printed and not found.printed.endswith(b"\n"):
        return "a line is cut"
    if met != "output" and any(is_sum(line) for line in lines_of(found.printed)):
        return "a summary behind a refusal"
    if in_order and not wanted.printed.startswith(found.printed):
        return "no front of the stream"
    if not in_order and met != "output":
        return disorder(found.printed, wanted.printed, plan, whole=False)
    return None

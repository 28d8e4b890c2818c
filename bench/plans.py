"""Plans and scripts for the benchmark: the same bytes each time."""

import json

TYPES = ("aws_instance", "google_compute_address", "random_pet", "azurerm_subnet")


def compact(tree):
    return json.dumps(tree, separators=(",", ":"), ensure_ascii=False)


def change(number, action):
    """A change: of four, one is in a module, one has a number and one a text as its key."""
    kind = TYPES[number % 4]
    resource = f"{kind}.item_{number}"
    if number % 4 == 1:
        resource += f"[{number}]"
    if number % 4 == 2:
        resource += f'["zone-{number}"]'
    module = f'module.net["eu-{number % 5}"]' if number % 4 == 3 else None
    tree = {
        "address": f"{module}.{resource}" if module else resource,
        "mode": "managed",
        "type": kind,
        "name": f"item_{number}",
        "change": {"actions": [action], "before": None if action == "create" else {"id": f"i-{number:08x}"}},
    }
    if module:
        tree["module_address"] = module
    if number % 4 == 1:
        tree["index"] = number
    if number % 4 == 2:
        tree["index"] = f"zone-{number}"
    return tree


def plan(changes, **others):
    return compact({"format_version": "1.2", "terraform_version": "1.9.0", "resource_changes": changes, **others})


def script(changes, seconds):
    steps = [{"seconds": seconds, "id": "i-1"}]
    return compact({"changes": [{"address": it["address"], "steps": steps} for it in changes]})


def stays(number):
    """An object of the prior state: three of four depend on the first of these."""
    tree = change(number, "update")
    before = change(number - number % 4, "update")
    return {**tree, "values": {"id": f"i-{number:08x}"}, "depends_on": [f"{before['type']}.{before['name']}"]}


def unsaved_plan(count):
    """A plan that changes none of so many objects."""
    objects = [stays(number) for number in range(count)]
    modules = {}
    for it in objects:
        modules.setdefault(it.pop("module_address", ""), []).append({name: part for name, part in it.items() if name != "change"})
    children = [{"address": module, "resources": resources} for module, resources in modules.items() if module]
    return plan([], prior_state={"values": {"root_module": {"resources": modules[""], "child_modules": children}}})


def values(number):
    """What a provider knows of a resource, of which the program reads nothing."""
    return {
        "arn": f"arn:aws:ec2:eu-central-1:{number:012}:instance/i-{number:017x}",
        "cpu_core_count": number % 64,
        "ebs_optimized": None,
        "monitoring": False,
        "price_limit": number / 7,
        "root_block_device": [{"device_name": "/dev/xvda", "encrypted": True, "volume_size": number % 500}],
        "tags": {"Name": f"item-{number}", "owner": "platform", "größe": "\u00fc\\\"\n"},
        "user_data": "#!/bin/sh\nset -eu\nexec agent --path data\n" * 3,
        "vpc_security_group_ids": [f"sg-{number * 7:017x}", f"sg-{number * 11:017x}"],
    }


def large_plan(size):
    """A plan of 2,000 creates in so many bytes: members that the program ignores fill it up."""
    changes = [change(number, "create") for number in range(2000)]
    for number, it in enumerate(changes):
        it["change"] |= {"after": values(number), "after_unknown": {"id": True, "arn": True}}
    left = size - len(plan(changes).encode())
    resources = []
    while left > 0:
        resources.append({"address": f"a.b_{len(resources)}", "values": values(len(resources))})
        left -= len(compact(resources[-1]).encode()) + 1
    return plan(changes, planned_values={"root_module": {"resources": resources}})


def plan_of_one_output(size):
    """A plan of one create whose one output has a text of so many bytes."""
    output = {"sensitive": False, "type": "string", "value": "a" * size}
    return plan([change(0, "create")], prior_state={"values": {"outputs": {"text": output}}})

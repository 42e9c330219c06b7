"""Deliveries as requests to `desk serve`, and how many random ones make a list."""
import json

from helpers import random_lists
from helpers.serving import answered, post
from helpers.trying import expect
from oracle.slow_desk import Import, Skip, Tick

LONG_LISTS = 2
FAR_LISTS = 20


def request_of(members):
    """The request that delivers what a line of a list tells."""
    if "tick" in members:
        return post("/tick", json.dumps({"at": members["tick"]}).encode())
    if "import" in members:
        return post("/imports", members["import"].encode())
    if "skip" in members:
        return post(f"/panels/{members['panel']}/skip", json.dumps({"upto": members["skip"]}).encode())
    reported = {key: value for key, value in members.items() if key != "panel"}
    return post(f"/panels/{members['panel']}/commands", json.dumps(reported).encode())


def members_of(delivery):
    """What the line of a delivery tells."""
    if isinstance(delivery, Tick):
        return {"tick": delivery.at}
    if isinstance(delivery, Import):
        return {"import": "\n".join(["calendar,entry"] + [",".join(row) for row in delivery.rows])}
    if isinstance(delivery, Skip):
        return {"panel": delivery.panel, "skip": delivery.upto}
    content = delivery.content
    return {"number": delivery.number, "panel": delivery.panel, "point": content.point, "priority": content.priority, "value": content.value}


def may_be_words(delivery, reply):
    """Whether `tick` or `import` gets this reply: they refuse by a fault, and a moment below 0 looks like an option."""
    return isinstance(delivery, (Tick, Import)) and json.loads(reply)["answer"] in ("tick", "old", "import")


def deliver(server, asked):
    for request, reply in asked:
        expect((request, server.ask(request)), (request, answered(reply)))


def deliveries_at(number):
    """How the list of this number is made."""
    if number < LONG_LISTS:
        return random_lists.long_deliveries
    return random_lists.far_deliveries if number < LONG_LISTS + FAR_LISTS else random_lists.some_deliveries

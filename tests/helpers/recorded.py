"""What a record has to hold: a list of deliveries, a line each, as a run with `--record` writes them down."""
from helpers import databases
from helpers.deliveries import deliver, members_of, request_of
from helpers.serving import serving
from helpers.trying import expect
from oracle.slow_desk import Import, delivery_line, run_of, unknown_row

NAME = "record.jsonl"
KEPT = ("--record", NAME)
FAILED = f"desk: cannot write {NAME}\n".encode()


def reaches_the_desk(building, delivery):
    """Whether a request or a run makes this delivery: an import only where the building has each calendar of its rows. What
    is sent under the name of a panel that the building lacks reaches the desk, which answers `no_panel`."""
    return not isinstance(delivery, Import) or unknown_row(building, delivery) is None


def line_of(delivery):
    return delivery_line(delivery).encode() + b"\n"


def lines_of(deliveries):
    return b"".join(line_of(each) for each in deliveries)


def bytes_of(folder):
    """What stands in the record of a folder; nothing where there is none."""
    path = folder / NAME
    return path.read_bytes() if path.exists() else b""


def found_after(folder, deliveries, unanswered=None, torn=b""):
    """The list that the record of a folder holds, which is these deliveries, and at most one more that got no reply. What
    stands after its last whole line is a beginning of that one's line, or what was torn before."""
    whole, end, rest = bytes_of(folder).rpartition(b"\n")
    lists = [list(deliveries)] + ([[*deliveries, unanswered]] if unanswered else [])
    found = next((each for each in lists if lines_of(each) == whole + end), None)
    if found is None:
        raise AssertionError(f"the record holds {whole + end!r}, wanted one of {[lines_of(each) for each in lists]!r}")
    begun = unanswered is not None and len(found) == len(deliveries) and line_of(unanswered).startswith(rest)
    if rest not in (b"", torn) and not begun:
        raise AssertionError(f"the record ends with {rest!r}, after {whole[-200:]!r}")
    return found


def in_step(folder, building, deliveries, earlier=()):
    """The record holds the list of these deliveries, and the database the tables of the earlier ones with them."""
    expect(bytes_of(folder), lines_of(deliveries))
    held = databases.held(folder)
    # a panel whose commands all wait for number 1 has a row that says no more than none
    held["panel"] = [(name, number) for name, number in held["panel"] if number > 1]
    expect(held, databases.tables_after(building, [*earlier, *deliveries]))


def goes_on(program, folder, building, listed, later, earlier=()):
    """A desk acts on more deliveries, beside the record of a list, as after all that came before."""
    before = [*earlier, *listed]
    replies = run_of(building, [*before, *later])[0][len(before):]
    with serving(program, folder, len(later), *KEPT) as server:
        deliver(server, [(request_of(members_of(each)), reply) for each, reply in zip(later, replies)])
    in_step(folder, building, [*listed, *later], earlier)

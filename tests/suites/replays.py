"""Replays of lists against the plain slow desk: of random ones over small buildings, and of every list of a few deliveries."""
import itertools
import random
import subprocess
from concurrent.futures import ThreadPoolExecutor

from helpers import random_lists
from helpers.trying import expect_none
from oracle.slow_desk import Building, Command, Content, Panel, Point, Skip, printed

ON_DISK = True
LISTS = 3000
LONG_LISTS = 12
FAR_LISTS = 60
SHORT = 3


def differs(program, folder, name, rng, building, deliveries):
    """Where the program and the definitions differ on one list, or None."""
    file, listed = folder / f"{name}.toml", folder / f"{name}.jsonl"
    file.write_text(random_lists.toml_of(building))
    listed.write_text("".join(random_lists.line_of(rng, delivery) for delivery in deliveries))
    ran = subprocess.run([program, "replay", file, listed], capture_output=True, text=True, timeout=60)
    wanted = printed(building, deliveries)
    if (ran.returncode, ran.stdout, ran.stderr) == (0, wanted, ""):
        file.unlink()
        listed.unlink()
        return None
    return f"list {name}: {file.read_text()}{listed.read_text()}wanted:\n{wanted}printed:\n{ran.stdout}{ran.stderr}"


def deliveries_at(index):
    """How the list of this place is made."""
    if index < LONG_LISTS:
        return random_lists.long_deliveries
    return random_lists.far_deliveries if index < LONG_LISTS + FAR_LISTS else random_lists.some_deliveries


def disagreement(program, folder, seed, index):
    rng = random.Random(f"{seed} {index}")
    building = random_lists.some_building(rng)
    return differs(program, folder, index, rng, building, deliveries_at(index)(rng, building))


SMALL = Building((Point("LIGHT", "binary", 0, 1, 0),), (Panel("P1", ("LIGHT",), (8, 9)), Panel("P2", ("LIGHT",), (8,))))


def short_lists():
    """Every list of a few deliveries, of two panels with numbers 1 to 3, two contents, and skips."""
    on, off = Content("LIGHT", 8, 1), Content("LIGHT", 9, 0)
    one = [Command("P1", number, content) for number in (1, 2, 3) for content in (on, off)]
    some = one + [Command("P2", 1, on), Skip("P1", 2), Skip("P1", 3), Skip("P1", 65)]
    return [list(few) for count in range(SHORT + 1) for few in itertools.product(some, repeat=count)]


def list_about_the_last_thousand():
    """The next number is 1,281, so those below 281 are forgotten; of those asked here 257 and 321 were accepted."""
    on, off = Content("LIGHT", 8, 1), Content("LIGHT", 9, 0)
    asked = [Command("P1", number, content) for number in (1, 257, 279, 280, 281, 282, 321) for content in (on, off)]
    return random_lists.blocks("P1", 20, on) + asked


def random_lists_print_what_the_definitions_say(program, folder):
    seed = random.randrange(10**9)
    with ThreadPoolExecutor(4) as pool:
        reported = pool.map(lambda index: disagreement(program, folder, seed, index), range(LISTS))
        expect_none([text for text in reported if text is not None])


def every_short_list_prints_what_the_definitions_say(program, folder):
    """Those near both ends of the window too, and one about the last 1,000 numbers."""
    short = short_lists() + random_lists.near_lists() + [list_about_the_last_thousand()]
    with ThreadPoolExecutor(4) as pool:
        reported = pool.map(lambda place: differs(program, folder, f"short {place}", random.Random(place), SMALL, short[place]),
                            range(len(short)))
        expect_none([text for text in reported if text is not None])


TESTS = [random_lists_print_what_the_definitions_say, every_short_list_prints_what_the_definitions_say]

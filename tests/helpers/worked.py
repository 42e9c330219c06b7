"""The worked building, as the plain slow program has it, and lists of deliveries to it."""
from helpers.random_lists import blocks
from oracle.slow_desk import Building, Command, Content, Import, Panel, Point, Skip, Tick
from oracle.slow_schedules import HUNDREDTHS_A_DAY, Calendar, Exception_, Schedule

HOUR = HUNDREDTHS_A_DAY // 24
WEEKLY = (((8 * HOUR, 2100),), (), (), (), (), (), ((2 * HOUR + 3 * HOUR // 4, 1900),))
BUILDING = Building(
    (Point("R101-SET", "analog", 500, 3500, 1800), Point("LIGHT", "binary", 0, 1, 0)),
    (Panel("P1", ("R101-SET", "LIGHT"), (8, 10)), Panel("P2", ("R101-SET",), (9, 15))),
    "CET-1CEST,M3.5.0,M10.5.0/3",
    (Calendar("HOLIDAYS", ("2025-12-25",)),),
    (Schedule("R101-DAY", "*..*", 15, ("R101-SET",), 1600, WEEKLY, (Exception_(5, None, "HOLIDAYS", ((0, 1500),)),), False),),
)


def command(panel, number, point, priority, value):
    return Command(panel, number, Content(point, priority, value))


def light(number, value=1, panel="P1"):
    return command(panel, number, "LIGHT", 8, value)


# Two commands that wait, the skip that frees them, a late number, and the skip again.
SKIPPED = (command("P1", 2, "R101-SET", 8, 2000), command("P1", 4, "LIGHT", 10, 1), Skip("P1", 4), light(3), Skip("P1", 4))
# A tick, the next one, and its repeat.
TICKS = (Tick(174884399999), Tick(174884400000), Tick(174884400000))
HOLIDAY = Import((("HOLIDAYS", "2025-06-02"),))
OTHER = command("P2", 1, "R101-SET", 9, 2300)
# Deliveries of each kind, after which commands of both panels wait or were refused.
REFUSED = command("P2", 2, "R101-SET", 6, 2000)
EACH_KIND = (*SKIPPED, *TICKS, HOLIDAY, HOLIDAY, OTHER, REFUSED, light(7), command("P1", 6, "LIGHT", 6, 0))
# The same with the numbers of P1 far past 1,000, of which the first ones are forgotten.
PAST_1000 = (*blocks("P1", 17, Content("LIGHT", 8, 1)), *TICKS, HOLIDAY, OTHER, REFUSED, light(1091))
# 63 commands that wait for the first number.
WAITING = tuple(light(number) for number in range(2, 65))

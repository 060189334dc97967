"""The shapes of the bench's corpora that are made line by line: each function gives one line."""

import random
from collections.abc import Callable, Sequence


class Dice:
    """Random numbers. Only `random()` is used, whose sequence Python keeps for a seed."""

    def __init__(self, seed: str) -> None:
        self._random = random.Random(seed).random

    def number(self, low: int, high: int) -> int:
        """A number from `low` to `high`."""
        return low + int(self._random() * (high - low + 1))

    def digits(self, most: int) -> int:
        """A number of at most so many digits, where each count of digits is as likely."""
        return self.number(0, 10 ** self.number(1, most) - 1)

    def pick(self, choices: Sequence[str]) -> str:
        """One of these."""
        return choices[int(self._random() * len(choices))]

    def happens(self, chance: float) -> bool:
        """Whether something of this chance happens."""
        return self._random() < chance

    def percent(self) -> str:
        """A percentage with all digits of its float, as most agents write them."""
        return repr(self._random() * 100)

    def decimal(self, low: int, high: int, places: int) -> str:
        """A decimal number of so many places, as a sensor writes it."""
        sign = "-" if low < 0 and self.happens(low / (low - high)) else ""
        most = -low if sign else high
        return f"{sign}{self.number(0, most)}.{self.number(0, 10**places - 1):0{places}d}"


Shape = Callable[[Dice, int], str]
"""Gives a line with this time."""

# --- telegraf: what an agent on a server sends ------------------------------------------------------

SITES = ("ams1", "fra2", "iad3", "sjc1", "sin4", "syd2")
ROLES = ("frontend", "database", "queue", "batch", "cache", "search-index", "object-store")
VOLUMES = (
    "device=nvme0n1p1,fstype=ext4,mode=rw,path=/",
    "device=nvme1n1,fstype=xfs,mode=rw,path=/srv/data",
    "device=sdc2,fstype=ext4,mode=ro,path=/var/lib/backup",
)
# After each field: % a percentage, 0 one that is mostly nought, i an integer, z an integer that is mostly nought.
CPU = "guest:0 guest_nice:0 idle:% iowait:% irq:0 nice:% softirq:% steal:0 system:% user:%"
MEM = "active:i available:i available_percent:% buffered:i cached:i free:i total:i used:i used_percent:%"
DISK = "free:i inodes_free:i inodes_total:i inodes_used:i inodes_used_percent:% total:i used:i used_percent:%"
NET = "bytes_recv:i bytes_sent:i drop_in:z drop_out:z err_in:z err_out:z packets_recv:i packets_sent:i"


def measured(dice: Dice, kind: str) -> str:
    """A value of a field of telegraf."""
    if kind == "%" or (kind == "0" and dice.happens(0.2)):
        return dice.percent()
    if kind == "0":
        return "0"
    if kind == "z":
        return f"{dice.number(0, 99) if dice.happens(0.2) else 0}i"
    return f"{dice.number(10**7, 10 ** dice.number(8, 13))}i"


def agent_fields(dice: Dice, fields: str, start: str = "") -> str:
    """Fields of these names and kinds."""
    pairs = (field.split(":") for field in fields.split())
    return ",".join(f"{start}{name}={measured(dice, kind)}" for name, kind in pairs)


def telegraf(dice: Dice, time: int) -> str:
    server = dice.number(1, 500)
    site, role = SITES[server % 6], ROLES[server % 7]
    host = f"host=node-{server:03d}.{site}.example.net"
    common = f"rack=r{server % 48:02d},region={site[:3]}-north,role={role}"
    # The time is rounded to the ten seconds at which agents send.
    time = time // 10**10 * 10**10
    match dice.number(0, 4):
        case 0 | 1:
            core = f"cpu{dice.number(0, 63)}" if dice.happens(0.95) else "cpu-total"
            tags = f"cluster={site},cpu={core},{host},{common},team=t{server % 9}"
            return f"cpu,{tags} {agent_fields(dice, CPU, 'usage_')} {time}\n"
        case 2:
            tags = f"cluster={site},{host},os=linux,{common},service={role}-api,team=t{server % 9}"
            return f"mem,{tags} {agent_fields(dice, MEM)} {time}\n"
        case 3:
            tags = f"cluster={site},{dice.pick(VOLUMES)},{host},region={site[:3]}-north,role={role}"
            return f"disk,{tags} {agent_fields(dice, DISK)} {time}\n"
        case _:
            port = f"eth{dice.number(0, 3)}" if dice.happens(0.8) else f"veth{dice.number(0, 0xFFFFFF):06x}"
            speed = ",speed=10000i" if dice.happens(0.3) else ""
            tags = f"cluster={site},{host},interface={port},region={site[:3]}-north,role={role}"
            return f"net,{tags} {agent_fields(dice, NET)}{speed} {time}\n"


# --- iot: what a sensor sends -----------------------------------------------------------------------


def iot(dice: Dice, time: int) -> str:
    sensor = dice.number(1, 20_000)
    match dice.number(0, 3):
        case 0:
            return f"temperature,probe=p{sensor:05d} celsius={dice.decimal(-20, 90, 2)} {time}\n"
        case 1:
            fields = f"degrees={dice.decimal(-10, 40, 1)},humidity={dice.decimal(0, 99, 1)}"
            return f"climate,room=r{sensor % 900:03d} {fields} {time}\n"
        case 2:
            return f"energy,meter=e{sensor:05d} watts={dice.decimal(0, 5000, 3)} {time}\n"
        case _:
            fields = f"lat={dice.decimal(-89, 89, 6)},lon={dice.decimal(-179, 179, 6)}"
            return f"position,vehicle=v{sensor % 3000:04d} {fields} {time}\n"


# --- escapes: names and strings that need them ------------------------------------------------------

WORDS = ("pump", "inlet", "north", "flow", "level", "Größe", "débit", "valve", "流量", "tank", "outlet", "state")


def phrase(dice: Dice, least: int, most: int, between: Sequence[str]) -> str:
    """Words with something between them."""
    text = dice.pick(WORDS)
    for _ in range(dice.number(least, most) - 1):
        text += dice.pick(between) + dice.pick(WORDS)
    return text


NAME_GAPS = ("\\ ", "\\,", "\\=")
STRING_GAPS = (" ", ", ", '\\"', "=", "\\\\", " ", " ", " \\\\ ")
QUOTE_GAPS = (" ", ' \\"', '\\" ', " ")
TRUTHS = ("t", "T", "true", "True", "TRUE", "f", "F", "false", "False", "FALSE")


def quoted(dice: Dice) -> str:
    """A string, in which some quotes and backslashes are, and now and then a newline."""
    text = phrase(dice, 3, 11, STRING_GAPS)
    return f'"{text}\n{phrase(dice, 1, 4, STRING_GAPS)}"' if dice.happens(0.1) else f'"{text}"'


def mixed_value(dice: Dice) -> str:
    """Mostly a string, else a number or a truth."""
    kind = dice.number(1, 10)
    if kind < 7:
        return quoted(dice)
    if kind < 9:
        return f"{dice.number(-(10**6), 10**9)}i"
    return dice.percent() if kind < 10 else dice.pick(TRUTHS)


def escapes(dice: Dice, time: int) -> str:
    keys = sorted({phrase(dice, 1, 3, NAME_GAPS) for _ in range(dice.number(2, 4))})
    tags = "".join(f",{key}={phrase(dice, 2, 4, NAME_GAPS)}" for key in keys)
    names = (phrase(dice, 1, 3, NAME_GAPS) for _ in range(dice.number(2, 4)))
    fields = ",".join(f"{name}={mixed_value(dice)}" for name in names)
    return f"{phrase(dice, 2, 4, NAME_GAPS[:2])}{tags} {fields} {time}\n"


# --- strings: the lines of logs ---------------------------------------------------------------------

PAGES = ("/", "/cart", "/api/v1/items?sort=price&page=3", "/assets/7be1.css", "/account/settings", "/search?q=tea,pot")
BROWSERS = (
    "Mozilla/5.0 (Macintosh; Intel Mac OS X 10_15_7) AppleWebKit/605.1.15 (KHTML, like Gecko) Version/17.1",
    "Wget/1.21.4",
    "python-requests/2.31.0",
    "Mozilla/5.0 (X11; Ubuntu; Linux x86_64; rv:119.0) Gecko/20100101 Firefox/119.0",
)
CALLS = ("in Store.load (store.py:81)", "in Session.begin (session.py:204)", "in main (server.py:19)", "from worker 12")


def message(dice: Dice) -> str:
    """What a server says."""
    kind = dice.number(1, 10)
    if kind < 7:
        address = ".".join(str(dice.number(1, 254)) for _ in range(4))
        request = f'\\"{dice.pick(("GET", "HEAD", "POST"))} {dice.pick(PAGES)} HTTP/2.0\\" {dice.number(200, 503)}'
        second = f"{dice.number(0, 59):02d}"
        browser = f'\\"-\\" \\"{dice.pick(BROWSERS)}\\"'
        return f"{address} - - [14/Nov/2023:22:13:{second} +0000] {request} {dice.digits(6)} {browser}"
    if kind < 10:
        words = " ".join(dice.pick(WORDS[:5]) for _ in range(dice.number(4, 30)))
        caller = f"{dice.pick(ROLES)}.go:{dice.number(10, 900)}"
        return f"level=info caller={caller} took={dice.digits(4)}ms id={dice.number(0, 2**60):016x}, {words}"
    return f"Unhandled fault {dice.digits(4)}: " + "; ".join(dice.pick(CALLS) for _ in range(dice.number(4, 14)))


def strings(dice: Dice, time: int) -> str:
    level = dice.pick(("info", "warn", "error"))
    tags = f"app={dice.pick(ROLES)},host=web{dice.number(1, 60):02d},level={level},unit=daemon"
    numbers = f"priority={dice.number(0, 7)}i,received={time - dice.digits(9)}i,version=1i"
    return f'log,{tags} facility=3i,message="{message(dice)}",pid="{dice.digits(5)}",{numbers} {time}\n'


# --- faulty: a fifth of the lines at fault ----------------------------------------------------------

FAULTS: tuple[Callable[[str], str], ...] = (
    lambda line: line.split(" ")[0] + "\n",
    lambda line: line.split(" ")[0] + "  1700000000000000000\n",
    lambda line: "," + line,
    lambda line: line.replace(",", ",alone,", 1),
    lambda line: line.replace(",", ",empty=,", 1),
    lambda line: line.replace(",", ",=nameless,", 1),
    lambda line: line.replace(",", ",,", 1),
    lambda line: line.replace(",", ",twice=a,twice=b,", 1),
    lambda line: line.replace(" ", " bare=,", 1),
    lambda line: line.replace(" ", " bare,", 1),
    lambda line: line.replace(" ", " points=1.2.3,", 1),
    lambda line: line.replace(" ", " hex=0x1F,", 1),
    lambda line: line.replace(" ", " power=1e,", 1),
    lambda line: line.replace(" ", " large=9223372036854775808i,", 1),
    lambda line: line.replace(" ", " below=-9223372036854775809i,", 1),
    lambda line: line.replace(" ", " minus=-1u,", 1),
    lambda line: line.replace(" ", " truth=trou,", 1),
    lambda line: line.replace(" ", ' closed="so"far,', 1),
    lambda line: line[:-1] + "ns\n",
    lambda line: line[:-1] + "99999\n",
    lambda line: line[:-1] + " more\n",
    lambda line: line[: len(line) // 2] + "\n",
    lambda line: "HTTP/1.1 400 Bad Request\n",
)


def faulty(dice: Dice, time: int) -> str:
    line = (telegraf, iot, telegraf, iot, strings)[dice.number(0, 4)](dice, time)
    if dice.happens(0.2):
        # A quote that is not closed takes up the lines as far as the next quote, and so it is rare.
        if dice.happens(0.01):
            return line.replace(" ", ' open="so,', 1)
        return FAULTS[dice.number(0, len(FAULTS) - 1)](line)
    if dice.happens(0.02):
        return dice.pick(('# said: "no more"\n', "\n", "  \n")) + line
    return line.rsplit(" ", 1)[0] + "\n" if dice.happens(0.02) else line


# --- shapes of one kind each ------------------------------------------------------------------------


def short(dice: Dice, time: int) -> str:
    return f"m,t=a{dice.number(0, 9)} f={dice.number(10, 99)}i {time // 10**13}\n"


def fields50(dice: Dice, time: int) -> str:
    fields = ",".join(f"channel{place:02d}={dice.decimal(-50, 50, 2)}" for place in range(50))
    return f"scan,unit=u{dice.number(0, 99):02d} {fields} {time}\n"


def u64(dice: Dice, time: int) -> str:
    names = ("sent", "received", "dropped", "retried", "queued", "total")
    fields = ",".join(f"{name}={dice.digits(19)}u" for name in names)
    return f"counters,port=p{dice.number(0, 63):02d} {fields} {time}\n"


def booleans(dice: Dice, time: int) -> str:
    names = ("open", "locked", "heated", "lit", "armed", "online", "faulty", "tested")
    return f"door,id=d{dice.digits(4)} {','.join(f'{name}={dice.pick(TRUTHS)}' for name in names)} {time}\n"


def quotes(dice: Dice, time: int) -> str:
    said = (f'{name}="{phrase(dice, 4, 10, QUOTE_GAPS)}"' for name in ("question", "answer", "note"))
    return f"talk,room=r{dice.number(0, 99):02d} {','.join(said)} {time}\n"


def negatives(dice: Dice, time: int) -> str:
    fields = f"low=-{dice.digits(9)}i,east=-{dice.number(0, 179)}.{dice.digits(6)},drift=-{dice.digits(4)}i,gain=-0.5"
    return f"offset,axis=a{dice.number(0, 9)} {fields} -{time // 10**6}\n"


def names1(dice: Dice, time: int) -> str:
    tags = ",".join(f"{key}={dice.number(0, 9)}" for key in "abcd")
    fields = ",".join(f"{key}={dice.number(0, 9)}i" for key in "pqrs")
    return f"m,{tags} {fields} {time}\n"


def manystrings(dice: Dice, time: int) -> str:
    fields = ",".join(f'f{place:02d}="{dice.pick(WORDS)}"' for place in range(20))
    return f"states,plant=n{dice.number(0, 9)} {fields} {time}\n"


def named(*shapes: Shape) -> dict[str, Shape]:
    """The shapes by their names."""
    return {shape.__name__: shape for shape in shapes}


EVERYDAY = named(telegraf, iot, escapes, strings, faulty)
"""Shapes as they are sent."""

NARROW = named(short, fields50, u64, booleans, quotes, negatives, names1, manystrings)
"""Shapes of one kind each, which cost a reader much for their length."""

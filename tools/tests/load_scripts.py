"""Generated scripts whose maps vsm-load has to bring back, by kind and number."""
from __future__ import annotations

import random
from typing import Callable, Optional

from vsmtools import bench, loading, maps
from vsmtools.command import Fault
from vsmtools.judge import MOST_POOLS

WIDE = ["--low", "640", "--high", "256", "--history", "16"]
SMALL = ["--low", "16", "--high", "8", "--history", "16"]
WIDER = ["--low", "2048", "--high", "1024", "--history", "16"]
OTHERS = (0, 1, 15)     # registers that aren't brought back


def map_lines(shown: maps.Map) -> list[str]:
    """The lines of a map, as vsm prints them."""
    lines: list[str] = []
    for task in shown.tasks:
        lines.append(" TASK %d PARENT %d%s" % (task.number, task.parent, " CURRENT" if task.is_current else ""))
        for start in (0, 8):
            words = task.registers[start:start + 8]
            lines.append("  R%d" % start + "".join(" %08X" % word for word in words))
    for subpool in shown.subpools:
        lines.append(" SUBPOOL %d OWNER %d SHARERS %s" % (subpool.number, subpool.owner, maps.sharers(subpool)))
        lines += ["  EXTENT %08X %08X" % (it.start, it.length) for it in subpool.extents]
        lines += ["  FREE %08X %08X" % (it.start, it.length) for it in subpool.free]
    for pool in shown.cell_pools:
        lines.append(" CELLPOOL %s SUBPOOL %d OWNER %d SIZE %d PRIMARY %d SECONDARY %d LOC %d%s" % (
            pool.name, pool.subpool, pool.owner, pool.size, pool.primary, pool.secondary, pool.location,
            "" if pool.header is None else " HDR '%s'" % pool.header))
        lines += ["  EXTENT %08X %08X" % (it.start, it.length) for it in pool.extents]
        lines += ["  FREECELL %08X" % cell for cell in pool.free_cells]
    lines.append(" PAGES LOW %d OF %d HIGH %d OF %d" % (
        shown.low_assigned, shown.low_pages, shown.high_assigned, shown.high_pages))
    lines.append(" BYTES TAKEN %d FREE %d" % (shown.taken, shown.free))
    lines += [" NAME %s %08X" % (it.name, it.word) for it in shown.names]
    lines.append(" HISTORY KEPT %d OF %d" % (shown.kept, shown.history))
    return lines


class Plain:
    """What a person writes: areas, cell pools and tasks that are made, used, and mostly released again."""

    def __init__(self, seed: int) -> None:
        self.chance, self.tasks, self.lines = random.Random(seed), [1], []
        self.areas: list[str] = []       # their RELEASEs
        self.pools: list[str] = []
        self.made = 0

    def obtain(self) -> None:
        name, length = "A%d" % self.made, self.chance.choice((8, 24, 80, 256, 1000, 4096, 5000, 12288))
        rest = "LENGTH=%d,ADDR=%s,SP=%d" % (length, name, self.chance.choice((0, 0, 1, 1, 7)))
        more = self.chance.choice(("", "", ",LOC=31", ",BNDRY=PAGE", ",ADDR=(%d)" % self.chance.randint(2, 12)))
        wanted = rest.replace(",ADDR=" + name, more) if "ADDR" in more else rest + more
        self.lines.append(" STORAGE OBTAIN," + wanted)
        if wanted != rest and "ADDR" in more:
            rest = rest.replace("ADDR=" + name, more[1:])
        self.areas.append(" STORAGE RELEASE," + rest)

    def release(self) -> None:
        if self.areas:
            self.lines.append(self.areas.pop(self.chance.randrange(len(self.areas))))

    def pool(self) -> None:
        if len(self.pools) > 2:
            self.lines.append(" CPOOL DELETE,CPID=" + self.pools.pop(0))
        self.pools.append("Q%d" % self.made)
        self.lines.append(" CPOOL BUILD,PCELLCT=%d,SCELLCT=%d,CSIZE=%d,CPID=%s,SP=%d%s" % (
            self.chance.randint(1, 20), self.chance.randint(1, 8), 4 * self.chance.randint(1, 300), self.pools[-1],
            self.chance.choice((0, 3)), self.chance.choice(("", ",LOC=31", ",HDR='X'"))))

    def cell(self) -> None:
        if self.pools:
            name = self.chance.choice(self.pools)
            for _ in range(self.chance.randint(1, 9)):
                self.lines.append(" CPOOL GET,CPID=%s,CELL=C%d" % (name, self.chance.randrange(6)))
            self.lines.append(" CPOOL FREE,CPID=%s,CELL=C%d" % (name, self.chance.randrange(6)))

    def task(self) -> None:
        if len(self.tasks) < 8:
            self.tasks.append(len(self.tasks) + 1)
            self.lines.append(" ATTACH EP=WORK" + self.chance.choice(("", ",SHSPV=1", ",GSPV=7", ",SZERO=NO")))
        self.lines.append(" RUN %d" % self.chance.choice(self.tasks))

    def end(self) -> None:
        self.lines.append(self.chance.choice((" ENDTASK", " BACK 1", " STORAGE RELEASE,SP=1", " DETACH (1)")))

    def script(self) -> str:
        steps = [self.obtain] * 6 + [self.release] * 4 + [self.cell] * 3 + [self.pool, self.task, self.task, self.end]
        for self.made in range(self.chance.randint(10, 60)):
            self.chance.choice(steps)()
        return "".join(line + "\n" for line in self.lines)


def plain_script(seed: int) -> str:
    return Plain(seed).script()


def family_attach(chance: random.Random, style: str, known: int, owns: float) -> list[str]:
    """An ATTACH in a chain, a star, a bush or anywhere, with a gift and a share now and then."""
    task = {"chain": known, "star": 1, "bush": chance.randint(max(1, known // 3), known // 2 + 1),
            "mixed": chance.randint(1, known)}[style]
    given, shared = chance.sample(range(1, 5), 2)
    return [" RUN %d" % task, " ATTACH EP=A%s%s%s" % (
        ",GSPV=%d" % given if chance.random() < owns else "", ",SHSPV=%d" % shared if chance.random() < 0.5 else "",
        ",SZERO=NO" if chance.random() < owns else "")]


def family_request(chance: random.Random) -> str:
    """A request for storage or a cell."""
    subpool, pool, name = chance.randint(0, 4), "C%d" % chance.randrange(300), "P%d" % chance.randrange(9)
    side, length = chance.choice((24, 31)), chance.choice((8, 24, 400, 4096, 5000))
    return chance.choice((
        " STORAGE OBTAIN,LENGTH=%d,SP=%d,COND=YES,LOC=%d" % (length, subpool, side),
        " STORAGE OBTAIN,LENGTH=%d,SP=%d,COND=YES,LOC=%d,ADDR=%s" % (length, subpool, side,
                                                                     chance.choice((name, "(5)", "(9)"))),
        " STORAGE RELEASE,LENGTH=8,ADDR=%s,SP=%d,COND=YES" % (chance.choice((name, "(5)", "(1)")), subpool),
        " GETMAIN VRC,LV=(%d,8),SP=%d" % (chance.choice((16, 9000, 30000)), subpool),
        " CPOOL BUILD,PCELLCT=%d,CSIZE=%d,CPID=%s,SP=%d,LOC=%d" % (
            chance.choice((1, 3, 9)), chance.choice((4, 12, 100, 1000)), pool, subpool, side),
        " CPOOL GET,CPID=%s%s" % (pool, chance.choice(("", ",CELL=(7)"))),
        " CPOOL DELETE,CPID=%s" % pool))


def family_script(seed: int) -> str:
    """Tasks until there are 64, some of which end again, and what they request meanwhile."""
    chance, known, lines = random.Random(seed), 1, []
    style, owns = ("chain", "star", "bush", "mixed")[seed % 4], chance.choice((0.1, 0.4, 0.8))
    works, ends = chance.choice((0.1, 0.3, 0.45)), chance.choice((0, 0, 0.01, 0.04))
    for _ in range(400):
        kind = chance.random()
        if kind < 0.45:
            lines += family_attach(chance, style, known, owns)
            known = min(64, known + 1)
        elif kind < 0.45 + works:
            lines += [" RUN %d" % chance.randint(1, known)] + [family_request(chance) for _ in range(2)]
        elif kind > 1 - ends:
            lines += [" RUN %d" % chance.randint(1, known), chance.choice((" ENDTASK", " DETACH (1)"))]
    return "".join(line + "\n" for line in lines)


def pools_script(seed: int) -> str:
    """Cell pools of task 1 that are built and deleted, and then as many as there can be, or nearly."""
    chance, there, lines = random.Random(seed), [], []
    sizes = chance.choice(((1000, 4096), (8, 16, 400, 1000, 3000), (40, 48, 2000, 4088), (4000, 4096, 24)))
    most, goes = chance.choice((256, 256, 256, 255, 254)), chance.choice((0.1, 0.3, 0.45))
    sides, subpools = chance.choice(((24,), (24, 31))), chance.choice(((0,), (0, 5)))
    steps = chance.choice((300, 700, 1500))
    for k in range(steps + 2 * MOST_POOLS):
        if there and (len(there) >= MOST_POOLS or k < steps and chance.random() < goes):
            lines.append(" CPOOL DELETE,CPID=%s" % there.pop(chance.randrange(len(there))))
        elif k < steps or len(there) < most:
            there.append("C%d" % k)
            lines.append(" CPOOL BUILD,PCELLCT=%d,CSIZE=%d,CPID=C%d,SP=%d,LOC=%d" % (
                chance.choice((1, 1, 1, 3, 9)), chance.choice(sizes), k, chance.choice(subpools), chance.choice(sides)))
    return "".join(line + "\n" for line in lines)


def small_task(chance: random.Random) -> str:
    given, shared = chance.randint(1, 3), chance.randint(1, 3)
    return chance.choice((
        "RUN %d" % chance.randint(1, 6), "RUN %d" % chance.randint(1, 6), "DETACH %d" % chance.randint(2, 6),
        "ENDTASK", *("ATTACH EP=A%s%s%s" % (chance.choice(("", ",GSPV=%d" % given)), chance.choice(
            ("", ",SHSPV=%d" % shared)), chance.choice(("", ",SZERO=NO"))) for _ in range(3))))


def small_request(chance: random.Random) -> str:
    subpool, pool, name = chance.randint(0, 3), "C%d" % chance.randrange(6), "P%d" % chance.randrange(4)
    side, length = chance.choice((24, 31)), chance.choice((8, 16, 40, 1000, 2048, 4088, 4096, 5000, 8192))
    start = chance.choice((0x6000, 0x7000, 0x8000, 0x9000, 0x8000000, 0x8001000)) + chance.choice((0, 8, 16, 2048))
    build = "CPOOL BUILD,PCELLCT=%d,CSIZE=%d,CPID=%s,SP=%d,LOC=%d" % (
        chance.choice((1, 1, 2, 3)), chance.choice((4, 8, 12, 100, 1000, 4088, 4096)), pool, subpool, side)
    return chance.choice((
        "STORAGE OBTAIN,LENGTH=%d,SP=%d,LOC=%d,COND=YES%s" % (
            length, subpool, side, chance.choice(("", ",ADDR=" + name, ",ADDR=(%d)" % chance.randint(2, 12)))),
        "GETMAIN VRC,LV=(%d,8),SP=%d" % (chance.choice((16, 9000, 30000)), subpool),
        "STORAGE RELEASE,LENGTH=%d,ADDR=X'%X',SP=%d,COND=YES" % (chance.choice((8, 40, 1000, 4096)), start, subpool),
        "STORAGE RELEASE,SP=%d" % max(1, subpool), build, build,
        "CPOOL GET,CPID=%s%s" % (pool, chance.choice(("", ",CELL=(7)", ",CELL=" + name))),
        "CPOOL FREE,CPID=%s,CELL=(%d)" % (pool, chance.choice((1, 7))), "CPOOL DELETE,CPID=" + pool))


def small_script(seed: int) -> str:
    """Statements of all kinds in regions of few pages."""
    chance = random.Random(seed)
    return "".join(" %s\n" % (small_task(chance) if chance.random() < 0.4 else small_request(chance))
                   for _ in range(chance.choice((8, 20, 40, 80, 160))))


KINDS: dict[str, tuple[Callable[[int], str], list[str]]] = {
    "plain": (plain_script, []), "family": (family_script, WIDE), "pools": (pools_script, WIDER),
    "small": (small_script, SMALL),
}


def without_others(lines: list[str]) -> list[str]:
    """The lines of a map except HISTORY, with registers 0, 1 and 15 as 0."""
    found = []
    for line in lines[:-1]:
        words = line.split(" ")
        if line.startswith(("  R0", "  R8")):
            first = int(words[2][1:])
            words = words[:3] + ["00000000" if first + k in OTHERS else word for k, word in enumerate(words[3:])]
        found.append(" ".join(words))
    return found


def told(program: str, options: list[str], lines: list[str]) -> Optional[str]:
    """What's wrong with the script of a map; None if it makes the map."""
    try:
        script = loading.Loader(maps.parse_map(lines), "map").load()
    except Fault as fault:
        return str(fault)
    made = bench.run(program, options, "".join(line + "\n" for line in script + [" MAP"]).encode()).answers
    refused = next((it for it in made if it.is_refused), None)
    if refused is not None:
        return "line %d is answered %s" % (refused.line, refused.text)
    return None if without_others(list(made[-1].rest)) == without_others(lines) else "another map"


def map_of(program: str, kind: str, seed: int) -> list[str]:
    """The map after a generated script."""
    write, options = KINDS[kind]
    return list(bench.run(program, options, (write(seed) + " MAP\n").encode()).answers[-1].rest)

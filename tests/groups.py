#!/usr/bin/env -S python3 -B
"""groups.py PROGRAM [TEST ..]
What `lispd server --database --group N` makes of datagrams that wait: a group of them takes one sync, has no more than N, and of one
address half of them while others wait; its answers keep their order, a group that fails is lost as a whole, and one router that floods
starves none. Prints each check that fails, and ends with 1 where one
does. `groups.py PROGRAM flood SECONDS` floods a Map-Server from one address for so long, and prints how many of the others it answers."""
import itertools
import select
import shutil
import sys
import time
from subprocess import DEVNULL, STDOUT

from nodes import (DATABASE, GROUPS, LIMIT, PORT, answers, check, failing, is_up, killed, map_register, next_line, nonce_in, peer,
                   received, run_tests, stopped, with_slow_syncs)
from nonces import LOG_FILE, kept, pair

# What each try adds to the nonces of those who register; and in how many runs a sync fails at most.
TRY, MOST_CALLS = 10**6, 500
# How many routers send in a flood besides the one that floods, and how many Map-Registers that one sends in a second.
OTHERS, FLOOD = 149, 2000
# How long a sync takes, in microseconds: on a quick disk; and on one so slow that a Map-Server can't answer a flood at all.
QUICK, SLOW = 1000, 40_000
# How many of the others have to be answered.
ANSWERED = 140


def a_group_is_answered(here):
    """What waits is answered in its order, and its lines are in that order."""
    here.store = GROUPS
    process = here.start(*here.words("server", "s1"))
    is_up(here.s1)
    with peer(here.r1) as it:
        check("one alone", here.answer(it, map_register(1)) is not None, True)
        nonces = list(range(2, 130))
        with stopped(process):
            for nonce in nonces:
                it.sendto(map_register(nonce), (here.s1, PORT))
        check("its answers", answers(it, len(nonces)), nonces)
        check("its lines", [next_line(process) for _ in [1, *nonces]],
              [f"accepted s1 r1 key 1 nonce {nonce} from {here.r1}" for nonce in [1, *nonces]])
        with stopped(process):
            for message in (map_register(130), map_register(130), map_register(129), b"junk", map_register(131),
                            map_register(132, b"other")):
                it.sendto(message, (here.s1, PORT))
        check("replays in a group", answers(it, 2), [130, 131])
        lines = ["accepted s1 r1 key 1 nonce 130", "refused s1 57 saved 130", "refused s1 50 read 1", "accepted s1 r1 key 1 nonce 131",
                 "refused s1 53"]
        check("their lines", [next_line(process) for _ in lines], [f"{line} from {here.r1}" for line in lines])
    killed(process)
    check("what is kept", kept(here, "s1"), {pair(): 131})


def a_group_takes_one_sync(here):
    """Where a sync takes a fifth of a second, thirty-two that wait are answered in the time of few."""
    here.store = GROUPS
    process = here.start(*here.words("server", "s1"), env=with_slow_syncs(200_000))
    is_up(here.s1)
    with peer(here.r1) as it:
        check("one alone", here.answer(it, map_register(1)) is not None, True)
        with stopped(process):
            for xtr in range(100, 132):
                it.sendto(map_register(7, xtr=xtr), (here.s1, PORT))
        begun = time.monotonic()
        check("all", answers(it, 32), [7] * 32)
        check("in the time of few syncs", time.monotonic() - begun < 3, True)


def a_group_has_no_more(here):
    """Where a sync takes a fifth of a second, sixteen that wait take no less than eight of them in groups of two."""
    here.store = (*DATABASE, "--group", "2")
    process = here.start(*here.words("server", "s1"), env=with_slow_syncs(200_000))
    is_up(here.s1)
    with peer(here.r1) as it:
        with stopped(process):
            for xtr in range(100, 116):
                it.sendto(map_register(7, xtr=xtr), (here.s1, PORT))
        begun = time.monotonic()
        check("all", answers(it, 16), [7] * 16)
        check("in the time of eight syncs", time.monotonic() - begun > 1.4, True)


def sources(process, count):
    """Where the next lines of a Map-Server say that datagrams came from, with how many came one after the other."""
    found = [next_line(process).partition(" from ")[2] for _ in range(count)]
    return [(source, len(list(run))) for source, run in itertools.groupby(found)]


def one_address_takes_half(here):
    """Of each group, while others wait: 60 of one address and 40 of another behind them, and then of the first and a third one."""
    here.store = GROUPS
    process = here.start(*here.words("server", "s1"))
    is_up(here.s1)
    others = [f"{here.front}{100 + number}" for number in range(2)]
    with peer(here.r1) as it:
        for nonce, other in enumerate(others, 1):
            with peer(other) as beside, stopped(process):
                for number in range(60):
                    it.sendto(map_register(nonce, xtr=1000 + number), (here.s1, PORT))
                for number in range(40):
                    beside.sendto(map_register(nonce, xtr=2000 * nonce + number), (here.s1, PORT))
            check(f"groups beside {other}", sources(process, 100), [(here.r1, 32), (other, 32), (here.r1, 28), (other, 8)])
    killed(process)


def is_started(process):
    """Whether a node tells that it has started."""
    return any(line.lstrip("!").startswith("started ") for line in iter(process.stdout.readline, ""))


def grouped(here, process, it, attempt, xtrs):
    """Registers xTR-IDs while the Map-Server is stopped, so that they are a group: what it tells, and how many it answers."""
    with stopped(process):
        for xtr in xtrs:
            it.sendto(map_register(attempt * TRY + xtr, xtr=xtr), (here.s1, PORT))
    line = next_line(process)
    if "accepted" not in line:
        return [line], len(received(it, 0.3))
    return [line, *(next_line(process) for _ in xtrs[1:])], len(answers(it, len(xtrs)))


def a_group_that_fails(here):
    """Nothing of it is answered or told; the Map-Server begins anew, and takes another."""
    here.store = GROUPS
    here.start(*here.words("server", "s1", "--turns", "0")).wait(LIMIT)
    size, failed = 32, set()
    for at in range(1, MOST_CALLS):
        process = here.start(*here.words("server", "s1"), env=failing("sync", at, LOG_FILE), stderr=STDOUT)
        if not is_started(process):
            continue
        with peer(here.r1) as it:
            told = [grouped(here, process, it, at, range(first, first + size)) for first in (1000, 2000)]
        answered = [count for _, count in told]
        lines = [line for lines, _ in told for line in lines] + killed(process)
        check(f"sync {at}: lines of those that are answered", len([line for line in lines if line.startswith("accepted ")]), sum(answered))
        if answered == [size, size]:
            check(f"sync {at}: other lines", [line for line in lines if not line.startswith("accepted ")], [])
            break
        check(f"sync {at}: one fails as a whole", sorted(answered), [0, size])
        check(f"sync {at}: what is told of it", told[answered.index(0)][0][0].startswith("!restarted s1"), True)
        failed.add(answered.index(0))
    check("each of both fails once", failed, {0, 1})


def flooded(here, seconds, sync):
    """One address sends fresh Map-Registers, 2,000 in a second, and each of 149 others one in each second, for so many seconds, where a
    sync takes so long. How many of the others are answered in each second; and of the flood, how many in all, and of how many."""
    process = here.start(*here.words("server", "s1"), env=with_slow_syncs(sync), stdout=DEVNULL)
    is_up(here.s1)
    sources = [peer(f"{here.front}{100 + number}") for number in range(OTHERS + 1)]
    flood = [map_register(nonce, xtr=1000) for nonce in range(1, FLOOD * (seconds + 1))]
    others = [[map_register(nonce, xtr=2000 + number) for number in range(OTHERS)] for nonce in range(1, seconds + 1)]
    begun, sent, asked = time.monotonic(), 0, [0] * seconds
    answered = [set() for _ in range(seconds)]
    flood_answered = 0
    while (passed := time.monotonic() - begun) < seconds + 1:
        while sent < min(passed * FLOOD, len(flood)):
            sources[0].sendto(flood[sent], (here.s1, PORT))
            sent += 1
        # (the others begin half a second behind the flood)
        second = int(passed - 0.5) if passed >= 0.5 else seconds
        while second < seconds and asked[second] < min(OTHERS, (passed - 0.5 - second) * OTHERS * 1.1):
            sources[1 + asked[second]].sendto(others[second][asked[second]], (here.s1, PORT))
            asked[second] += 1
        for it in select.select(sources, [], [], 0.0003)[0]:
            message = it.recv(65535)
            if it is sources[0]:
                flood_answered += 1
            else:
                answered[nonce_in(message) - 1].add(it)
    for it in sources:
        it.close()
    killed(process)
    return [len(it) for it in answered], flood_answered, sent


def one_that_floods_starves_none(here):
    here.store = GROUPS
    for sync in (QUICK, SLOW):
        shutil.rmtree(f"{here.folder}/s1", ignore_errors=True)
        answered, _, _ = flooded(here, 2, sync)
        check(f"others that are answered, a sync of {sync} us", [count if count < ANSWERED else "enough" for count in answered],
              ["enough"] * 2)


def told_of_flood(here):
    """Floods so long as the words say, and prints what came of it."""
    for sync in (QUICK, SLOW):
        for name, here.store in (("one by one", DATABASE), ("in groups of 64", GROUPS)):
            shutil.rmtree(f"{here.folder}/s1", ignore_errors=True)
            answered, of_flood, sent = flooded(here, int(sys.argv[3]), sync)
            print(f"{name}, a sync of {sync} us: of {OTHERS} others are answered in each second: {answered}; of {sent} of the flood "
                  f"{of_flood}", flush=True)


if sys.argv[2:3] == ["flood"]:
    run_tests([told_of_flood], names=[])
run_tests([a_group_is_answered, a_group_takes_one_sync, a_group_has_no_more, one_address_takes_half, a_group_that_fails],
          [one_that_floods_starves_none])

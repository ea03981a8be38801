#!/usr/bin/env -S python3 -B
"""timing.py PROGRAM [TEST ..]
Runs `lispd server`, `router` and `loop` over real sockets, by the clock: when a router sends, what it counts and notices, what a
turn takes, how an idle node waits, what is lost, and how often what fails is tried again and told. Where a minute passes, the
program's clock goes ten times as fast (failing_sockets.c). Prints each check that fails, and ends with 1 where one does."""
import os
import signal
import socket
import subprocess
import tempfile
import time
from pathlib import Path

from nodes import (LIMIT, MAP_NOTIFY, PORT, SITE, XTR, check, failing, is_up, killed, map_register, next_line, nonce_in, nonce_text,
                   peer, ran, run_tests)
from sockets import (SPEED, arrivals, check_below, check_gaps, faster, few, heard, held, late, map_notify, map_notify_ack, shown, signed,
                     slower)

NOTICE = 2**63
# The word for the error with which calls fail.
EIO = "Uncategorized"
# Where there is a disk in memory the folders are there: a busy one would delay what is sent.
if os.path.isdir("/dev/shm"):
    tempfile.tempdir = "/dev/shm"


def registration(records):
    """A Map-Register of r1 with these records, nonce 1."""
    return signed("3a0001", len(records), 1, b"".join(records) + XTR.to_bytes(16, "big") + SITE.to_bytes(8, "big"))


def a_router_sends_when_it_is_due(here):
    """RFC 9301 section 8.2: a Map-Register that isn't answered is sent again."""
    with peer(here.s1) as s1, peer(here.s2) as s2:
        process = here.start(*here.words("router", "r1"))
        to_s1, to_s2 = arrivals([s1, s2], 40, 6)
        check("its first message", to_s1[0][1] if to_s1 else None, map_register(1))
        for name, found in (("to s1", to_s1), ("to s2", to_s2)):
            check_gaps(name, found, [1, 2, 4, 8, 16])
        check("nonces", sorted(nonce_in(message) for _, message in to_s1 + to_s2), list(range(1, 13)))
        check("its lines", killed(process), [f"sent r1 s{2 - nonce % 2} key 1 nonce {nonce}" for nonce in range(1, 13)])


def later_sends_come_a_minute_apart(here):
    with peer(here.s1) as s1, peer(here.s2) as s2:
        here.start(*here.words("router", "r1"), env=faster())
        found = arrivals([s1, s2], 40, 9)
        for name, it in zip(("to s1", "to s2"), found):
            check_gaps(f"{name}, {SPEED} times as fast", it, [gap / SPEED for gap in (1, 2, 4, 8, 16, 32, 60, 60)], 0.15)


def an_answered_router_sends_a_minute_later(here):
    speed = SPEED // 2
    with peer(here.s1) as s1, peer(here.s2) as s2:
        process = here.start(*here.words("router", "r1"), env=faster(speed=speed))
        first = arrivals([s1], LIMIT, 1)[0][0]
        s1.sendto(map_notify(nonce_in(first[1])), (here.r1, PORT))
        to_s1, to_s2 = arrivals([s1, s2], LIMIT, 7)
        check_gaps("answered once", [first, *to_s1][:4], [gap / speed for gap in (60, 1, 2)], 0.5)
        check_gaps("not answered", to_s2[:7], [gap / speed for gap in (1, 2, 4, 8, 16, 32)])
        check("its line", [line for line in killed(process) if not line.startswith("sent ")],
              [f"counted r1 s1 key 1 nonce 1 from {here.s1}"])


def a_router_counts_and_refuses(here):
    with peer(here.s1) as s1, peer(here.s2) as s2, peer(here.r2) as other:
        process = here.start(*here.words("router", "r1"), env=slower())
        check("it sends", [next_line(process), next_line(process)], ["sent r1 s1 key 1 nonce 1", "sent r1 s2 key 1 nonce 2"])
        taken = [(s1, map_notify(1), "counted r1 s1 key 1 nonce 1"), (s2, map_notify(2), "counted r1 s2 key 1 nonce 2"),
                 (s1, b"junk", "refused r1 43 read 1"), (s2, b"", "refused r1 43 read 1"), (other, map_notify(1), "refused r1 44"),
                 (s1, map_register(1), "refused r1 44"), (s1, map_notify(1, key=2), "refused r1 45"),
                 (s1, map_notify(1, secret=b"other"), "refused r1 46"), (s1, map_notify(2), "refused r1 47 latest 1"),
                 (s2, map_notify(1), "refused r1 47 latest 2")]
        for it, message, line in taken:
            it.sendto(message, (here.r1, PORT))
            check("a Map-Notify", next_line(process), f"{line} from {it.getsockname()[0]}")
        # (it is summed with the other one that was refused by that number, at the end of the second)
        s1.sendto(map_notify(NOTICE - 1), (here.r1, PORT))
        check("another", next_line(process), f"refused r1 47 from {here.s1} times 1")
        sent = [nonce_in(message) for it in (s1, s2, other) for message in heard(it, 0.01)]
        check("nothing else was sent", sent, [1, 2])
        check("nothing more is sent", arrivals([s1, s2, other], 0.5), [[], [], []])


def a_router_answers_a_notice(here):
    with peer(here.s1) as s1, peer(here.s2) as s2, peer(here.r2) as other:
        process = here.start(*here.words("router", "r1"), env=slower())
        for it, nonce in ((s1, 1), (s2, 2)):
            it.settimeout(LIMIT)
            it.recv(65535)
            it.sendto(map_notify(nonce), (here.r1, PORT))
        for it, name, nonce in ((s1, "s1", NOTICE), (s2, "s2", NOTICE + 7), (s1, "s1", 2**64 - 1)):
            it.sendto(map_notify(nonce), (here.r1, PORT))
            check("the Map-Notify-Ack", it.recv(65535), map_notify_ack(nonce))
        wrong = [(other, map_notify(NOTICE), 44), (s1, map_notify(NOTICE, secret=b"other"), 46), (s1, map_notify(NOTICE, key=2), 45)]
        for it, message, _ in wrong:
            it.sendto(message, (here.r1, PORT))
        check("no other answer", arrivals([s1, s2, other], 0.5), [[], [], []])
        lines = [line for line in killed(process) if line.startswith(("noticed", "refused"))]
        check("its lines", lines, [f"noticed r1 s1 nonce {NOTICE} from {here.s1}", f"noticed r1 s2 nonce {NOTICE + 7} from {here.s2}",
                                   f"noticed r1 s1 nonce {2**64 - 1} from {here.s1}",
                                   *(f"refused r1 {number} from {it.getsockname()[0]}" for it, _, number in wrong)])


def a_map_server_that_cannot_be_sent_to(here):
    """A send to a broadcast address is refused by the system: the router tells it, and goes on."""
    config = Path(here.config)
    config.write_text(config.read_text().replace(f'"{here.s1}"', '"127.255.255.255"'))
    with peer(here.s2) as s2:
        process = here.start(*here.words("router", "r1"))
        found, = arrivals([s2], LIMIT, 3)
        check_gaps("to the next Map-Server", found, [1, 2])
        told = [(f"sent r1 s1 key 1 nonce {nonce}", "refused r1 91 PermissionDenied", f"sent r1 s2 key 1 nonce {nonce + 1}") for nonce in (1, 3, 5)]
        check("its lines", [next_line(process) for _ in range(9)], [line for turn in told for line in turn])


def a_turn_takes_one_datagram(here):
    with peer(here.r1) as it:
        for turns, nonces in (("1", [1]), ("2", [2, 3])):
            process, calls = held(here, here.words("server", "s1", "--turns", turns), "r")
            for nonce in range(nonces[0], nonces[0] + 3):
                it.sendto(map_register(nonce), (here.s1, PORT))
            calls.send(b"!")
            lines = process.stdout.read().splitlines()
            check(f"{turns} turns, and three datagrams wait", lines, [f"accepted s1 r1 key 1 nonce {nonce}" for nonce in nonces])
            check("its answers", [nonce_in(message) for message in heard(it, 0.01)], nonces)
            check("its end", process.wait(LIMIT), 0)
    check("no turn", ran(*here.words("server", "s1", "--turns", "0")), (0, "", ""))


def a_busy_router_sends(here):
    """Datagrams that come all the time don't keep a router from sending."""
    with peer(here.s1) as s1, peer(here.s2) as other:
        process = here.start(*here.words("router", "r2"))
        is_up(here.r2)
        found, end = [], time.monotonic() + LIMIT
        while len(found) < 4 and time.monotonic() < end:
            other.sendto(b"junk", (here.r2, PORT))
            found += arrivals([s1], 0.02)[0]
        check_gaps("a busy router", found, [1, 2, 4])
        lines = killed(process)
        check("what it refuses", {line.split(" times ")[0] for line in lines if not line.startswith("sent ")},
              {f"refused r2 43 read 1 from {here.s2}", f"refused r2 43 from {here.s2}"})


def check_turns(name, turns, printed, least, most, *words, **how):
    """Checks what the program prints in so many turns, and the seconds that they take; again where the machine was busy."""
    for _ in range(6):
        begun = time.monotonic()
        check(name, ran(*words, "--turns", str(turns), **how)[:2], (0, printed))
        took = time.monotonic() - begun
        if took <= most:
            break
    check(f"{name}: seconds", took if not least <= took <= most else (least, most), (least, most))


def turns_take_their_time(here):
    """A turn waits 0.1 s for a datagram."""
    spent = here.file("r1", "s")
    spent.parent.mkdir()
    spent.write_bytes(nonce_text(NOTICE - 1))
    check_turns("three turns of a Map-Server", 3, "", 0.25, 0.6, *here.words("server", "s1"))
    check_turns("three turns of a router", 3, "refused r1 41\n", 0.25, 0.6, *here.words("router", "r1"), env=slower())
    check_turns("25 turns of a router", 25, "refused r1 41\n", 2.4, 3.2, *here.words("router", "r1"), env=slower())


# Of 16 + 12 L bytes each: together 16,384, the most of a part.
LOCATORS = [255] * 5 + [81, 0]


def give_records(here, counts):
    """Gives router r1 a record with each of these numbers of locators."""
    records = [f"10.1.{place}.0/24=1440" + "+192.0.2.1" * count for place, count in enumerate(counts)]
    config = Path(here.config)
    config.write_text(config.read_text().replace('["10.1.0.0/16=1440+192.0.2.1"]', str(records).replace("'", '"')))


def a_part_of_16384_bytes(here):
    """A router registers as many bytes of records as a part may have, in one Map-Register, which a Map-Server takes whole."""
    give_records(here, LOCATORS)
    server = here.start(*here.words("server", "s1"))
    is_up(here.s1)
    router = here.start(*here.words("router", "r1"), env=slower())
    check("it is sent", [next_line(router), next_line(router)], ["sent r1 s1 key 1 nonce 1", "sent r1 s2 key 1 nonce 2"])
    check("it is accepted", next_line(server), f"accepted s1 r1 key 1 nonce 1 from {here.r1}")
    check("it is counted", next_line(router), f"counted r1 s1 key 1 nonce 1 from {here.s1}")


def a_database_of_three_parts(here):
    give_records(here, [255] * 11)
    server = here.start(*here.words("server", "s1"))
    is_up(here.s1)
    with peer(here.s2) as s2:
        router = here.start(*here.words("router", "r1"), env=slower())
        found = [message for _, message in arrivals([s2], LIMIT, 3)[0]]
        check("the records of each part, and the first", [(message[3], message[44:48]) for message in found],
              [(5, bytes([10, 1, 0, 0])), (5, bytes([10, 1, 5, 0])), (1, bytes([10, 1, 10, 0]))])
    lines, parts = [next_line(router) for _ in range(9)], ("", " part 1", " part 2")
    check("they are sent", lines[:6], [f"sent r1 s{1 + at // 3} key 1 nonce {at + 1}{parts[at % 3]}" for at in range(6)])
    check("and counted", lines[6:], [f"counted r1 s1 key 1 nonce {at + 1}{parts[at]} from {here.s1}" for at in range(3)])
    check("the Map-Server", killed(server), [f"accepted s1 r1 key 1 nonce {at + 1} from {here.r1}" for at in range(3)])


def the_largest_datagrams(here):
    """The most bytes that UDP carries over IPv4 are 65,507: 24 records make a Map-Register of 65,504."""
    locator = bytes.fromhex("0164ff0000050001c0000201")
    counts = [255] * 21 + [67, 0, 0]
    records = [bytes.fromhex("000005a0") + bytes([count, 24]) + bytes.fromhex("100000000001") + bytes([10, 1, place, 0]) + locator * count
               for place, count in enumerate(counts)]
    message = registration(records)
    check("its bytes", len(message), 65504)
    process = here.start(*here.words("server", "s1"))
    is_up(here.s1)
    with peer(here.r1) as it:
        it.setsockopt(socket.SOL_SOCKET, socket.SO_RCVBUF, 1 << 20)
        answer = here.answer(it, message) or b""
        check("its answer", (answer[:4].hex(), answer[32:] == message[32:-24]), ("40000018", True))
        check("its line", next_line(process), f"accepted s1 r1 key 1 nonce 1 from {here.r1}")
        for number, (junk, fault) in enumerate(((bytes(65507), 10), (message + bytes(3), 14), (message[:-1], 1),
                                                (message[:16408], "15 record 5 fault 1")), 100):
            with peer(f"{here.front}{number}") as stranger:
                stranger.sendto(junk, (here.s1, PORT))
            check(f"{len(junk)} bytes", next_line(process), f"refused s1 50 read {fault} from {here.front}{number}")
        check("and the next", here.answer(it, map_register(2)), map_notify(2))
        check("no other answer", heard(it, 0.1), [])


def processor_seconds(process):
    ticks = Path(f"/proc/{process.pid}/stat").read_text().rsplit(")", 1)[1].split()
    return (int(ticks[11]) + int(ticks[12])) / os.sysconf("SC_CLK_TCK")


def an_idle_node_waits(here):
    """Forty seconds with nothing to do, without --turns: it is there, has hardly used the processor, and answers."""
    server = here.start(*here.words("server", "s1"))
    is_up(here.s1)
    router = here.start(*here.words("router", "r2"), env=slower())
    check("the router is counted", [next_line(router), next_line(router)],
          ["sent r2 s1 key 1 nonce 1", f"counted r2 s1 key 1 nonce 1 from {here.s1}"])
    time.sleep(40)
    for name, process in (("the Map-Server", server), ("the router", router)):
        check(f"{name} is there", process.poll(), None)
        check_below(f"processor seconds of {name} in 40 s", processor_seconds(process), 0.5)
    with peer(here.r1) as it:
        check("the Map-Server answers", here.answer(it, map_register(1)), MAP_NOTIFY)
    check("its lines", killed(server), [f"accepted s1 r2 key 1 nonce 1 from {here.r2}", f"accepted s1 r1 key 1 nonce 1 from {here.r1}"])
    check("the router's lines", killed(router), [])


def a_node_that_is_stopped_goes_on(here):
    """A receive that is interrupted isn't one that failed: as where the process is stopped for a while (SIGSTOP, SIGCONT)."""
    process = here.start(*here.words("server", "s1"))
    is_up(here.s1)
    for _ in range(5):
        process.send_signal(signal.SIGSTOP)
        time.sleep(0.05)
        process.send_signal(signal.SIGCONT)
        time.sleep(0.05)
    with peer(here.r1) as it:
        check("it answers", here.answer(it, map_register(1)), MAP_NOTIFY)
    check("its lines", killed(process), [f"accepted s1 r1 key 1 nonce 1 from {here.r1}"])


def what_does_not_come_is_lost(here):
    script = Path(f"{here.folder}/script")
    script.write_text("send r1 s1\ndeliver 0\ndeliver 0\nsend r1 s1\ndeliver 2\n")
    begun = time.monotonic()
    ended = ran("loop", here.config, script, "--store", here.folder)
    took = time.monotonic() - begun
    check("delivered twice", ended, (0, "sent r1 s1 key 1 nonce 1 datagram 0\naccepted s1 r1 key 1 nonce 1 datagram 1\nlost 0\n"
                                        "sent r1 s1 key 1 nonce 2 datagram 2\naccepted s1 r1 key 1 nonce 2 datagram 3\n", ""))
    check("after a second", took if not 1 <= took <= 8 else 1, 1)


def what_comes_in_its_place_is_lost(here):
    """What a stranger sent is waiting at the node's socket before the right datagram."""
    script, right = Path(f"{here.folder}/script"), map_register(1)
    others = [right[:-1] + b"\0", right[:-1], right + b"\0", bytes(len(right)), b"", map_register(2)]
    script.write_text("send r1 s1\n" + "deliver 0\n" * (len(others) + 1))
    process, calls = held(here, ("loop", here.config, str(script), "--store", here.folder), "s")
    with peer(f"{here.front}99") as stranger:
        for other in others:
            stranger.sendto(other, (here.s1, PORT))
        calls.send(b"!")
        lines = process.stdout.read().splitlines()
        check("the stranger's", lines, ["sent r1 s1 key 1 nonce 1 datagram 0", *["lost 0"] * len(others),
                                        "accepted s1 r1 key 1 nonce 1 datagram 1"])
        check("which gets no answer", heard(stranger, 0.1), [])


def a_loop_sends_nothing_to_strangers(here):
    script, stranger = Path(f"{here.folder}/script"), f"{here.front}99"
    script.write_text(f"junk s1 {stranger} {map_register(1).hex()}\ndeliver 0\njunk s1 {here.r2} {map_register(2).hex()}\ndeliver 1\n")
    with peer(stranger) as it:
        ended = ran("loop", here.config, script, "--store", here.folder)
        check("its lines", ended, (0, "accepted s1 r1 key 1 nonce 1 datagram 0\nnowhere 0\naccepted s1 r1 key 1 nonce 2 datagram 1\n"
                                      "refused r2 47 latest 0\n", ""))
        check("to no node", heard(it, 0.1), [])


def a_loop_whose_socket_fails(here):
    script, sent = Path(f"{here.folder}/script"), "sent r1 s1 key 1 nonce 1 datagram 0\n"
    script.write_text("send r1 s1\ndeliver 0\ndeliver 0\n")
    for call, lines in (("receive", "refused s1 90\naccepted s1 r1 key 1 nonce 1 datagram 1\n"),
                        ("send", "refused r1 91\nlost 0\nlost 0\n")):
        ended = ran("loop", here.config, script, "--store", f"{here.folder}/{call}", env=failing(call))
        check(f"loop, a {call} that fails", ended[:2], (0, sent + lines))


def a_receive_that_always_fails(here):
    """It is told once a minute; the next receive waits a second."""
    process, calls = shown(here, here.words("server", "s1"), env=failing("receives"), stderr=subprocess.DEVNULL)
    check("it is told", next_line(process), f"refused s1 90 {EIO}")
    calls.recv(65535)
    time.sleep(3)
    tried = b"".join(heard(calls, 0.01)).count(b"r")
    check("receives in three seconds", tried if not 2 <= tried <= 6 else 3, 3)
    check("it is there", process.poll(), None)
    check("no other line", few(killed(process)), [])


def a_router_sends_while_its_receives_fail(here):
    with peer(here.s1) as s1:
        process = here.start(*here.words("router", "r2"), env=failing("receives"), stderr=subprocess.DEVNULL)
        found, = arrivals([s1], LIMIT, 3)
        check_gaps("receives fail", found, [1, 2], 1.3)
        check("its lines", few(killed(process)), [f"refused r2 90 {EIO}", *(f"sent r2 s1 key 1 nonce {nonce}" for nonce in (1, 2, 3))])


def what_fails_is_told_once_a_minute(here):
    """A spent nonce, a folder that can't be written, and a receive that fails: a minute is six seconds here."""
    spent, unwritten = here.file("r1", "s"), here.file("r2", "s", xtr=XTR + 1)
    for path in (spent, unwritten):
        path.parent.mkdir()
    spent.write_bytes(nonce_text(NOTICE - 1))
    os.mkdir(f"{unwritten}.new")
    fails = faster(failing("receives"))
    started = [here.start(*here.words("router", "r1"), env=faster()), here.start(*here.words("router", "r2"), env=faster()),
               here.start(*here.words("server", "s1"), env=fails, stderr=subprocess.DEVNULL)]
    lines = ["refused r1 41", "refused r2 42 store 30 InvalidInput", f"refused s1 90 {EIO}"]
    check("each is told", [next_line(it) for it in started], lines)
    time.sleep(8)
    check("and once more", [few(killed(it)) for it in started], [[line] for line in lines])


def a_spent_nonce(here):
    path = here.file("r1", "s")
    path.parent.mkdir()
    path.write_bytes(nonce_text(NOTICE - 1))
    process = here.start(*here.words("router", "r1"))
    check("it is told", next_line(process), "refused r1 41")
    with peer(here.s1) as s1, peer(here.s2) as s2:
        check("nothing is sent", arrivals([s1, s2], 5), [[], []])
    check_below("processor seconds", processor_seconds(process), 0.3)
    check("no other line", few(killed(process)), [])
    check("the nonce is kept", path.read_bytes(), nonce_text(NOTICE - 1))


def a_folder_that_is_mended(here):
    path = here.file("r1", "s")
    os.makedirs(f"{path}.new")
    with peer(here.s1) as s1, peer(here.s2) as s2:
        process = here.start(*here.words("router", "r1"))
        check("it is told", next_line(process), "refused r1 42 store 30 InvalidInput")
        check("nothing is sent", arrivals([s1, s2], 5), [[], []])
        os.rmdir(f"{path}.new")
        mended = time.monotonic()
        s1.settimeout(LIMIT)
        message = s1.recv(65535)
        check_below("seconds to the next send", time.monotonic() - mended, 1.5 + late())
        check("its nonce", nonce_in(message), 1)
        check("no other line", [next_line(process), next_line(process)], ["sent r1 s1 key 1 nonce 1", "sent r1 s2 key 1 nonce 2"])


def what_is_refused_waits_a_second(here):
    """A store that fails is asked again a second later, and not in each turn: it looks for its file once a try."""
    os.makedirs(f"{here.file('r2', 's', xtr=XTR + 1)}.new")
    process, calls = shown(here, here.words("router", "r2"))
    check("it is told", next_line(process), "refused r2 42 store 30 InvalidInput")
    calls.recv(65535)
    time.sleep(3)
    tried = b"".join(heard(calls, 0.01)).count(b"f")
    check("tries in three seconds", tried if not 2 <= tried <= 4 else 3, 3)


# Those that wait longest come first.
run_tests([an_idle_node_waits, a_router_sends_when_it_is_due, later_sends_come_a_minute_apart, an_answered_router_sends_a_minute_later,
           a_busy_router_sends, a_router_counts_and_refuses, a_router_answers_a_notice, a_map_server_that_cannot_be_sent_to,
           a_turn_takes_one_datagram, a_part_of_16384_bytes, a_database_of_three_parts, the_largest_datagrams,
           a_node_that_is_stopped_goes_on, what_does_not_come_is_lost, what_comes_in_its_place_is_lost, a_loop_sends_nothing_to_strangers,
           a_loop_whose_socket_fails, a_receive_that_always_fails, a_router_sends_while_its_receives_fail,
           what_fails_is_told_once_a_minute, a_spent_nonce, a_folder_that_is_mended, what_is_refused_waits_a_second],
          [turns_take_their_time])

"""The telephones' socket: what ends where, and in which datagram."""
import re
import time

from running import Bench, heard

SHOWN = ["line %d on signals - connections - lost 0\n" % line for line in (1, 2)]


def test_line_is_answered_though_nothing_came_before(bench: Bench) -> None:
    program = bench.gateway()
    time.sleep(0.2)
    assert program.tell("phone 1 off\n") == "done\n"


def test_show_and_counts_come_in_one_datagram(bench: Bench) -> None:
    program = bench.gateway()
    assert program.tell("show *\n") == "".join(SHOWN)
    counts = program.tell("counts\n")
    assert counts.startswith("datagrams in 1 out 1\n") and counts.count("\n") == 10


def test_each_line_of_a_datagram_has_its_answer(bench: Bench) -> None:
    program = bench.gateway()
    assert [program.tell("show 1\nshow 2\n"), heard(program.phone).decode()] == SHOWN


def test_changes_of_one_event_come_in_one_datagram(bench: Bench) -> None:
    program = bench.gateway()
    assert re.fullmatch(r"watching from 1 at \d+\n", program.tell("watch 60\n"))
    request = "RQNT 100 aaln/1@rgw.example.net MGCP 1.0\r\nX: 1\r\nR: L/hd(E(R(L/hu(N)),S(L/dl)))\r\nS: L/rg\r\n"
    bench.agent.sendto(request.encode(), program.address)
    assert re.fullmatch(r"change 1 at \d+ line 1 begins L/rg until \d+\n", heard(program.phone).decode())
    assert program.tell("phone 1 off\n") == "done\n"
    changes = r"change 2 at \d+ line 1 off\nchange 3 at \d+ line 1 ends L/rg\nchange 4 at \d+ line 1 begins L/dl until \d+\n"
    assert re.fullmatch(changes, heard(program.phone).decode())

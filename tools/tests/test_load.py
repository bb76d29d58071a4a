"""`load`: the worst cases of published and worked examples, of the example servo_axes by hand, and of generated networks."""
import csv
import io
import json
import os
import re
import xml.etree.ElementTree as xml

import buses
from helper import BINARY, example, file, in_parallel, is_refused, put, real, recorded, run

from cobench_tools.responses import Stream, responses


def worst(*streams, bit=8):
    """The worst cases, from the event and from when the frame is ready, of streams by priority: duration, period, jitter."""
    found = responses([Stream(place, *stream) for place, stream in enumerate(streams)], bit)
    return [(response.total, response.wait) for response in found]


def test_the_published_example():
    """Davis et al. 2007, section 3: three messages of 1 ms; the last one has its worst case in its second instance."""
    assert worst((1000, 2500), (1000, 3500), (1000, 3500)) == [(2000, 2000), (3000, 3000), (3500, 3500)]
    assert responses([Stream(1, 1000, 2500), Stream(2, 1000, 3500), Stream(3, 1000, 3500)], 8)[2].earlier == 1


def test_two_streams_by_hand():
    """The upper one waits for a whole frame of the lower one: 2 + 1; the lower one for one of the upper one: 1 + 2."""
    assert worst((1000, 5000), (2000, 10_000)) == [(3000, 3000), (3000, 3000)]


def test_jitter_by_hand():
    """The upper one is ready 3 ms late at most, so 3 + (1 + 1); two of it may come within the lower one's wait: 1 + 1 + 1."""
    assert worst((1000, 4000, 3000), (1000, 10_000)) == [(5000, 2000), (3000, 3000)]


def test_a_frame_that_comes_at_the_last_bit_by_hand():
    """The middle one waits 2 for the lower one and 2 for the upper one; at 4 the next upper one comes, within a bit: 6 + 2.

    Its busy time is 2 + 2 + 2 x 2 = 8 and ends before its second event. The lower one waits for 2 + 2 of the upper ones,
    at 4 the next upper one comes: 6, and 2 for itself. The upper one waits for the middle one.
    """
    assert worst((2000, 4000), (2000, 16_000), (2000, 16_000)) == [(4000, 4000), (8000, 8000), (8000, 8000)]


def test_several_instances_by_hand():
    """Durations of 2 and periods of 5, 7 and 9, in ms.

    Upper: 2 of blocking, and 2. Middle: the bus is busy for 2 -> 6 -> 8 -> 10, so for two of it: the first waits 2 + 2, and the
    second starts at 2 + 2 + 4 = 8, which is 1 after its event. Lower: busy for 2 -> 6 -> 8 -> 10 -> 12 -> 14, so for two of it: the
    first waits 2 + 2; the second 2 + 4 + 4 = 10, where an upper one comes within a bit, so 12, which is 3 after its event.
    """
    assert worst((2000, 5000), (2000, 7000), (2000, 9000)) == [(4000, 4000), (6000, 6000), (6000, 6000)]


def test_what_has_no_bound():
    """5 of 5 are used with the second one; the third asks for more. What has no period has no bound, and none behind it has."""
    assert worst((2000, 5000), (3000, 5000), (1000, 9000)) == [(5000, 5000), (None, None), (None, None)]
    unbounded = responses([Stream(1, 10, 100), Stream(2, 10, None), Stream(3, 10, 100)], 1)
    assert [response.wait for response in unbounded] == [20, None, None] and unbounded[2].why.identifier == 2


def load(*words, given=None):
    return run("load", "--cobench", recorded(), *words, given or example("io_modules.txt"))


# servo_axes.txt by hand, at 250 kbit/s, 4 us a bit. Bits without stuff bits: 47 + 8 n; with the most: and (33 + 8 n) / 4 more.
# The longest frame behind those of SYNC and the first PDOs is an SDO frame: 111 bits, 444 us; with 24 more 540 us.
# SYNC: 444 + 188. Its jitter so is 444 us, and 10 ms - 572 us with stuff bits (760 - 188) is the deadline of what it sends.
# Behind SYNC come the emergencies of three nodes, 444 us each, 540 us with stuff bits: 81h waits 444 + 188 and takes 444.
# 181h: 444 + 188 + 1332 + 380; 182h: and 380 more; 18Ah: 444 + 188 + 1332 + 380 + 380 + 316. Heartbeats: the least consumer
# time less 100 ms.
SERVO = """\
080h,SYNC,0,47,55,188,220,1.88,2.20,0.632,0.760,10.000,yes
081h,EMCY of x_axis,8,111,135,444,540,-,-,1.076,1.300,-,-
082h,EMCY of y_axis,8,111,135,444,540,-,-,1.520,1.840,-,-
08Ah,EMCY of motion,8,111,135,444,540,-,-,1.964,2.380,-,-
181h,x_actual,6,95,115,380,460,3.80,4.60,2.344,2.840,9.428,yes
182h,y_actual,6,95,115,380,460,7.60,9.20,2.724,3.300,5.000,yes
18Ah,controls,4,79,95,316,380,3.16,3.80,3.040,3.680,9.428,yes
281h,TPDO 2 of x_axis,3,71,85,284,340,-,-,-,-,-,no bound
28Ah,targets,8,111,135,444,540,4.44,5.40,-,-,9.428,no bound
581h,SDO,8,111,135,444,540,-,-,-,-,-,no bound
701h,heartbeat of x_axis,1,55,65,220,260,0.22,0.26,-,-,50.000,no bound
77Fh,heartbeat of manager,1,55,65,220,260,0.04,0.05,-,-,500.000,no bound
"""
SHOWN = ["COB-ID", "Frames", "Bytes", "Bits", "Bits with stuff bits", "Time [us]", "Time with stuff bits [us]", "Share [%]",
         "Share with stuff bits [%]", "Longest wait [ms]", "Longest wait with stuff bits [ms]", "Deadline [ms]", "In time"]


def rows_of(output):
    return list(csv.DictReader(io.StringIO(output.decode())))


def test_load_of_the_example_by_hand():
    """282h, at most each 4.4 ms: 540 us of blocking, 220, 3 x 540, 2 x 460, 380, 2 x 340 come to 4.36 ms, its own deadline."""
    status, output, faults = load("--format", "csv", given=example("servo_axes.txt"))
    rows = [",".join(row[name] for name in SHOWN) for row in rows_of(output)]
    assert status == 1 and len(rows) == 14
    for line in SERVO.splitlines():
        assert line in rows, (line, rows)
    assert "servo_axes.txt:6: warning: TPDO 2 of x_axis: it is on by the defaults of the data sheet" in faults
    assert "with INHIBIT, which writes 1801h:03, bounds it: 44 (4.4 ms) is the least with which all is in time [unbounded]" in faults


def test_load_tells_what_the_trace_shows():
    rows = {row["Frames"]: row for row in rows_of(load("--format", "csv", given=example("servo_axes.txt"))[1])}
    # 10047 us is the time of the first SYNC, 188 us after it is due; 18Ah follows on 181h and 182h, 380 us each.
    assert rows["SYNC"]["In the trace [ms]"] == "0.188" and rows["controls"]["In the trace [ms]"] == "1.076"
    assert rows["heartbeat of manager"]["In the trace [ms]"] == "-"


def test_load_finds_what_is_late():
    """Behind SYNC 18Ah waits 540 us of blocking, 220 us of SYNC, 3 x 540 us, 460 us and 460 us, and takes 380 us itself: 3.68 ms.

    28Ah waits for that, and for 281h and 282h, 340 us each, and takes 540 us: 4.9 ms.
    """
    text = file(os.path.dirname(example("x")), "servo_axes.txt")
    lines = [line for line in text.splitlines() if not line.startswith((b"param 3 ", b"param 1 1400", b"drop-node"))]
    for name in ("servo_drive.eds", "motion_controller.eds"):
        os.symlink(example(name), name)
    put("servo.txt", b"\n".join(lines))
    status, output, faults = load("--window", "3680", "--assume", "5000", given="servo.txt")
    assert status == 1 and faults.count(": error: ") == 1 and "servo.txt:43: error: targets: at worst 4.900 ms after SYNC" in faults, faults
    status, output, faults = load("--window", "3679", "--assume", "5000", given="servo.txt")
    assert ("servo.txt:38: error: controls: at worst 3.680 ms after SYNC, and the window behind SYNC is 3.679 ms: 6 frames of higher "
            "priority, 3 of them emergencies, in 2.760 ms and one of lower priority that had started, in 0.540 ms [late]\n") in faults, faults
    assert load("--window", "4900", "--assume", "5000", given="servo.txt")[0] == 0
    assert load("--window", "3680", "--assume", "5000", "--allow", "late targets", given="servo.txt")[0] == 0
    assert load("--window", "4900", "--assume", "5000", "--werror", given="servo.txt")[0] == 1
    page = load("--window", "3680", "--assume", "5000", "--format", "html", given="servo.txt")[1].decode()
    assert page.count('<tr class="late">') == 1 and re.search('<tr class="late"><td>28Ah</td><td>targets</td>.*<td>NO</td></tr>', page)
    assert page.index("at worst 4.900 ms") < page.index("<svg") < page.index("<table>")


def network_of(*lines, kind=255, inhibit=0, event=0, period=10000):
    """A network of a TPDO of 1 byte at 10 kbit/s: 55 bits, 5.5 ms, or 6.5 ms with stuff bits."""
    sheet = ["[1017]", "DataType=6", "[1800sub1]", "DataType=7", "DefaultValue=0x80000000", "[1800sub2]", "DataType=5", "[1800sub3]",
             "DataType=6", "[1800sub5]", "DataType=6", "[1A00sub0]", "DataType=5", "[1A00sub1]", "DataType=7", "[2000]", "DataType=5",
             "PDOMapping=1"]
    settings = ["bitrate 10", f"manager 127 {period} 0 5000", "horizon 3000000", f"eds d {len(sheet)}", *sheet, "node 5 p d",
                f"message m 5 1 {kind} {inhibit} {event} 0", "source m 1 2000 0", *lines]
    return put("network.txt", "\n".join(settings).encode())


def test_load_finds_a_bus_that_is_too_slow():
    status, output, faults = load("--table", "frames", given=network_of(kind=1))
    assert status == 1 and "m: with what goes before it the bus has 120.0 % to carry" in faults and "[overload]" in faults
    assert "network.txt:24: error: m: " in faults and b"no bound" in output, faults


def test_load_says_what_it_takes_for_granted():
    words = "it has an event time but no inhibit time: it is taken to come each 100 ms, if not changed before [assumed]"
    status, output, faults = load(given=network_of(event=100, period=0))
    assert status == 0 and f"network.txt:24: warning: m: {words}" in faults, faults
    changes = [f"event {number} {2_000_000 + 7000 * number} set 5 2000 0 {number}" for number in range(1, 20)]
    status, output, faults = load(given=network_of(*changes, event=100, period=0))
    assert status == 1 and "m: it comes after 7.000 ms in the trace, and is counted as coming each 100 ms" in faults, faults


def test_load_takes_heartbeats_that_an_event_sets():
    """The least consumer time is none, so the deadline is the own period: that which the event sets."""
    status, output, _ = load("--format", "csv", given=network_of("param 5 1017 0 500", "event 1 2900000 set 5 1017 0 200", period=0, inhibit=1000))
    row = next(row for row in rows_of(output) if row["COB-ID"] == "705h")
    assert status == 0 and row["Comes"] == "each 200 ms" and row["Deadline [ms]"] == "200.000", row


def test_a_pdo_on_the_identifier_of_sync_is_none():
    """A data sheet has a TPDO on with 080h: it is sent at changes, and has no clock."""
    lines = ["[1800sub1]", "DataType=7", "DefaultValue=0x40000080", "[1800sub2]", "DataType=5", "DefaultValue=255", "[1A00sub0]", "DataType=5",
             "DefaultValue=1", "[1A00sub1]", "DataType=7", "DefaultValue=0x20000008", "[2000]", "DataType=5", "PDOMapping=1"]
    put("net.txt", "\n".join([f"eds d {len(lines)}", *lines, "node 5 pump d", "horizon 50000", ""]).encode())
    event = "event 1 40000 set 5 2000 0 7\n"
    put("net.txt", file("net.txt") + event.encode())
    rows = rows_of(run("load", "--format", "csv", "--table", "frames", "--cobench", recorded(), "net.txt")[1])
    assert [(row["Frames"], row["Comes"]) for row in rows if row["COB-ID"] == "080h"] == [("TPDO 1 of pump", "whenever changed")], rows


def test_load_for_programs():
    status, output, faults = load("--json")
    whole = json.loads(output)
    assert status == 0 and not faults and whole["errors"] == 0 and whole["warnings"] == 1
    assert [frame["frames"] for frame in whole["frames"]][:5] == [
        "EMCY of line", "EMCY of infeed", "EMCY of outfeed", "outputs", "infeed_inputs"]
    assert whole["frames"][4]["time_us"] == 220 and whole["frames"][4]["time_stuffed_us"] == 260
    assert whole["frames"][4]["wait_us"] is None and whole["findings"][0]["code"] == "unbounded"
    assert load("--junit", "report.xml", "--werror")[0] == 1
    suite = xml.parse("report.xml").getroot().find("testsuite")
    assert [case.get("name") for case in suite if case.find("failure") is not None] == ["message outputs"]


def test_load_draws_a_bar_for_each_identifier():
    output = load("--format", "svg", "--assume", "10000")[1].decode()
    picture = xml.fromstring(output)
    texts = [each.text for each in picture.iter("{http://www.w3.org/2000/svg}text")]
    # 181h: 540 us of blocking, 3 x 540 us of emergencies and 300 us itself; 18Bh and 18Ch: 260 us more each; heartbeats behind them.
    for text in ("181h outputs", "2.460", "18Bh infeed_inputs", "2.720", "2.980", "77Fh heartbeat of manager", "its own frame"):
        assert text in texts, (text, texts)
    page = load("--format", "html", "--assume", "10000", "--title", "<&>")[1].decode()
    assert output in page and "<title>&lt;&amp;&gt;</title>" in page and page.count("<h2>") == 4 and "src=" not in page
    assert load("--format", "svg")[1].count(b"no bound") == 8


def test_load_as_markdown():
    output = load("--format", "markdown", "--table", "boot")[1].decode()
    # line: 2 reads of its identity and 18 entries in 24 writes: 52 frames of 111 bits and 4 us, configured as explain tells it.
    assert "| 1 | line | 18 | 52 | 23.088 | 28.080 | 23.308 |" in output, output
    rows = [[cell.strip() for cell in line.split("|")[1:-1]] for line in output.splitlines() if line.startswith("| ")]
    nodes, whole = [row for row in rows if row[0].isdigit()], next(row for row in rows if row[0] == "-")
    assert len(nodes) == 3 and whole[1] == "all of the manager's SDO" and whole[6] == "60.244"
    assert [sum(int(row[place]) for row in nodes) for place in (2, 3)] == [int(whole[2]), int(whole[3])], rows
    assert abs(sum(float(row[4]) for row in nodes) - float(whole[4])) < 0.001


def test_load_on_bad_input():
    put("binary", BINARY)
    put("cut.txt", b"eds x 3\n")
    for name, says in (("nosuch.txt", "No such file"), ("binary", "this is no text"), ("cut.txt", "0 of the 3 lines")):
        is_refused(load(given=name), says)
    for words, says in ((("--window", "x"), "invalid int"), (("--window", "0"), "--window is 1 to 10,000,000"),
                        (("--foreign", "301:9:1000"), "--foreign is ID:BYTES:US"), (("--foreign", "800:8:1000"), "and not 800:8:1000"),
                        (("--foreign", "301:8"), "--foreign is ID:BYTES:US"), (("--foreign", "301:8:0"), "--foreign is ID:BYTES:US"),
                        (("--foreign", "20000000:8:1"), "and not 20000000:8:1"), (("--with", "nosuch.log"), "No such file"),
                        (("--assume", "10000001"), "--assume is 1 to 10,000,000"), (("--format", "pdf"), "invalid choice")):
        is_refused(load(*words), says)
    put("empty.txt", b"bitrate 500\n")
    status, output, faults = load(given="empty.txt")
    assert status == 0 and output.count(b"\nnone\n") == 2 and not faults
    assert load("--format", "html", given="empty.txt")[0] == load("--format", "svg", given="empty.txt")[0] == 0


# A second program for the worst cases, written apart from the first: of all streams of the bus, with no sums and no steps saved.

def arrivals(stream, time):
    """How many frames of a stream come in a time whose end counts."""
    _, _, period, jitter = stream
    return 1 if period is None else (time + jitter) // period + 1


def second_opinion(streams, bit, place):
    """The longest wait of the stream at a place, from when its frame is ready: priority, duration, period (None: once), jitter each."""
    priority, duration, period, jitter = streams[place]
    others = streams[:place] + streams[place + 1:]
    higher = [each for each in others if each[0] <= priority]
    blocking = max((each[1] for each in others if each[0] > priority), default=0)

    def until_quiet(start, own):
        """The first moment from a start on at which what came till then is sent, `own` frames of this stream included."""
        while True:
            sent = blocking + own(start) * duration + sum(arrivals(each, start - 1) * each[1] for each in higher)
            if sent == start:
                return start
            start = sent

    busy, worst, number = until_quiet(duration, lambda time: arrivals(streams[place], time - 1)), 0, 0
    while number < arrivals(streams[place], busy - 1):
        start = blocking + number * duration
        while True:
            sent = blocking + number * duration + sum(arrivals(each, start + bit - 1) * each[1] for each in higher)
            if sent == start:
                break
            start = sent
        ready = 0 if number == 0 else max(number * (period or 0) - jitter, 0)
        worst, number = max(worst, start + duration - ready), number + 1
    return worst


def durations(size, bit, is_extended, is_stuffed):
    """How long a frame takes: 44 bits and 3 of intermission, 20 more by 29 bits; a stuff bit behind each four of those that count."""
    counted = (54 if is_extended else 34) + 8 * size
    return (counted + 13 + (counted - 1) // 4 * is_stuffed) * bit


def expected_waits(whole, bit, foreign, is_stuffed, sync_bits):
    """The waits of a network's own frames: with an emergency of each node, one SDO frame, and these frames of others; a SYNC has
    so many bits at the least."""
    key = "time_stuffed_us" if is_stuffed else "time_us"
    own = [each for each in whole["frames"] if not each["once"] and not each["foreign"]]
    streams = [((each["identifier"], 0), each[key], each["period_us"], 0) for each in own]
    streams += [((0x80 + node["node"], 0), durations(8, bit, False, is_stuffed), None, 0) for node in whole["nodes"]]
    streams.append(((0x580 + whole["nodes"][0]["node"], 0), durations(8, bit, False, is_stuffed), None, 0))
    streams += [(priority, durations(size, bit, is_extended, is_stuffed), period, jitter)
                for priority, size, is_extended, period, jitter in foreign]
    sync = next((place for place, each in enumerate(own) if each["identifier"] == 0x80), None)
    late = second_opinion(streams, bit, sync) - sync_bits * bit if sync is not None else 0
    for place, each in enumerate(own):
        if each["jitter_us"]:
            assert each["jitter_us"] == late or not is_stuffed, each
            streams[place] = (*streams[place][:3], late)
    return {each["frames"]: second_opinion(streams, bit, place) for place, each in enumerate(own)}


def same_as_the_second(words, given, bit, foreign=(), sync_bits=47):
    """The waits of `load` are those of the second program."""
    status, output, faults = load("--json", *words, given=given)
    assert status in (0, 1), faults
    whole = json.loads(output)
    for is_stuffed, key in ((False, "wait_us"), (True, "wait_stuffed_us")):
        found = {each["frames"]: each[key] for each in whole["frames"] if not each["once"] and not each["foreign"]}
        assert None not in found.values() and len(found) >= 7, found
        assert found == expected_waits(whole, bit, foreign, is_stuffed, sync_bits), (is_stuffed, found)
    return whole


def test_a_second_program_finds_the_same_waits():
    """The last network is of version 3, in which a SYNC without a counter has its four stuff bits; its manager is one of the nodes."""
    same_as_the_second(("--assume", "5000"), example("servo_axes.txt"), 4)
    same_as_the_second(("--assume", "7000"), example("io_modules.txt"), 4)
    whole = same_as_the_second(("--assume", "3000"), example("network.txt"), 2, sync_bits=51)
    names = [each["frames"] for each in whole["frames"] if each["sender"] == 10]
    assert names == ["SYNC", "EMCY of plc", "control", "outputs", "SDO", "heartbeat of plc"], names


def test_foreign_frames_that_the_user_names():
    """18FEF100h has the first bits of 63Fh, and stands behind SDO; CF00400h those of 33Ch; 100h goes before each PDO."""
    words = ("--foreign", "100:8:3000", "--foreign", "18FEF100:8:20000", "--foreign", "0CF00400:3:1500", "--foreign", "18c:2:9000")
    foreign = [((0x100, 0), 8, False, 3000, 0), ((0x63F, 1), 8, True, 20000, 0), ((0x33C, 1), 3, True, 1500, 0), ((0x18C, 0), 2, False, 9000, 0)]
    whole = same_as_the_second(("--assume", "5000", *words), example("servo_axes.txt"), 4, foreign)
    others = [each for each in whole["frames"] if each["foreign"]]
    assert [(each["identifier"], each["extended"], each["time_us"], each["late"]) for each in others] == [
        (0x100, False, 444, None), (0x18C, False, 252, None), (0x0CF00400, True, 364, None), (0x18FEF100, True, 524, None)]
    assert "with 4 identifiers of others" in load(*words)[1].decode()


def test_an_identifier_of_29_bits_stands_behind_its_first_11():
    """18C00000h begins as 630h: that of 11 bits goes first, the next one behind it."""
    rows = rows_of(load("--format", "csv", "--foreign", "18C00000:1:9000", "--foreign", "630:1:9000", "--foreign", "631:1:9000")[1])
    assert [row["COB-ID"] for row in rows if row["Frames"].startswith("foreign")] == ["630h", "18C00000h", "631h"], rows


def test_foreign_frames_of_a_recording():
    """301h comes at 0, 10, 18 and 30 ms: each 10 ms on an average, once 2 ms sooner. 302h comes once. The network's own don't count."""
    lines = [(0, "301#1122"), (1000, "302#11"), (4000, "18FEF100#1122334455667788"), (10000, "301#11223344"), (11000, "181#0000"),
             (18000, "301#11"), (19000, "080#"), (24000, "18FEF100#11"), (30000, "301#"), (31000, "701#05"), (32000, "081#0000000000000000")]
    put("bus.log", "".join(f"({10 + time / 1e6:.6f}) can0 {frame}\n" for time, frame in lines).encode())
    foreign = [((0x301, 0), 4, False, 10000, 2000), ((0x302, 0), 1, False, None, 0), ((0x63F, 1), 8, True, 20000, 0)]
    whole = same_as_the_second(("--assume", "5000", "--with", "bus.log"), example("servo_axes.txt"), 4, foreign)
    others = [each for each in whole["frames"] if each["foreign"]]
    assert [(each["frames"], each["bytes"], each["period_us"], each["jitter_us"], each["once"]) for each in others] == [
        ("foreign 301h", 4, 10000, 2000, False), ("foreign 302h", 1, None, 0, True), ("foreign 18FEF100h", 8, 20000, 0, False)], others


def test_sdo_of_a_recording_counts_once_the_network_is_started():
    sdo = "601#4017100000000000", "581#4B17100064000000"
    lines = [(0, "701#00"), (1000, sdo[0]), (1500, sdo[1]), (9000, "000#0101"), (20000, sdo[0]), (21000, sdo[1]), (50000, sdo[0]), (51000, sdo[1])]
    put("bus.log", "".join(f"({10 + time / 1e6:.6f}) can0 {frame}\n" for time, frame in lines).encode())
    whole = json.loads(load("--json", "--with", "bus.log", given=example("servo_axes.txt"))[1])
    assert [(each["frames"], each["period_us"]) for each in whole["frames"] if each["foreign"]] == [
        ("foreign 581h", 30000), ("foreign 601h", 30000)]


def judged(seed, program):
    """Of a generated bus: what is wrong, its share, and how near the trace comes to the bound of a PDO, at most."""
    put("network.txt", buses.bus(seed))
    status, output, faults = run("load", "--json", "--cobench", program, "network.txt")
    frames = json.loads(output)["frames"] if status != 2 else []
    wrong = [line for line in (faults or output.decode()).splitlines() if "[trace]" in line or "one of the two is wrong" in line]
    wrong += [f"{each['frames']}: {each['seen_us']} of {each['wait_us']}" for each in frames
              if each["seen_us"] and each["wait_us"] and not each["seen_us"] <= each["wait_us"]]
    wrong += [f"{each['frames']}: with stuff bits {each['wait_stuffed_us']}" for each in frames
              if each["wait_stuffed_us"] and each["wait_stuffed_us"] < each["wait_us"]]
    return wrong, sum(each["share"] or 0 for each in frames), nearness(frames)


def nearness(frames):
    """How near the trace comes to the bound of a PDO, at most: to that of the second program, without emergencies and SDO."""
    own = [each for each in frames if not each["once"]]
    bit = next((each["time_us"] // (47 + 8 * each["bytes"]) for each in own), 1)
    streams = [(each["identifier"], each["time_us"], each["period_us"], 0) for each in own]
    sync = next((place for place, each in enumerate(own) if each["identifier"] == 0x80), None)
    late = second_opinion(streams, bit, sync) - own[sync]["time_us"] if sync is not None else 0
    streams = [(*stream[:3], late if each["jitter_us"] else 0) for stream, each in zip(streams, own)]
    return max((each["seen_us"] / second_opinion(streams, bit, place) for place, each in enumerate(own)
                if 0x180 < each["identifier"] < 0x700 and each["wait_us"] and each["seen_us"]), default=0)


def test_load_bounds_what_generated_networks_show():
    for seed in (3, 13):
        wrong, share, near = judged(seed, recorded())
        assert not wrong and share > 60 and 0.8 < near <= 1, (seed, wrong, share, near)


def generated(seed):
    return judged(seed, real())


def all_load_bounds_what_500_networks_show():
    """No wait is above its bound; of those whose bus is full to 60 % or more, a tenth comes within a tenth of a PDO's bound."""
    real()
    found = in_parallel(generated, list(range(500)))
    assert not [wrong for wrong, _, _ in found if wrong], found
    full = [each for _, share, each in found if share >= 60]
    near = sum(each >= 0.9 for each in full)
    print(f"load: of 500 networks {len(full)} have a bus that is full to 60 % or more; in {near} of these the longest wait of a PDO is "
          f"within a tenth of its bound")
    assert len(full) >= 100 and near * 10 >= len(full), (len(full), near)

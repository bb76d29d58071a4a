"""What `explain`, `stats`, `timeline` and `candump` show: a script alone, and recordings in the words of one."""
import json
import re

from helper import example, is_refused, put, recorded, run

SCRIPT, REPLIES = example("servo_axes.txt"), example("servo_axes.replies.txt")


def shown(command, *words):
    return run(command, "--cobench", recorded(), *words)


def said(command, *words):
    """What a command prints of an example, whose errors are accepted."""
    status, output, faults = shown(command, "--allow", "refused", *words)
    assert status == 0 and not faults.replace("--allow: note: nothing is accepted by 'refused'\n", ""), (status, faults)
    return output.decode()


def log_lines():
    """The planned run of servo_axes as a log: 428 frames, the first one at 55 us of it."""
    return run("candump", REPLIES)[1].decode().splitlines(keepends=True)


def explained_frames():
    """What `explain` says of the frames of the kept trace: microsecond and text."""
    lines = run("explain", "--names", SCRIPT, REPLIES)[1].decode().splitlines()
    return [(int(line[:10]), line[11:]) for line in lines if line[11:15] != "note"]


def content_of(page):
    return json.loads(re.search(r'(?s)id="content">(.*?)</script>', page).group(1))


def without_wrong(page):
    """A page without what it says of itself and of what is wrong, which stands last in its content."""
    return re.sub(r',"made":".*?</script>', "", page, count=1)


def test_a_script_alone_is_run():
    script = example("io_modules.txt")
    trace = run("explain", script, example("io_modules.replies.txt"))[1].decode()
    assert said("explain", script) == trace and trace.count("\n") > 200
    assert said("candump", script) == run("candump", example("io_modules.replies.txt"))[1].decode()
    assert said("stats", script) == run("stats", "--script", script, example("io_modules.replies.txt"))[1].decode()
    drawn = said("timeline", script)
    of_replies = run("timeline", "--script", script, example("io_modules.replies.txt"))[1].decode()
    assert without_wrong(drawn) == without_wrong(of_replies), "of replies alone it isn't known what is wrong"


def test_the_errors_of_a_script_are_reported_beside_its_run():
    status, output, faults = shown("explain", SCRIPT)
    assert status == 1 and faults.count("[refused]\n") == 3 and output.startswith(b"0000000220 701 x_axis boot-up\n"), faults
    assert shown("candump", "--trace", "1", SCRIPT)[0::2] == (0, "")
    is_refused(shown("stats", "--trace", "7", SCRIPT), "the script has ")


def test_a_recording_is_explained_as_its_trace_is():
    put("run.log", "".join(log_lines()).encode())
    lines = [(int(line[:10]), line[11:]) for line in said("explain", "--names", "--log", "run.log", SCRIPT).splitlines()]
    assert lines == [(time - 55, text) for time, text in explained_frames()] and len(lines) == 428
    signals = [said("explain", "--signals", "--log", "run.log", SCRIPT), run("explain", "--signals", SCRIPT, REPLIES)[1].decode()]
    ours, planned = ([line.split(",")[1:] for line in each.splitlines()] for each in signals)
    assert ours == planned and len(ours) > 100


def test_a_recording_that_begins_later_has_the_names_of_its_pdos():
    put("run.log", "".join(log_lines()[300:]).encode())
    texts = [line[11:] for line in said("explain", "--names", "--log", "run.log", SCRIPT).splitlines()]
    assert texts == [text for _, text in explained_frames()[300:]]
    assert any("x_actual: 6041h Statusword=" in text for text in texts)


def test_each_form_of_a_recording_is_shown_alike():
    texts = [text for _, text in explained_frames()]
    for form in ("asc", "trc", "trc21", "csv"):
        put("run", run("candump", "--format", form, REPLIES)[1])
        assert [line[11:] for line in said("explain", "--names", "--log", "run", SCRIPT).splitlines()] == texts, form


def test_what_is_no_frame_of_the_network_is_shown_too():
    lines = log_lines()
    time = lines[300].split()[0]
    lines[301:301] = [f"{time} can0 18FEF100#0011\n", f"{time} can0 20000008#0000000000000000\n", f"{time} can0 181#R\n"]
    put("run.log", "".join(lines).encode())
    texts = [line[11:] for line in said("explain", "--log", "run.log", SCRIPT).splitlines()]
    assert texts[301:304] == ["18FEF100 frame of 29 bits: 00 11", "- error frame", "181 remote frame"], texts[300:305]
    table = said("stats", "--format", "csv", "--log", "run.log", SCRIPT).splitlines()
    assert [line.split(",")[:3] for line in table[-3:]] == [["-", "error frame", "1"], ["181h", "remote frame", "1"],
                                                            ["18FEF100h", "frame of 29 bits", "1"]], table[-4:]
    content = content_of(said("timeline", "--log", "run.log", SCRIPT))
    foreign = [row for row in content["sorts"] if content["kinds"][row[1]] == "other"]
    # 67 + 16 bits, 6 + 8 + 3, and 47: as ISO 11898 has them.
    assert [(row[0], row[4], row[5]) for row in foreign] == [(0x18FEF100, "frame of 29 bits: 00 11", 83), (0, "error frame", 17),
                                                             (0x181, "remote frame", 47)], foreign


def test_the_numbers_of_a_recording_end_with_it():
    put("run.log", "".join(log_lines()).encode())
    output = said("stats", "--log", "run.log", SCRIPT)
    assert output.startswith("run.log\n428 frames in 320.277 ms at 1000 kbit/s;"), output[:200]
    assert "at 500 kbit/s" in said("stats", "--log", "run.log", "--bitrate", "500", SCRIPT)
    boots = said("stats", "--log", "run.log", "--table", "boots", "--format", "csv", SCRIPT).splitlines()
    # By the trace: x_axis boots at 0.055 ms and is started at 8.499 ms behind that.
    assert boots[1] == "1,x_axis,0.000,8.499,8.499,started", boots


def test_a_part_of_a_recording_is_shown():
    lines = log_lines()
    put("run.log", "".join(lines).encode())
    part = said("explain", "--log", "run.log", "--from", "L301", "--to", "L310", SCRIPT).splitlines()
    assert part == said("explain", "--log", "run.log", SCRIPT).splitlines()[300:310]
    assert said("candump", "--log", "run.log", "--from", "L101", "--to", "L110", SCRIPT).splitlines()[0].split()[1:] == lines[100].split()[1:]


def test_a_recording_that_is_cut_or_set_back_is_shown_and_that_is_said():
    lines = log_lines()
    lines[300:] = [re.sub(r"\(\d+\.", "(0000000000.", line) for line in lines[300:]]
    put("run.log", "".join(lines).encode()[:-5])
    status, output, faults = shown("explain", "--allow", "refused", "--log", "run.log", SCRIPT)
    assert status == 0 and output.count(b"\n") == 427
    assert "run.log:301: the recorder's clock is set back" in faults and "run.log:428: the recording is cut here" in faults, faults


def test_words_that_do_not_go_together_are_refused():
    put("run.log", "".join(log_lines()).encode())
    is_refused(shown("explain", "--from", "1", SCRIPT), "--from, --to and --channel are words of --log")
    is_refused(shown("stats", "--log", "-", "-"), "the standard input can be one file alone")
    is_refused(shown("timeline", "run.log"), "run.log:1: this is no line of a trace: ")

"""The examples and the documents: what they show is what the tools and cobench print."""
import csv
import importlib.machinery
import importlib.util
import io
import os
import re

from helper import EXAMPLES, ROOT, example, file, is_fine, kept, put, recorded, run, session

from cobench_tools import concise
from cobench_tools.commands.live import PORT
from cobench_tools.main import COMMANDS

FOLDERS = "", "docs", "docs/rules", "examples", "reference", "tools", "bench"
PAGES = [os.path.join(folder, name) for folder in FOLDERS for name in os.listdir(os.path.join(ROOT, folder))
         if name.endswith(".md")]


def test_the_stored_sessions_have_the_examples_with_the_kept_replies():
    for name, title in (("first_network", b"a network of one node with a heartbeat"), ("io_modules", b"two I/O modules and their"),
                        ("servo_axes", b"two servo drives and their"), ("turntable", b"a turntable of version 3"),
                        ("pressure_line", b"two pressure transmitters and a process")):
        is_fine(run("expand", example(name + ".txt")), session(title))
        answers = re.sub(rb"(?m)^> .*\n", b"", session(title, "stdout"))
        assert answers == file(EXAMPLES, name + ".replies.txt"), name


def test_the_quick_start_is_what_its_commands_print():
    """The script is the example's without its comments; what stands behind a command with a $ is all that it prints."""
    blocks = blocks_of(page("README.md"))
    lines = [line for line in page("examples", "quick_start.txt").splitlines() if not line.startswith("#")]
    assert blocks[0].splitlines() == lines
    command, output = re.fullmatch(r"\$ tools/cobtool (.*)\n((?:.*\n)+)", blocks[1]).groups()
    assert told(*command.split()) == output


def page(*parts):
    return file(ROOT, *parts).decode()


def told(*words):
    """What cobtool with these words tells of the examples: its output and its faults."""
    if not os.path.exists("examples"):
        os.symlink(EXAMPLES, "examples")
    status, output, faults = run(*words, "--cobench", recorded())
    assert status in (0, 1) and "Traceback" not in faults, (words, status, faults)
    return output.decode() + faults


def blocks_of(text):
    """The indented blocks of a page, each without its indent."""
    return [re.sub(r"(?m)^    ", "", block) for block in re.findall(r"(?m)(?:^    .*\n)+", text)]


def test_from_plan_to_machine_has_what_its_commands_tell():
    """Each block behind a command is what it tells, line by line; that of `conform` is all that it tells."""
    blocks = blocks_of(page("docs", "on_the_machine.md"))
    answers, output = 0, None
    for block in blocks:
        if block.startswith("tools/cobtool "):
            output = told(*block.split()[1:])
        elif block.startswith("examples/"):
            assert set(block.splitlines()) <= set(output.splitlines()), set(block.splitlines()) - set(output.splitlines())
            assert block.count(": error: ") == output.count(": error: "), (block, output)
            assert block == output or "[sdo-value]" not in block, output
            answers += 1
    assert answers == 3 and file("run.html").decode().count("pdo-swapped")
    assert "[late]" not in told("load", "--allow", "refused", "--assume", "20000", "--window", "5000", "examples/servo_axes.txt")


def alarms_of(script):
    """When the run of a script has the emergency of a heartbeat that is missed, in microseconds."""
    return [int(time) for time in re.findall(r"(?m)^([0-9]+) .* EMCY 8130h", told("explain", script))]


def test_a_day_edits_the_example():
    """Each command of the page is run as it stands, but for `live`; each edit is of a line of the example, with the slip as reported."""
    text, script = page("docs", "a_day_with_cobench.md"), file(EXAMPLES, "network.txt").decode()
    edits = re.findall(r"`([^`]+)` (?:becomes|has become) `([^`]+)`", text)
    assert len(edits) == 3 and all(script.count(old + "\n") == 1 for old, _ in edits), edits
    blocks = blocks_of(text)
    commands = [line for block in blocks for line in block.splitlines() if line.startswith("tools/cobtool ")]
    assert commands[0] == "tools/cobtool live --open examples/network.txt" and len(commands) == 5 and f":{PORT}/" in text
    for command in commands[1:]:
        said = told(*command.partition(" > ")[0].split()[1:])
        assert "error" not in said.split("no errors")[0] or "<html" in said, (command, said)
    slip = next(block for block in blocks if "[E09]" in block)
    for name in ("servo_drive.eds", "digital_io.eds", "rotary_encoder.eds", "plc.eds"):
        os.symlink(os.path.join(EXAMPLES, name), name)
    put("network.txt", script.replace(*edits[1]).encode())
    assert told("check", "network.txt").startswith(slip)
    put("network.txt", script.encode())
    alarms = [alarms_of("network.txt")]
    for old, changed in (edits[0], edits[2]):
        put("network.txt", script.replace(old, changed).encode())
        assert told("check", "network.txt").startswith("no errors, no warnings; 3 of 3 nodes booted")
        alarms.append(alarms_of("network.txt"))
    assert len(alarms[0]) == len(alarms[2]) == 1 and alarms[0][0] - alarms[2][0] in range(99_000, 101_000), alarms


def test_from_plan_to_machine_has_the_columns_of_the_load():
    """It has the rows of all frames."""
    found = re.findall(r"(?m)^\| ([0-9A-F]{3}h) \| (.*) \|$", page("docs", "on_the_machine.md"))
    table = told("load", "--format", "csv", "--table", "frames", "--allow", "refused", "--assume", "20000", "examples/servo_axes.txt")
    rows = {row["COB-ID"]: row for row in csv.DictReader(io.StringIO(table)) if row["In time"]}
    columns = "Frames", "Comes", "Share with stuff bits [%]", "Longest wait with stuff bits [ms]", "In the trace [ms]"
    assert {key: cells.split(" | ") for key, cells in found} == {key: [row[name] or "-" for name in columns] for key, row in rows.items()}


def test_the_recording_has_three_faults_in_the_planned_run():
    planned = run("candump", example("servo_axes.replies.txt"))[1].splitlines()
    lines = file(EXAMPLES, "servo_axes.log").splitlines()
    lines.insert(309, b"(0000000001.201109) can0 701#05")
    assert [(number + 1, line) for number, (line, other) in enumerate(zip(lines, planned)) if line != other] == [
        (28, b"(0000000001.003052) can0 601#237D600280841E00"), (275, b"(0000000001.120142) can0 181#0637A8610000")]
    assert len(lines) == len(planned) == 428


def test_the_network_with_a_controller_on_the_page_is_that_of_the_example():
    """Its lines stand in the script, or in what `explain` prints, in their order; that of `check` is all that it prints."""
    part = re.search(r"(?s)\n## The controller is the manager\n(.*?)\n## ", page("docs", "first_network.md")).group(1)
    script, check, *traces = blocks_of(part)
    assert set(script.splitlines()) <= set(file(EXAMPLES, "network.txt").decode().splitlines()), script
    command, output = re.fullmatch(r"\$ tools/cobtool (.*)\n((?:.*\n)+)", check).groups()
    assert told(*command.split()) == output
    said = told("explain", "examples/network.txt").splitlines()
    shown = [line for block in traces for line in block.splitlines() if line != ".."]
    assert len(shown) == 13 and [line for line in said if line in shown] == shown, shown


def test_the_trace_on_the_page_is_that_of_the_example():
    found = re.findall(r"(?m)^    (\d{10} .*?) {2,}(\d{10} .*)$", page("docs", "first_network.md"))
    replies = file(EXAMPLES, "servo_axes.replies.txt").decode().splitlines()
    explained = kept("servo_axes.explained.txt").decode().splitlines()
    assert len(found) > 10
    for line, said in found:
        assert line in replies and said in explained, line


def test_the_numbers_with_a_fraction_on_the_page_are_those_of_the_example():
    """Lines of blocks are commands of the script, or lines of its replies."""
    part = page("docs", "first_network.md").partition("\n## Numbers with a fraction\n")[2]
    known = file(EXAMPLES, "pressure_line.txt") + file(EXAMPLES, "pressure_line.replies.txt")
    lines = [line.strip() for block in blocks_of(part) for line in block.splitlines()]
    assert len(lines) == 16 and set(lines) - {".."} <= set(known.decode().splitlines()), set(lines) - set(known.decode().splitlines())


def test_the_page_has_the_refusals_of_the_example():
    os.chdir(ROOT)
    output = run("refusals", "examples/servo_axes.txt", "examples/servo_axes.replies.txt")[1].decode()
    assert re.sub(r"(?m)^", "       ", output).rstrip(" ") in page("docs", "first_network.md")


def test_the_readme_tells_the_slip_as_check_does():
    os.chdir(ROOT)
    status, output, _ = run("check", "--cobench", recorded(), "examples/slip.txt")
    assert status == 1 and re.sub("(?m)^", "    ", output.decode()).rstrip(" ") in page("README.md"), output


def test_the_readme_is_short_and_has_each_tool_that_it_names():
    text = page("README.md")
    assert len(text.splitlines()) <= 150
    for name in set(re.findall(r"cobtool ([a-z]+)", text)):
        assert name in COMMANDS or name in ("draws", "is"), name


def test_pages_name_no_tool_by_an_old_name():
    for name in PAGES:
        found = re.findall(r"tools/(?:eds|expand|explain|export|refusals|timeline|candump)\b", page(*name.split("/")))
        assert not found, (name, found)


def test_the_index_leads_to_each_page():
    index = page("docs", "README.md")
    for name in os.listdir(os.path.join(ROOT, "docs")):
        assert not name.endswith(".md") or name == "README.md" or f"({name})" in index, name


def test_the_program_on_the_page_reads_a_concise_dcf():
    code = re.search(r"(?s)\n(      import struct\n.*?)\n\n  With", page("docs", "masters.md")).group(1)
    names = {}
    exec(re.sub("(?m)^      ", "", code), names)
    lines = re.findall(rb"(?m)^lines 11\n((?:.*\n){11})", file(EXAMPLES, "io_modules.replies.txt"))[0]
    data = concise.bytes_of(lines.splitlines())
    assert list(names["writes"](data)) == concise.writes_of(data) and len(concise.writes_of(data)) == 17


def test_documents_name_files_that_are_there():
    for name in PAGES:
        for link, part in re.findall(r"\]\(([^)#:]*)(#[^)]*)?\)", page(*name.split("/"))):
            path = os.path.join(ROOT, os.path.dirname(name), link) if link else os.path.join(ROOT, name)
            assert os.path.exists(path), f"{name}: {link}"
            assert not part or part[1:] in anchors(file(path).decode()), f"{name}: {link}{part}"


def anchors(text):
    """The anchors of the headings of a page."""
    titles = re.findall("(?m)^#+ (.*)$", text)
    return {re.sub("[^a-z0-9 _-]", "", title.lower()).replace(" ", "-") for title in titles}


def floors():
    """The module of the program that draws the crates."""
    loader = importlib.machinery.SourceFileLoader("floors", os.path.join(ROOT, "tools", "floors"))
    module = importlib.util.module_from_spec(importlib.util.spec_from_loader("floors", loader))
    loader.exec_module(module)
    return module


def test_the_totals_of_planted_bodies_are_those_of_the_table():
    text = page("docs", "planted.md")
    rows = [[int(cell) for cell in row.split("|")[3:9]] for row in text.splitlines() if row.startswith("| `")]
    assert all(made == sum(became) for made, *became in rows)
    made, refused, right, limit, broken, passed = map(sum, zip(*rows))
    assert f"Of {made:,} bodies that `rt plant` made, {refused:,} are refused, {right} answer the same by their contract" in text
    assert f"and {passed} pass" in text
    assert f"The other {limit + broken} say nothing: {limit} met a limit of the search, and {broken} don't compile." in text


def sources(crate):
    """The sources and the definitions of a crate."""
    folders = [os.path.join(ROOT, "crates", crate, name) for name in ("src", "specs")]
    return "\n".join(page(folder, name) for folder in folders if os.path.isdir(folder) for name in sorted(os.listdir(folder))
                     if name.endswith((".rt", ".antt")))


def test_what_is_proved_is_one_statement_a_line_with_contracts_of_its_crate():
    rows = [line.strip("|").split("|") for line in page("docs", "proved.md").partition("\n## ")[0].splitlines() if line.startswith("| ")][1:]
    assert len(rows) > 400 and all(len(row) == 3 and len(row[1].split()) <= 60 for row in rows), max(rows, key=lambda row: len(row[1].split()))
    crate, texts = "", {}
    for owner, _, contracts in rows:
        crate = owner.strip(" `") or crate
        text = texts.setdefault(crate, sources(crate))
        for name in re.findall(r"\w+", "".join(re.findall(r"`[^`]+`", contracts))):
            assert re.search(rf"\b{name}\b", text), (crate, name)
    crates = {name for name in os.listdir(os.path.join(ROOT, "crates")) if not name.startswith(("checks_", "bench_"))} - {"cobench"}
    assert not crates - set(texts), crates - set(texts)


def test_the_drawing_of_the_crates_is_that_of_their_sources():
    assert floors().drawn() == page("docs", "floors.svg"), "tools/floors draws it anew"


def test_each_crate_has_a_page_that_says_what_it_stands_on():
    drawing = floors()
    crates = [crate for _, those in drawing.floors() for crate in those]
    used = drawing.uses(crates)
    assert set(crates) == set(os.listdir(os.path.join(ROOT, "crates")))
    for crate in crates:
        text = page("crates", crate, "README.md")
        said = {part.partition("**")[0]: re.findall(r"\[`(\w+)`\]", part) for part in text.split("\n**")[1:]}
        assert text.startswith(f"# {crate}\n") and said["Stands on"] == used[crate], (crate, said["Stands on"], used[crate])
        assert crate == "network_laws" or said["Used by"] == [each for each in crates if crate in used[each]], crate
        for name in re.findall(r"`((?:src|specs)/[^`]+)`", text):
            assert os.path.exists(os.path.join(ROOT, "crates", crate, name)), (crate, name)


def test_the_guide_for_a_rule_names_what_is_there():
    text = re.search(r"(?s)\n## How a rule is added\n(.*?)\n## ", page("docs", "architecture.md")).group(1)
    files = {name for folder in ("tools/cobench_tools", "reference/rules") for _, _, names in os.walk(os.path.join(ROOT, folder))
             for name in names}
    for name in re.findall(r"`(\w+\.py)`", text):
        assert name in files, name
    crates = {name for row in re.findall(r"(?m)^\| (`[^|]*) \|", text) for name in re.findall(r"`(\w+)`", row)} - {"tools", "editors"}
    assert len(crates) > 12 and crates <= set(os.listdir(os.path.join(ROOT, "crates"))), crates
    law, crate = "no_periodic_message_is_forgotten", "nmt_boot"
    assert law in text and f"fn {law}()" in sources(crate)

"""`eds` and `expand`: data sheets, scripts that take in others, comments."""
import os

from helper import BINARY, EXAMPLES, example, file, is_fine, is_refused, put, run, session


def test_eds_counts_the_lines_of_a_data_sheet():
    lines = session(b"two servo drives and their").split(b"\n")
    is_fine(run("eds", "servo", example("servo_drive.eds")), b"\n".join(lines[:1604]) + b"\n")


def test_eds_counts_as_the_program_does():
    for text, block in ((b"", b"eds x 0\n"), (b"\n", b"eds x 1\n\n"), (b"[1017]", b"eds x 1\n[1017]\n"),
                        (b"[1017]\nDataType=6", b"eds x 2\n[1017]\nDataType=6\n"),
                        (b"[1017]\r\nDataType=6\r\n", b"eds x 2\n[1017]\nDataType=6\n"),
                        (b"[1017]\r\r\n\n\r", b"eds x 3\n[1017]\n\n\n"), (b"a\rb\n", b"eds x 1\na\rb\n"),
                        (b"\xef\xbb\xbf; K\xe4lte\n", b"eds x 1\n\xef\xbb\xbf; K\xe4lte\n")):
        status, output, faults = run("eds", "--allow", "sheet x type", "x", "-", given=text)
        assert status == 0 and output == block and faults in ("", "--allow: note: nothing is accepted by 'sheet x type'\n"), faults


def test_eds_refuses_what_the_program_would_refuse():
    for text, why in ((b"\n" * 65537, "65,537 lines"), (b"a" * 4097, "line 1 has 4,097 bytes"),
                      (b"\n" + b"a\n" * 100 + b"\x07", "line 102 has a byte 07h"),
                      ((b"a" * 4000 + b"\n") * 270, "over 1,048,576 bytes"),
                      ("[1017]\r\nDataType=6\r\n".encode("utf-16-le"), "UTF-16"),
                      ("[1017]\r\n".encode("utf-16"), "UTF-16")):
        is_refused(run("eds", "x", "-", given=text), why)
    is_refused(run("eds", "x-axis", "-"), "x-axis: a name has 1 to 32")
    assert run("eds", "x" * 32, "-", given=b"a" * 4096 + b"\r\n" + b"\n" * 65535)[0] == 0


def test_expand_gives_a_script_without_files_and_comments_as_it_is():
    is_fine(run("expand", example("first_network.txt")), file(EXAMPLES, "first_network.txt"))


def test_expand_takes_comments_out_and_files_in():
    os.makedirs("sub")
    put("sub/x.eds", b"# kept\r\n[1017]")
    put("sub/net.txt", b"# one\n  # two\neds x <x.eds\neds y < x.eds \r\neds z 2\n# block\n\nnode 5 p x\r\n \n#end\ndiag")
    block = b"%d\n# kept\n[1017]\n" % 2
    is_fine(run("expand", "sub/net.txt"),
            b"eds x " + block + b"eds y " + block + b"eds z 2\n# block\n\nnode 5 p x\r\n \ndiag\n")
    is_fine(run("expand", "-", given=b"eds x <sub/x.eds"), b"eds x " + block)
    is_fine(run("expand", "-"), b"")


def test_expand_says_where_something_is_missing():
    put("net.txt", b"#\neds x <no.eds\n")
    is_refused(run("expand", "net.txt"), "net.txt:2: ", "no.eds: No such file")
    put("net.txt", b"bitrate 500\neds x 3\n[1017]\n")
    is_refused(run("expand", "net.txt"), "net.txt:2: eds x 3: the script ends after 1 of the 3 lines")
    put("net.txt", b"eds x <\n")
    is_refused(run("expand", "net.txt"), "net.txt:1: a file's name is missing")
    put("x.eds", BINARY)
    put("net.txt", b"\n\neds x <x.eds\n")
    is_refused(run("expand", "net.txt"), "net.txt:3: x.eds: this is no text")


def test_a_comment_can_stand_behind_a_file():
    put("x.eds", b"[1017]\n")
    for behind in (b"", b" ", b" # the drive", b"\t#", b"   # <y.eds"):
        is_fine(run("expand", "-", given=b"eds x <x.eds" + behind + b"\n"), b"eds x 1\n[1017]\n")
    put("x#1.eds", b"[1018]\n")
    is_fine(run("expand", "-", given=b"eds x <x#1.eds\n"), b"eds x 1\n[1018]\n")


def test_expand_takes_scripts_in():
    os.makedirs("stations/sheets")
    put("stations/sheets/x.eds", b"[1017]\n")
    put("stations/base.txt", b"# of all machines\r\nbitrate 500\r\neds x <sheets/x.eds\n<end.txt")
    put("stations/end.txt", b"horizon 5")
    put("net.txt", b"version 2\n  < stations/base.txt  # the base\n<stations/end.txt\neds y 1\n<not.taken\ndiag")
    is_fine(run("expand", "net.txt"),
            b"version 2\nbitrate 500\r\neds x 1\n[1017]\nhorizon 5\nhorizon 5\neds y 1\n<not.taken\ndiag\n")


def test_expand_says_which_script_cannot_be_taken_in():
    put("net.txt", b"\n<base.txt\n")
    is_refused(run("expand", "net.txt"), "net.txt:2: base.txt: No such file")
    put("base.txt", b"#\n#\neds x <no.eds\n")
    is_refused(run("expand", "net.txt"), "net.txt:2: base.txt:3: no.eds: No such file")
    put("base.txt", b"<net.txt\n")
    is_refused(run("expand", "net.txt"), "net.txt:2: base.txt:1: net.txt takes itself in")
    put("net.txt", b"< \n")
    is_refused(run("expand", "net.txt"), "net.txt:1: a file's name is missing behind <")
    put("-", b"horizon 1\n")
    is_fine(run("expand", "-", given=b"<-\n"), b"horizon 1\n")


def test_expand_takes_in_no_more_than_cobench_would_read():
    for number in range(22):
        put(f"{number}.txt", f"<{number + 1}.txt\n".encode() * 2)
    is_refused(run("expand", "0.txt"), "over 20 scripts are taken in, one in the other")
    put("14.txt", b"")
    is_refused(run("expand", "0.txt"), "over 10,000 scripts are taken in")
    put("7.txt", b"bitrate 500\n" * 50_000)
    is_refused(run("expand", "0.txt"), "over 64 MiB, and cobench takes no more")


def test_lines_that_end_by_cr_alone_are_told():
    put("net.txt", b"# one\rnode 5 p x\r")
    is_refused(run("expand", "net.txt"), "net.txt: its lines end by CR alone")
    is_refused(run("eds", "x", "net.txt"), "net.txt: its lines end by CR alone")
    put("net.txt", b"bitrate 500\n# one\rnode 5 p x\n")
    is_refused(run("expand", "net.txt"), "net.txt:2: a CR stands inside this comment")


def test_the_end_that_dos_wrote_is_left_out():
    put("x.eds", b"[1017]\r\nDataType=6\r\n\x1a")
    is_fine(run("eds", "x", "x.eds"), b"eds x 2\n[1017]\nDataType=6\n")
    is_fine(run("expand", "-", given=b"eds x <x.eds"), b"eds x 2\n[1017]\nDataType=6\n")


def test_values_of_pdo_objects_are_told():
    sheet = b"[1017]\nDataType=6\nParameterValue=5\n[1400sub1]\nDataType=7\nParameterValue=0x201\n[1A00]\nObjectType=8\n"
    sheet += b"DataType=7\nCompactSubObj=2\n[1A00Value]\nNrOfEntries=1\n1=0x20000008\n"
    put("x.dcf", sheet)
    told = "2 values of PDO objects are not used, as messages make them"
    block = b"eds x 13\n" + sheet
    for done, who in ((run("eds", "--allow", "sheet x pdo", "x", "x.dcf"), "data sheet x: "), (run("expand", "-", given=b"eds x <x.dcf\n"), "")):
        assert done[:2] == (0, block) and done[2].startswith(f"x.dcf:6: warning: {who}{told}") and len(done[2].splitlines()) == 1, done

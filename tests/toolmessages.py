"""What the tool says where something is wrong: cases by hand, each with the whole message."""
import os
import subprocess

from tooltrying import EXAMPLES, TOOLS, folder, holds, printed, same, tool

CUT = "sink a\n"
# A text and what check says of it, without "depot.net" at the beginning of each line.
MESSAGES = [
    ("", ':1: refused 3: the net has no blocks; write one on each line, as "source -> a" and "sink a"'),
    ("source -> a\n", ":1: refused 3: the net has 1 block; it needs 2 to 64"),
    ("source -> a\nsnik a\n", ':2: "snik" is no block; did you mean "sink"?'),
    ("source -> a\nSink a\n", ':2: "Sink" is no block; did you mean "sink"?'),
    ("source -> a\nqueue a\n", ':2: "queue" is no block; the blocks are source, sink, fork, mux, demux, merge, data, control, add, sub, equal and less'),
    ("-> a\n" + CUT, ':1: no block stands before "->"; the blocks are source, sink, fork, mux, demux, merge, data, control, add, sub, equal and less'),
    ("source a\n" + CUT, ':1: "->" is missing; write "source -> a"'),
    ("source -> a\nsink a -> b\n", ':2: a sink has no outputs; write "sink a"'),
    ("source -> a -> b\n" + CUT, ':1: a line has one "->"; write "source -> a", and another block on a line of its own'),
    ("source -> a b\n" + CUT, ':1: source has no inputs and 2 outputs here; write "source -> a"'),
    ("source x -> a\n" + CUT, ':1: source has 1 input and 1 output here; write "source -> a"'),
    ("source -> a\nadd a -> b\nsink b\n", ':2: add has 1 input and 1 output here; write "add a b -> c or add a 5 -> c"'),
    ("source -> a\nadd 5 a -> b\nsink b\n", ':2: the number is the second operand of add; write "add a 5 -> c"'),
    ("source -> a\nadd a 5 6 -> b\nsink b\n", ':2: "6" is a second number; a block holds one at most'),
    ("source -> a\nadd a 4294967296 -> b\nsink b\n", ':2: "4294967296" is no 32-bit word; write a number from 0 to 4294967295 (0xffffffff)'),
    ("source -> a\nadd a 0x1ffffffff -> b\nsink b\n", ':2: "0x1ffffffff" is no 32-bit word; write a number from 0 to 4294967295 (0xffffffff)'),
    ("source -> a\nadd a -1 -> b\nsink b\n", ":2: -1 is no 32-bit word, as words have no sign; write 4294967295 if adding it is to take 1 away"),
    ("source -> a\nadd a 5x -> b\nsink b\n", ':2: "5x" is no number; write a number from 0 to 4294967295, decimal or hexadecimal (0x1f)'),
    ("source -> a\ndata a 1 -> b\nsink b\n", ':2: the first word of a buffer stands before its input; write "data 1 a -> b"'),
    ("source -> a\ncontrol 1 a -> b\nsink b\n", ':2: a control holds no number; write "control a -> b"'),
    ("source -> a\nfork a -> b 7\nsink b\n", ":2: \"7\" stands where a channel's name should; write \"fork a -> b c\""),
    ("source -> a-b\nsink a-b\n", ':1: "a-b" is no name; write letters, digits and underscores, and no digit first\n'
     'depot.net:2: "a-b" is no name; write letters, digits and underscores, and no digit first'),
    ("source -> a\nsource -> b\nmerge a b -> c\nsink c\n", ':3: merge has 2 inputs and 1 output here; write "merge a b -> data report"'),
    ("source -> a\nfork a -> b\nsink b\n", ":2: refused 5: fork has 1 output; it has to have 2 to 8"),
    ("source -> a\nfork a -> b c d e f g h i j k l m n o p q r\n" + "".join(f"sink {name}\n" for name in "bcdefghijklmnopqr"),
     ":2: refused 5: fork has 17 outputs; it has to have 2 to 8"),
    ("source -> s\nsource -> a\nmux s a -> b\nsink b\n", ":3: refused 5: mux has 1 input beside the select; it has to have 2 to 8"),
    ("source -> in\nadd in 5 -> out\nsink ou\n",
     ':2: refused 8: channel "out" comes out of add (line 2) and goes into no block; let one block take it, as "sink out"; did you mean "ou"?\n'
     'depot.net:3: refused 8: channel "ou" comes out of no block and goes into sink (line 3); put "ou" behind the "->" of one block; did you mean "out"?'),
    ("source -> a\nsink a\nsink a\n", ':3: refused 8: channel "a" goes into sink (line 2) and sink (line 3); it may enter one port: write "fork a -> a_1 a_2" and let them take '
     "the copies"),
    ("source -> a\nsource -> a\nsink a\n",
     ':2: refused 8: channel "a" comes out of source (line 1) and source (line 2); it may leave one port: give each its own name, and join them with "merge" if both are meant'),
    ("source -> a\nadd a a -> b\nsink b\n", ':2: refused 8: channel "a" goes into first operand of add (line 2) and second operand of add (line 2); '
     'it may enter one port: write "fork a -> a_1 a_2" and let them take the copies'),
    ("source -> a\x0c\n# \u2028 one line\nsnk a\n", ':3: "snk" is no block; did you mean "sink"?'),
    ("source -> a\r\nsnk a\r\n", ':2: "snk" is no block; did you mean "sink"?'),
    ("\ufeffsource -> a\nsnk a\n", ':2: "snk" is no block; did you mean "sink"?'),
    ("source -> a\n\x1b[2J a\n", ':2: "\\x1b[2J" is no block; the blocks are source, sink, fork, mux, demux, merge, data, control, add, sub, equal and less'),
    ("source -> a\nadd a " + "1" * 5000 + " -> b\nsink b\n", ':2: "' + "1" * 40 + '.." is no 32-bit word; write a number from 0 to 4294967295 (0xffffffff)'),
    ("source -> a\n" + "sink a\n" * 9, ':3: refused 8: channel "a" goes into ' + ", ".join(f"sink (line {line})" for line in range(2, 10)) + " and sink (line 10); it may enter one port: "
     "give them copies by forks; one has at most 8 outputs, so that one fork has to feed others"),
    ("source -> a\nsink a\nsink a\nsource -> a_1\nsink a_1\n", ':3: refused 8: channel "a" goes into sink (line 2) and sink (line 3); it may enter one port: write "fork a -> a_1_ a_2" '
     "and let them take the copies"),
    ("source -> a\nfork a -> b b\nsink b\n",
     ':2: refused 8: channel "b" comes out of output 0 of fork (line 2) and output 1 of fork (line 2); it may leave one port: give each its own name, and join them with "merge" if both are meant'),
    ("source -> s\nsource -> a\nmux s a b -> c\nsink c\n", ':3: refused 8: channel "b" comes out of no block and goes into input 1 of mux (line 3); put "b" behind the "->" of one block'),
    ("source -> s\ndemux s a -> b c\nsink b\nsink c\n", ':2: refused 8: channel "a" comes out of no block and goes into data input of demux (line 2); put "a" behind the "->" of one block'),
    ("source -> a\nsource -> b\nmerge a b -> c d\nsink c\n",
     ':3: refused 8: channel "d" comes out of report output of merge (line 3) and goes into no block; let one block take it, as "sink d"'),
    ("channels a b z\nsource -> a\ndata a -> b\nsink b\n", ':1: refused 8: channel "z" comes out of no block and goes into no block; put "z" behind the "->" of one block'),
    ("channels a b a\nsource -> a\ndata a -> b\nsink b\n", ':1: "a" has its number already; name each channel once, before the lines of the blocks'),
    ("".join(f"source -> a{k}\nsink a{k}\n" for k in range(33)), ":65: refused 3: this is block 65 of 66; a net has at most 64: split it into several nets"),
    ("".join(f"source -> a{k}\n" for k in range(33)) + "".join(f"merge {' '.join(f'a{k}' for k in row)} -> d{row[0]} r{row[0]}\nsink d{row[0]}\nsink r{row[0]}\n" for row in
     (range(0, 8), range(8, 16), range(16, 24), range(24, 31), range(31, 33))), ":33: refused 9: this is source 33 of 33; a net has at most 32"),
    ("# a running sum\nsource -> in\nadd back in -> sum\nfork sum -> back out\nsink out\n",
     ':3: refused 10: the loop add (line 3) -sum-> fork (line 4) -back-> add (line 3) has no data buffer; write "data back -> back_data" and let add (line 3) take "back_data" '
     'instead of "back"'),
    ("source -> in\nadd late in -> sum\nfork sum -> back out\ndata 0 back -> late\nsink out\n",
     ':2: refused 11: the loop add (line 2) -sum-> fork (line 3) -back-> data (line 4) -late-> add (line 2) has no control buffer; write "control late -> late_control" and let '
     'add (line 2) take "late_control" instead of "late"'),
    ("source -> a\nsink a\ncontrol b -> b\n", ':3: refused 10: the loop control (line 3) -b-> control (line 3) has no data buffer; write "data b -> b_data" and let control '
     '(line 3) take "b_data" instead of "b"'),
]
# Bytes, the name of their file, and what check says of them.
FILES = [
    (b"source -> a\nsink \xe4\n", "depot.net", "depot.net:2: byte 0xe4 is no text; save the file as UTF-8, or name it .form if it is a stored form"),
    (bytes([0x10]), "x.form", "x.form: refused 1: the form ends after 1 byte, within the reserved bits"),
    (bytes([0x20, 0, 2, 1]), "x.form", "x.form: refused 2: the edition (the first 4 bits) is 2, not 1: it is no stored form, or one of another edition"),
    (bytes([0x10, 1, 2, 1]), "x.form", "x.form: refused 2: a reserved bit (bits 4 to 15) is set"),
    (bytes([0x10, 0, 1, 1]), "x.form", "x.form: refused 3: the number of blocks (byte 2) is 1, not 2 to 64"),
    (bytes([0x10, 0, 2, 0]), "x.form", "x.form: refused 3: the number of channels (byte 3) is 0, not 1 to 128"),
    (bytes([0x10, 0, 2, 1, 0xb0]), "x.form", "x.form: refused 4: block 0 (from bit 32) has kind 11, and the last kind is 10"),
    (bytes([0x10, 0, 2, 1, 0x41]), "x.form", "x.form: refused 5: block 0 (from bit 32) of kind 4 has m = 1, not 2 to 8"),
    (bytes([0x10, 0, 2, 1, 0, 2]), "x.form", "x.form: refused 6: port 0 of block 0 (from bit 32) names channel 1, and the net has channels 0 to 0"),
    (bytes([0x10, 0, 2, 1, 0, 0, 0x20, 1]), "x.form", "x.form: refused 7: the last byte of the form (byte 7) has a bit set behind the last field"),
    (bytes([0x10, 0, 2, 1, 0, 0, 0x20, 0, 0]), "x.form", "x.form: refused 7: the form ends after 8 bytes, and the file has 9"),
    (bytes([0x10, 0, 2, 1, 0, 0, 0, 0]), "x.form",
     'x.form: refused 8: channel "c0" comes out of block 0 (source) and block 1 (source) and goes into no block; let one block take it, as "sink c0"\n'
     'x.form: block 1: refused 8: channel "c0" comes out of block 0 (source) and block 1 (source); it may leave one port: give each its own name, and join them with "merge" if both '
     "are meant"),
]


def messages():
    """Texts and forms with one mistake each: the whole message, the status, and nothing on standard output."""
    with folder() as place:
        for text, wanted in MESSAGES:
            (place / "depot.net").write_text(text)
            same(tool("check", "depot.net", folder=place), (1, "", f"depot.net{wanted}\n"), f"check of {text!r}")
        for data, name, wanted in FILES:
            (place / name).write_bytes(data)
            same(tool("check", name, folder=place), (1, "", f"{wanted}\n"), f"check of {data!r}")
        same(tool("check", "missing.net", folder=place), (1, "", "missing.net: cannot be read: No such file or directory\n"), "check of a file that is not there")
        (place / "many.net").write_text("bad\n" * 30)
        status, out, complaints = tool("check", "many.net", folder=place)
        same((status, out, len(complaints.splitlines()), complaints.splitlines()[-1]), (1, "", 21, "many.net: and 10 more"), "thirty faults")
    return f"{len(MESSAGES)} texts and {len(FILES)} files with a mistake: each message as it should be"


# Words of a command on add5.net, fork.net or most.net, the status, and what is complained; None where argparse says it.
COMMANDS = [
    (["run", "add5.net", "--words", "a=1,4294967296"], 2, 'whemdrosk: --words a=1,4294967296: "4294967296" is no 32-bit word; write a number from 0 to 4294967295 (0xffffffff)'),
    (["run", "add5.net", "--words", "b=1"], 2, 'whemdrosk: --words b=1: there is no source "b"; sources of this net: a'),
    (["run", "add5.net", "--words", "a"], 2, 'whemdrosk: --words a: "a" has no "="; write NAME=1,2,3'),
    (["run", "add5.net", "--words", "a=1", "--words", "a=2"], 2, 'whemdrosk: --words a=2: source "a" is given words twice; give them all in one list'),
    (["run", "add5.net", "--words", "a=1", "--stall", "b@1"], 2, 'whemdrosk: --stall b@1: "b" is the channel of no source or sink, and only these stall: a and c'),
    (["run", "add5.net", "--words", "a=1", "--stall", "c"], 2, "whemdrosk: --stall c: write NAME@2-5, where NAME is the channel of a source or a sink"),
    (["run", "add5.net", "--words", "a=1", "--stall", "c@x"], 2, 'whemdrosk: --stall c@x: "x" names no cycles; write 3 for one cycle, 2-5 for several, 4- for all from there on'),
    (["run", "add5.net", "--words", "a=1", "--stall", "c@5-2"], 2, "whemdrosk: --stall c@5-2: 5-2 ends before it begins; write 2-5"),
    (["run", "add5.net", "--words", "a=1", "--stall", "c@12"], 2, "whemdrosk: --stall c@12: the run has 12 cycles, counted from 0, and 12 is behind them; give more --cycles"),
    (["run", "add5.net", "--words", "a=1", "--stall", "source:c@1"], 2,
     'whemdrosk: --stall source:c@1: "c" is the channel of no source, and only these stall: a'),
    (["run", "pair.net", "--words", "a=1", "--stall", "a@1"], 2, 'whemdrosk: --stall a@1: "a" goes from a source to a sink; write source:a@.. or sink:a@..'),
    (["run", "add5.net", "--words", "a=1", "--cycles", "1048577"], 2, None),
    (["run", "add5.net", "--words", "a=1,,2"], 2, "whemdrosk: --words a=1,,2: a number is missing beside a comma; write 1,2,3"),
    (["run", "add5.net", "--words", "a=" + "1" * 5000], 2, None),
    (["run", "add5.net", "--words", "a=1", "--stall", "c@0", "--cycles", "0"], 2, "whemdrosk: --stall c@0: the run has no cycles, counted from 0, and 0 is behind them; give more --cycles"),
    (["run", "add5.net", "--words", "a=1", "--trace", "t", "--vcd", "t"], 2, "whemdrosk: --trace and --vcd t: these are two files; give each its own name"),
    (["run", "add5.net", "--words", "a=1", "--vcd", "x.form"], 2, "whemdrosk: --vcd x.form: .form is the ending of stored forms; choose another"),
    (["run", "add5.net", "--masks", "good.txt", "--words", "a=1", "--trace", "good.txt"], 2, "whemdrosk: good.txt: this is a file that was read; choose another name"),
    (["draw", "add5.net", "-o", "x.dot", "--stall", "c@1"], 2, "whemdrosk: words, stalls and cycles are for a picture of one cycle; say which one with --at CYCLE"),
    (["draw", "none.net", "-o", "x.dot"], 1, 'none.net:1: refused 3: the net has no blocks; write one on each line, as "source -> a" and "sink a"'),
    (["run", "add5.net", "--words-file", "words.txt"], 1, 'words.txt:2: there is no source "x"; sources of this net: a'),
    (["run", "add5.net", "--words-file", "none.txt"], 1, "none.txt: cannot be read: No such file or directory"),
    (["run", "add5.net", "--words", "a=1", "--masks", "masks.txt"], 1, 'masks.txt:1: "3" is no pair of masks; write the offer mask and the ready mask of a cycle, as 0xffffffff 0x1'),
    (["draw", "add5.net", "-o", "x.gif"], 2, "whemdrosk: -o x.gif: end its name in .svg or .png or .dot"),
    (["draw", "add5.net", "-o", "x.dot", "--words", "a=1", "--at", "9", "--cycles", "5"], 2, "whemdrosk: --at 9: the run has 5 cycles, counted from 0; give more --cycles"),
    (["page", "add5.net", "-o", "add5.net"], 2, "whemdrosk: -o add5.net: end its name in .html or .htm"),
    (["text", "add5.net", "-o", "add5.net"], 2, "whemdrosk: add5.net: this is a file that was read; choose another name"),
    (["run", "add5.net", "--words", "a=1", "--trace", "./add5.net"], 2, "whemdrosk: --trace ./add5.net: .net is the ending of texts; choose another"),
    (["trace", "good.txt", "-o", "good.txt"], 1, 'good.txt:1: "3 3" is no delivery; write cycle, channel and word, as 0 2 17'),
    (["trace", "one.records", "-o", "one.records"], 2, "whemdrosk: one.records: this is a file that was read; choose another name"),
    (["form", "add5.net", "-o", "x.net"], 2, "whemdrosk: -o x.net: .net is the ending of texts; choose another"),
    (["form", "add5.net", "-o", "none/x.form"], 1, "none/x.form: cannot be written: No such file or directory"),
    (["text", "add5.form", "-o", "x.form"], 2, "whemdrosk: -o x.form: .form is the ending of stored forms; choose another"),
    (["records", "masks.txt"], 1, "masks.txt: it has 2 bytes, and a recording has 8 for each delivery; write the records of a run alone"),
    (["trace", "words.txt", "-o", "x.trace"], 1, 'words.txt:2: "x=1" is no delivery; write cycle, channel and word, as 0 2 17'),
    (["run", "add5.net", "--cycles", "few"], 2, None),
    (["run"], 2, None),
    (["walk", "add5.net"], 2, None),
    ([], 2, None),
]


def odd_ends():
    """Nets on standard input and under other names; standard output that nobody reads, that is full, or that cannot show a name; a run that is stopped from the keyboard."""
    text, form = (EXAMPLES / "add5.net").read_bytes(), (EXAMPLES / "add5.form").read_bytes()
    for data in (text, form):
        same(printed("run", "-", "--list", "--cycles", "6", given=data), (EXAMPLES / "add5.out").read_text(), "a net on standard input")
    with folder() as place:
        for name, data in (("net.txt", text), ("net.bin", form), ("bom.net", b"\xef\xbb\xbf" + text.replace(b"\n", b"\r\n"))):
            (place / name).write_bytes(data)
            same(printed("run", name, "--list", "--cycles", "6", folder=place), (EXAMPLES / "add5.out").read_text(), f"a net called {name}")
        (place / "uni.net").write_text("source -> größe\nsink größe\n")
        same(by_shell("whemdrosk check uni.net", place, PYTHONIOENCODING="ascii"), (0, "uni.net: accepted: 2 blocks, 1 channel, 1 source (gr\\xf6\\xdfe) and 1 sink (gr\\xf6\\xdfe)\n", ""),
             "a name that the terminal cannot show")
        (place / "loop.net").write_text("data 0 next -> kept\ncontrol kept -> now\nfork now -> out up\nadd up 1 -> next\nsink out\n")
        same(by_shell("whemdrosk run loop.net --cycles 100000 --list | head -n 1; exit ${PIPESTATUS[0]}", place), (0, "0 0 1\n", ""), "a list of which one line is read")
        same(by_shell("whemdrosk check loop.net > /dev/full", place), (1, "", "standard output: cannot be written: No space left on device\n"), "standard output that is full")
        same(by_shell("whemdrosk check loop.net >&-", place)[0], 0, "standard output that is closed")
        same(by_shell("timeout --preserve-status -s INT 2 whemdrosk run loop.net --cycles 1048576 --list > /dev/null", place)[0], 130, "a run that is stopped from the keyboard")
        same(by_shell("WHEMDROSK_LIBRARY=none.so whemdrosk check loop.net", place), (1, "", "none.so: there is no library, though WHEMDROSK_LIBRARY names it\n"), "a library that is not there")
        same(by_shell("WHEMDROSK_LIBRARY=loop.net whemdrosk check loop.net", place)[0], 1, "a library that is none")
    return "nets on standard input and under other names, output that is not read, full, closed or cannot show a name, and an interrupted run: as they should be"


def by_shell(command, place, **variables):
    """What a command line does: its status, what it prints and what it complains."""
    environment = {name: value for name, value in os.environ.items() if name != "PYTHONUNBUFFERED"} | {"PATH": f"{TOOLS}:{os.environ['PATH']}"} | variables
    done = subprocess.run(["bash", "-c", command], cwd=place, env=environment, capture_output=True, text=True)
    return done.returncode, done.stdout, done.stderr


def commands():
    """Commands with a mistake: status 2, and 1 where the mistake is in a file."""
    with folder() as place:
        for name in ("add5.net", "add5.form"):
            (place / name).write_bytes((EXAMPLES / name).read_bytes())
        (place / "pair.net").write_text("source -> a\nsink a\n")
        (place / "words.txt").write_text("# nothing\nx=1\n")
        (place / "masks.txt").write_text("3\n")
        (place / "good.txt").write_text("3 3\n")
        (place / "one.records").write_text("0 0 1\n")
        (place / "none.net").write_text("# nothing\n")
        before = {path.name: path.read_bytes() for path in place.iterdir()}
        for words, status, wanted in COMMANDS:
            found, out, complaints = tool(*words, folder=place)
            same((found, out), (status, ""), f"status and output of {words}: {complaints}")
            holds("whemdrosk" in complaints and "Traceback" not in complaints if wanted is None else complaints == f"{wanted}\n", f"the complaint of {words}: {complaints}")
        same({path.name: path.read_bytes() for path in place.iterdir()}, before, "the files beside commands that failed")
        (place / "wide.net").write_text("source -> a\nfork a -> " + " ".join(f"b{k}" for k in range(17)) + "\n")
        same(tool("form", "--refused", "wide.net", "-o", "wide.form", folder=place), (1, "", "wide.net:2: refused 5: fork has 17 outputs; it has to have 2 to 8\n"), "a form of 17 ways")
        same(tool("form", EXAMPLES / "circle.net", "-o", "circle.form", folder=place)[0], 1, "the form of a net that is refused")
        holds(not (place / "wide.form").exists() and not (place / "circle.form").exists(), "a form of a net that is refused is written")
        status, out, _ = tool("run", EXAMPLES / "circle.net", "--list", folder=place)
        same((status, out), (1, "refused 11\n"), "the list of a net that is refused")
    return f"{len(COMMANDS)} commands with a mistake: statuses and complaints as they should be, no file written"

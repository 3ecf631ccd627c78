//! What `--help` prints of the workbench and of each command.

pub const WORKBENCH: &str = "\
Write a run as text, run it, see it, and see why a panel shows what it shows.

    workbench assemble TEXT [-o RUN]              makes a run file of a text
    workbench disassemble RUN [-o TEXT]           gives the text of any run file
    workbench run FILE [--to-end]                 says what each event did, and shows every panel at the end
    workbench why FILE MESSAGE PANEL [--after N]  says why a panel has applied a message, or has not
    workbench draw FILE [-o SVG] [--to-end]       draws the run as a picture
    workbench --version                           the version, and the interface of the library

FILE is a text or a run file. `-` is standard input, and after -o standard output. `workbench COMMAND --help` says more.

The exit status is 0 if all went well. It is 1 if the engine refused something or an expectation failed. It is 2 if the
command or the text cannot be understood, or a file cannot be read or written. Standard error says why it is not 0.
";

pub const ASSEMBLE: &str = "\
workbench assemble TEXT [-o RUN]

Writes the run file of a text to standard output, or to the file that -o names. Each line has one event:

    version 2                    the first line: 1 or 2; in version 2 each report names a class
    controllers 5                the second line
    report 4 +30                 in version 1: controller 4 reports 30 eggs
    report 4 -2 class M          in version 2: controller 4 takes 2 eggs back; the class is 1 to 4, or XL, L, M, S
    sync 3                       controller 3 sends a sync, which asks for the sums
    hand 1 <- 4 4 2              controller 1 reads the next two entries of log 4, and then one of log 2
    stop 4 keep 4                controller 4 stops; its log keeps 4 entries
    read 2                       controller 2 reads its own sums
    write 1 register 3 = 1500    controller 1 sets register 3
    expect 2 867 30              here panel 2 is to show 867 added and 30 withdrawn (`workbench run` checks it)
    bytes 03 09 01 02            any bytes, in hexadecimal; also in place of the first two lines
    # a comment, to the end of the line

Words may be in capitals. A field may hold whatever its bytes can hold, so that a text can say records that the engine
refuses. If the engine refuses an amount, a note on standard error says so. An expectation gives no bytes.
";

pub const DISASSEMBLE: &str = "\
workbench disassemble RUN [-o TEXT] [--bytes]

Writes the text of a run file to standard output, or to the file that -o names. `workbench assemble` makes the same run file
of that text. Any run file has a text: bytes that have the form of no record are shown as bytes, with their offset and what
is wrong with them.

A file that looks like a text is not disassembled, unless --bytes says that it is a run file.
";

pub const RUN: &str = "\
workbench run FILE [--to-end] [--text | --bytes]

Plays a text or a run file up to its end or its first refusal, and prints

    each event with what it did, and the set that it applied with the sums that the panel then showed;
    each expectation, and whether it held;
    the refusal: the question, the reason, the record and its place;
    every panel at the end: sums, classes, registers with their stamps (date, writer), what is pending and how many marks
    it has, what was cut off, and how far each log is read.

With --to-end the dispatcher then hands over, each pair of a receiver and a log owner in its turn, until no handover is left.
What each handover did is printed as for a record. The lines that make the same handovers stand at the end of the output, to be
put at the end of the text. Expectations are checked where they stand in the text, which is before these handovers. After a
refusal the dispatcher makes none.

A failed expectation and the refusal each have a line on standard error too, which begins with the file and the line. The
exit status is then 1.

A file is taken for a text if it begins as one. --text and --bytes say which it is. `workbench assemble --help` has the lines
of a text.
";

pub const WHY: &str = "\
workbench why FILE MESSAGE PANEL [--after EVENT] [--text | --bytes]

Says when a panel applied a message: `workbench why FILE 3.1 2` asks about message 3.1 at panel 2. If the panel has not
applied the message, it says

    whether the message was cut off, and so will never be applied;
    which controllers have marked the message, and how many are needed;
    which pending messages it does not go before, and how many controllers put it before each of them;
    which handovers would bring more marks, and of a single handover what set it would apply.

The answer is for the end of the run, or for the moment after the event that --after names.
";

pub const DRAW: &str = "\
workbench draw FILE [-o SVG] [--to-end] [--text | --bytes]

Writes a picture of the run to standard output, or to the file that -o names. A browser shows it. A refusal and expectations
that failed are marked in the picture, and have a line on standard error.

With --to-end the picture goes on with the handovers of the dispatcher, until none is left. The lines that make the same
handovers stand below the picture, to be put at the end of the text.
";

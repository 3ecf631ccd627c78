//! The commands as a user calls them: what they print, to the letter, their exit status, and where mistakes are.

use std::io::Write;
use std::process::{Command, Output, Stdio};
use std::time::{Duration, Instant};

/// The output of a command that is given this on standard input.
fn workbench(words: &[&str], input: &[u8]) -> Output {
    let mut command = Command::new(env!("CARGO_BIN_EXE_workbench"));
    let piped = command.args(words).stdin(Stdio::piped()).stdout(Stdio::piped()).stderr(Stdio::piped());
    let mut child = piped.spawn().expect("the workbench starts");
    let mut stdin = child.stdin.take().expect("a pipe");
    let input = input.to_vec();
    // A command that takes no input ends without reading it.
    let writer = std::thread::spawn(move || drop(stdin.write_all(&input)));
    let output = child.wait_with_output().expect("the workbench ends");
    writer.join().expect("the input was written");
    output
}

fn text(bytes: &[u8]) -> String {
    String::from_utf8(bytes.to_vec()).expect("output is text")
}

/// What a command prints that ends with this status. Only where that is 0 it has nothing to complain of.
fn printed(words: &[&str], input: &[u8], status: i32) -> String {
    let output = workbench(words, input);
    let complaints = text(&output.stderr);
    assert_eq!(output.status.code(), Some(status), "{words:?}: {complaints}");
    assert_eq!(complaints.is_empty(), status == 0, "{words:?}: {complaints}");
    text(&output.stdout)
}

/// What a command complains of on standard error, which then prints nothing.
fn complaint(words: &[&str], input: &[u8]) -> String {
    let output = workbench(words, input);
    assert_eq!((text(&output.stdout).as_str(), output.status.code()), ("", Some(2)), "{words:?}");
    text(&output.stderr)
}

fn file(path: &str) -> Vec<u8> {
    std::fs::read(path).unwrap_or_else(|error| panic!("{path}: {error}"))
}

fn assert_golden(words: &[&str], path: &str) {
    assert_eq!(printed(words, b"", 0), text(&file(path)), "{words:?} prints something else than {path} has");
}

#[test]
fn samples_run_as_their_reports_say() {
    for sample in ["worked", "stop", "label", "waits"] {
        assert_golden(&["run", &format!("samples/{sample}.txt")], &format!("samples/{sample}.report"));
    }
    assert_golden(&["run", "--to-end", "samples/late.txt"], "samples/late.report");
}

#[test]
fn samples_are_drawn_as_their_pictures_are() {
    assert_golden(&["draw", "samples/worked.txt"], "../docs/worked.svg");
    assert_golden(&["draw", "samples/stop.txt"], "../docs/stop.svg");
    assert_golden(&["draw", "--to-end", "samples/late.txt"], "../docs/late.svg");
}

#[test]
fn a_panel_that_waits_says_why() {
    let questions: [&[&str]; 8] = [
        &["why", "samples/worked.txt", "3.1", "3", "--after", "10"],
        &["why", "samples/worked.txt", "3.1", "3"],
        &["why", "samples/label.txt", "4.5", "2"],
        &["why", "samples/waits.txt", "1.1", "1", "--after", "9"],
        &["why", "samples/waits.txt", "1.1", "2"],
        &["why", "samples/stop.txt", "5.3", "1"],
        &["why", "samples/stop.txt", "5.3", "5"],
        &["why", "samples/stop.txt", "5.1", "4"],
    ];
    let answers = questions.map(|words| format!("$ workbench {}\n{}", words.join(" "), printed(words, b"", 0)));
    assert_eq!(answers.join("\n"), text(&file("samples/why.report")));
}

#[test]
fn the_worked_run_is_written_as_text() {
    assert_eq!(workbench(&["assemble", "samples/worked.txt"], b"").stdout, file("../bindings/worked.run"));
    assert_golden(&["disassemble", "../bindings/worked.run"], "samples/worked.disassembled");
}

#[test]
fn what_was_disassembled_assembles_to_the_same_bytes() {
    let mut files: Vec<Vec<u8>> = ["worked", "classes", "underway", "settings", "reading"]
        .map(|name| file(&format!("../bindings/{name}.run")))
        .into();
    files.extend([
        vec![],
        vec![7],
        vec![1, 3],
        vec![0, 255, 0, 0],
        vec![2, 9, 4, 1, 200, 128, 0, 255],
        vec![255],
        vec![200, 150], // which UTF-8 has too
        b"v1\x04\x01\x01\x00\x1E".to_vec(),
    ]);
    files.push([vec![1, 3], vec![255; 300], vec![4, 4, 1, 255]].concat());
    for bytes in files {
        let text = printed(&["disassemble", "-"], &bytes, 0);
        let assembled = workbench(&["assemble", "-"], text.as_bytes());
        assert_eq!((assembled.stdout, assembled.status.code()), (bytes, Some(0)), "{text}");
    }
}

#[test]
fn bytes_that_are_no_record_are_shown_with_their_offset() {
    let text = printed(&["disassemble", "-"], &[1, 3, 2, 2, 1, 3, 9, 1, 2, 0, 5, 1, 1, 0, 7, 2, 4, 4, 1], 0);
    let lines: Vec<String> = text.lines().map(|line| line.split_whitespace().collect::<Vec<_>>().join(" ")).collect();
    let wanted = [
        "version 1",
        "controllers 3",
        "",
        "sync 1 # record 1, offset 2",
        "bytes 03 09 01 02 # record 2, offset 5: no kind has the number 9",
        "bytes 00 # record 3, offset 9: the length is 0, so there is no kind",
        "report 1 +7 class L # record 4, offset 10: a report of version 1 names no class, and has length 4; this one has length 5",
        "bytes 04 04 01 # record 5, offset 16: the length byte counts 4 bytes, and 2 are there",
    ];
    assert_eq!(lines, wanted);
}

#[test]
fn a_text_with_every_line_is_assembled() {
    let lines = "# all\r\nversion 2\r\n\tcontrollers 5\n\nreport 4 +30 class 2\nreport 4 -2 class S # taken back\nreport 1 360\nsync 3\n\
        hand 1<-4 4 4\nstop 4 keep 4\nread 2\nwrite 1 register 3=1500\nexpect 2 867 30\nbytes 0309 01 02\nbytes\n";
    let records = "0205 050104001E02 050104FFFE04 0401010168 020203 03030104 03030104 03030104 0404040004 020502 07060103000005DC 03090102";
    let digits: Vec<u8> = records.replace(' ', "").chars().map(|c| c.to_digit(16).unwrap() as u8).collect();
    let wanted: Vec<u8> = digits.chunks(2).map(|pair| pair[0] * 16 + pair[1]).collect();
    assert_eq!(workbench(&["assemble", "-"], lines.as_bytes()).stdout, wanted);
}

#[test]
fn words_may_be_in_capitals_and_classes_in_small_letters() {
    let assembled = |lines: &str| {
        let output = workbench(&["assemble", "-"], lines.as_bytes());
        assert_eq!((text(&output.stderr).as_str(), output.status.code()), ("", Some(0)), "{lines}");
        output.stdout
    };
    let small =
        "version 2\ncontrollers 5\nreport 4 +30 class M\nreport 4 1 class XL\nsync 1\nhand 1 <- 4\nstop 4 keep 4\n\
        read 2\nwrite 1 register 3 = 1500\nexpect 2 867 30\nbytes 0a\n";
    let capitals = small.to_uppercase();
    assert_eq!(assembled(&capitals), assembled(small));
    assert_eq!(assembled(&capitals.replace(" M\n", " m\n").replace("XL", "xl")), assembled(small));
    let wrong = complaint(&["assemble", "-"], b"VERSION 1\nCONTROLLERS 3\nSTOP 1 4\n");
    let wanted = "standard input:3:8: `4` stands where `keep` belongs; a line reads: stop 1 keep 4\n";
    assert_eq!(wrong, wanted);
}

/// Lines after a head of two, and how the complaint of each begins.
const MISTAKES: &[(&str, &str)] = &[
    ("synk 1", "3:1: no line begins with `synk`; did you mean `sync`?\n"),
    ("Reprot 1 +5", "3:1: no line begins with `Reprot`; did you mean `report`?\n"),
    ("handover 1 <- 2", "3:1: no line begins with `handover`; did you mean `hand`?\n"),
    ("start 1", "3:1: no line begins with `start`; a line begins with one of version, controllers, report, sync, "),
    ("sync", "3:5: the sender is missing"),
    ("sync 256", "3:6: the sender must be a number from 0 to 255, not `256`\n"),
    ("sync 1 2", "3:8: `2` is one word too many; a line reads: sync 1\n"),
    ("  report 1 40000", "3:12: the amount must be a number from -32768 to 32767, not `40000`; the engine accepts -360 to 360, and not 0\n"),
    ("report 1 +5 klass 2", "3:13: `klass` stands where `class` belongs"),
    ("report 1 +5 class XXL", "3:19: the class, if it is not XL, L, M or S, must be a number from 0 to 255, not `XXL`\n"),
    ("hand 1 <-", "3:10: the owner of a log is missing"),
    ("hand 1 <- 2 x 3", "3:13: the owner of a log must be a number from 0 to 255, not `x`\n"),
    ("hand 1 - 2", "3:8: `-` stands where `<-` belongs"),
    ("stop 1 4", "3:8: `4` stands where `keep` belongs"),
    ("stop 1 keep 65536", "3:13: the number of entries kept must be a number from 0 to 65535, not `65536`\n"),
    ("write 1 register 3 1500", "3:20: `1500` stands where `=` belongs"),
    ("write 1 register 3 = 4294967296", "3:22: the value must be a number from 0 to 4294967295, not `4294967296`\n"),
    ("expect 1 30", "3:12: what was withdrawn is missing"),
    ("bytes 0g", "3:7: a byte must have two hexadecimal digits, not `0g`\n"),
    ("bytes 1 2", "3:7: a byte must have two hexadecimal digits, not `1`\n"),
    ("version 1", "3:1: `version` stands where an event belongs"),
    ("\u{1b}[31mx 1", "3:1: no line begins with `\\u{1b}[31mx`"),
    ("# \u{e9}\n\u{e9} 1", "4:1: no line begins with `\u{e9}`"),
];

#[test]
fn mistakes_have_a_file_a_line_and_a_column() {
    for (line, wanted) in MISTAKES {
        let found =
            complaint(&["run", "--text", "-"], format!("version 1\ncontrollers 3\n{line}\nsync 1\n").as_bytes());
        assert!(found.starts_with(&format!("standard input:{wanted}")), "{line}: {found}");
        assert_eq!(found.lines().count(), 1, "{line}: {found}");
    }
    let long = format!("version 1\ncontrollers 3\n{}", "x".repeat(5_000));
    assert!(complaint(&["assemble", "-"], long.as_bytes()).len() < 250);
    let both = complaint(&["assemble", "-"], b"version 1\ncontrollers 3\nsync\nread");
    assert_eq!(both.lines().count(), 2, "{both}");
}

#[test]
fn a_text_begins_with_its_head() {
    let heads = [
        ("", "1:1: the text ends before `version 1` or `version 2`"),
        ("version 1", "2:1: the text ends before a line such as `controllers 3`"),
        ("controllers 3", "1:1: `controllers` stands where `version 1` or `version 2` belongs"),
        ("version 1\nsync 1", "2:1: `sync` stands where a line such as `controllers 3` belongs"),
    ];
    for (text, wanted) in heads {
        assert_eq!(complaint(&["assemble", "-"], text.as_bytes()), format!("standard input:{wanted}\n"));
    }
    let other = complaint(&["assemble", "-"], b"version 1\n# \xC3\xA9 \xFF");
    assert!(other.starts_with("standard input:2:5: a text is written in UTF-8, and this byte is not; "), "{other}");
    // A mark of the order of bytes is no part of a text, and a text in another encoding is told where.
    let marked = workbench(&["run", "-"], "\u{feff}version 1\ncontrollers 3\n".as_bytes());
    assert_eq!(marked.status.code(), Some(0));
    assert!(complaint(&["run", "-"], b"# Pr\xFCfung\n").starts_with("standard input:1:5: a text is written in UTF-8"));
}

/// What takes a run file where a command expects a text.
const BYTES_FOR_A_TEXT: &str = "use --bytes\n";

#[test]
fn bytes_where_a_text_belongs_name_what_takes_them() {
    let mangled = b"v1\x04\x01\x01\x00\x1E";
    let looks = "standard input: this looks like a run file: byte 2 is 04, which no text has; ";
    for command in [&["run", "-"][..], &["run", "--text", "-"], &["why", "-", "1.1", "1"], &["draw", "-"]] {
        assert_eq!(complaint(command, mangled), format!("{looks}{BYTES_FOR_A_TEXT}"));
        // Without such a byte it is a text, or has the place of what is not UTF-8.
        assert!(complaint(command, b"v1").contains("no line begins with `v1`"));
        assert!(complaint(command, b"v1\xFF").ends_with(&format!("if this is a run file, {BYTES_FOR_A_TEXT}")));
    }
    let advice = "`workbench disassemble` gives its text, and `workbench run` plays it\n";
    assert_eq!(complaint(&["assemble", "-"], mangled), format!("{looks}{advice}"));
    let run = complaint(&["assemble", "../bindings/worked.run"], b"");
    assert!(run.starts_with("../bindings/worked.run: this looks like a run file: byte 0 is 01, "), "{run}");
    assert!(complaint(&["run", "--text", "../bindings/worked.run"], b"").ends_with(BYTES_FOR_A_TEXT));
    // A text may have such a byte in a comment.
    assert!(printed(&["run", "-"], b"version 1 # \x01\ncontrollers 3\n", 0).contains("\n0 events accepted\n"));
}

#[test]
fn a_text_where_bytes_belong_names_what_takes_it() {
    let texts: [&[u8]; 7] = [
        b"version 1\ncontrollers 3\n",
        b"# Pr\xFCfung\n",
        "#\u{5375}\n".as_bytes(),
        "\u{feff}version 1".as_bytes(),
        b"bytes 03 09 01 02",
        b"a",
        b"\n\n\n",
    ];
    let advice = "`workbench assemble` makes a run file of it, and --bytes takes it for one\n";
    for bytes in texts {
        let looks = format!("standard input: this looks like a text, and not like a run file; {advice}");
        assert_eq!(complaint(&["disassemble", "-"], bytes), looks);
        let shown = printed(&["disassemble", "--bytes", "-"], bytes, 0);
        let assembled = workbench(&["assemble", "-"], shown.as_bytes());
        assert_eq!((assembled.stdout, assembled.status.code()), (bytes.to_vec(), Some(0)), "{shown}");
    }
    let reason = "byte 0, the version, is 118; these bytes look like a text, which --text takes";
    assert_refused(&["run", "--bytes", "-"], b"version 1\ncontrollers 3\n", 2, reason);
}

#[test]
fn an_expectation_that_fails_is_named_and_fails_the_run() {
    let lines = "version 1\ncontrollers 1\nreport 1 +5\n  expect 1 5 0\nhand 1 <- 1\nexpect 1 5 0\nexpect 2 0 0\n";
    let report = printed(&["run", "-"], lines.as_bytes(), 1);
    for wanted in [
        "standard input:4:3: FAILED: panel 1 shows 0 added, 0 withdrawn; expected: 5 added, 0 withdrawn\n",
        "expect 1 5 0: so it is\n",
        "standard input:7:1: FAILED: there is no panel 2: the only panel is 1\n",
        "2 events accepted; of 3 expectations, 1 held, 2 failed\n",
    ] {
        assert!(report.contains(wanted), "{report}");
    }
    let report = printed(&["run", "-"], b"version 1\ncontrollers 1\nread 2\nexpect 1 0 0\n", 1);
    assert!(report.contains("0 events accepted; of 1 expectation, 0 held, 1 not reached\n"), "{report}");
}

#[test]
fn what_fails_is_on_standard_error_with_its_place() {
    let lines =
        "version 1\ncontrollers 3\nreport 1 +5\nexpect 1 5 0\nexpect 9 0 0\n  read 1\nexpect 1 5 0\nexpect 1 5 0\n";
    let failures = "standard input:4:1: FAILED: panel 1 shows 0 added, 0 withdrawn; expected: 5 added, 0 withdrawn\n\
        standard input:5:1: FAILED: there is no panel 9: panels are 1 to 3\n\
        standard input:6:3: record 2 is refused by question 18: has the controller of a local read no message of its own \
        pending? (1.1 of its own is pending at controller 1)\n";
    let unreached = "standard input:7:1: 2 expectations were not reached; this is the first\n";
    let complaints = |words: &[&str], input: &[u8]| {
        let output = workbench(words, input);
        assert_eq!((output.stdout.is_empty(), output.status.code()), (false, Some(1)), "{words:?}");
        text(&output.stderr)
    };
    for command in ["run", "draw"] {
        assert_eq!(complaints(&[command, "-"], lines.as_bytes()), format!("{failures}{unreached}"));
    }
    let refused = failures.lines().last().expect("the refusal").to_string() + "\n";
    assert_eq!(complaints(&["why", "-", "1.1", "1"], lines.as_bytes()), refused);
    // A run file has no lines: the offset is the place.
    let at_offset = refused.replace(":6:3: record 2 is", ": record 2, at offset 7, is");
    assert_eq!(complaints(&["run", "-"], &[1, 3, 4, 1, 1, 0, 5, 2, 5, 1]), at_offset);
    let file =
        "standard input: the file is refused by question 2: is the version 1 or 2? (byte 0, the version, is 3)\n";
    assert_eq!(complaints(&["run", "-"], &[3, 3]), file);
}

#[test]
fn an_amount_that_the_engine_refuses_is_noted_where_it_is_assembled() {
    let lines =
        "version 1\ncontrollers 3\nreport 1 +361\n  report 1 0\nreport 1 360\nreport 1 -360\nreport 9 -361 class 1\n\
        bytes 04 01 01 7F FF\n";
    let output = workbench(&["assemble", "-"], lines.as_bytes());
    let note = |place: &str, amount: i16| {
        let question = "by question 9: Is a report's amount from -360 to 360 and not 0?\n";
        format!("standard input:{place}: note: the engine refuses an amount of {amount} {question}")
    };
    let notes = [note("3:1", 361), note("4:3", 0), note("7:1", -361), note("8:1", 32767)].concat();
    assert_eq!((text(&output.stderr), output.status.code()), (notes, Some(0)));
    let reports = [[4, 1, 1, 1, 0x69], [4, 1, 1, 0, 0], [4, 1, 1, 1, 0x68], [4, 1, 1, 0xFE, 0x98]].concat();
    let others = [&[5, 1, 9, 0xFE, 0x97, 1][..], &[4, 1, 1, 0x7F, 0xFF]].concat();
    assert_eq!(output.stdout, [vec![1, 3], reports, others].concat());
    // A run says it where it comes to it.
    assert_refused(&["run", "-"], lines.as_bytes(), 9, "the amount is 361");
}

#[test]
fn what_was_cut_off_is_shown_so_at_its_sender_too() {
    let sample = "samples/stop.txt";
    for panel in ["1", "5"] {
        let answer = printed(&["why", sample, "5.3", panel], b"", 0);
        assert!(answer.starts_with(&format!("5.3 (+12 XL) at panel {panel}, after event 45: cut off\n")), "{answer}");
        assert!(
            answer.contains("\ncut off at event 10 (stop 5 keep 2): nobody had read it in the log of 5\n"),
            "{answer}"
        );
        assert!(!answer.contains("marks at panel"), "{answer}");
    }
    // Before the stop it was pending, and where others are asked about it is named as what it is.
    assert!(printed(&["why", sample, "5.3", "5", "--after", "9"], b"", 0).contains("after event 9: pending\n"));
    assert!(printed(&["why", sample, "1.1", "5"], b"", 0).contains("    5.3 (+12 XL, cut off): 2 put 1.1 before it, "));
    let report = printed(&["run", sample], b"", 0);
    let row = |title: &str| {
        let row = report.lines().find(|line| line.starts_with(title)).unwrap_or_default();
        row.split_whitespace().collect::<Vec<_>>().join(" ")
    };
    assert_eq!(
        (row("cut off").as_str(), row("pending").as_str()),
        ("cut off 5.3 5.3 5.3 5.3 5.3", "pending (marks; 3 needed) - - - - 1.1 (2)")
    );
    let picture = printed(&["draw", sample], b"", 0);
    assert!(picture.contains(">pending 1.1 5.1<") && picture.contains(">cut off 5.3<"), "{picture}");
    // The only controller may have applied what it then cuts off.
    let alone = b"version 1\ncontrollers 1\nreport 1 +5\nreport 1 +6\nhand 1 <- 1\nstop 1 keep 1\n";
    assert!(printed(&["why", "-", "1.2", "1"], alone, 0).starts_with("1.2 (+6) at panel 1, after event 4: applied\n"));
    assert!(!printed(&["run", "-"], alone, 0).contains("\ncut off "));
}

/// The part of a report that is about its refusal.
fn refusal(report: &str) -> Vec<&str> {
    let lines = report.lines().skip_while(|line| !line.contains(" is refused by question "));
    lines.take_while(|line| !line.ends_with(" accepted")).collect()
}

#[test]
fn a_refusal_has_its_place_and_its_reason() {
    let report = printed(
        &["run", "-"],
        b"version 1\ncontrollers 4\nreport 1 +5\nreport 1 +6\nreport 1 +7\nhand 4 <- 1 1 1 1\n",
        1,
    );
    let wanted = [
        "record 7 is refused by question 13: does the log have an entry that the receiver has not read?",
        "    because  controller 4 has read all 3 entries of log 1",
        "    event    hand 4 <- 1",
        "    offset   29",
        "    bytes    03 03 04 01",
        "    text     standard input:6:17",
    ];
    assert_eq!(refusal(&report), wanted);
}

/// Lines after a head of version 1 and three controllers, the number of the question that refuses the last, and the reason.
const REASONS: &[(&str, u8, &str)] = &[
    ("bytes 04 01 01", 5, "the length byte counts 4 bytes, and 2 are there"),
    ("bytes 00", 6, "the length is 0, so there is no kind"),
    ("bytes 01 07", 6, "no kind has the number 7"),
    ("report 1 +5 class 1", 7, "a report of version 1 names no class, and has length 4; this one has length 5"),
    ("hand 1 <- 4", 8, "the run has controllers 1 to 3, and none is 4"),
    ("sync 0", 8, "the run has controllers 1 to 3, and none is 0"),
    ("report 1 -361", 9, "the amount is -361"),
    ("stop 2 keep 0\nread 2", 10, "controller 2 stopped at event 1"),
    ("report 1 +5\nreport 1 +5\nsync 1", 11, "1.1 and 1.2 of its own are pending at controller 1"),
    ("hand 1 <- 2", 13, "log 2 has no entries"),
    ("report 1 +5\nhand 2 <- 1 1", 13, "controller 2 has read the one entry of log 1"),
    ("report 1 +5\nstop 1 keep 2", 14, "log 1 has 1 entry, and 2 are to be kept"),
    ("report 1 +5\nhand 3 <- 1\nstop 1 keep 0", 14, "controller 3 has read 1 entry of log 1, and 0 are to be kept"),
    ("report 1 +5\nread 1", 18, "1.1 of its own is pending at controller 1"),
    ("write 1 register 9 = 5", 19, "the register is 9"),
    ("write 1 register 1 = 5", 20, "controller 1 has sent nothing"),
    (
        "report 1 +5\nhand 2 <- 1\nhand 1 <- 2\nwrite 1 register 1 = 5",
        20,
        "the latest message of controller 1 is 1.1 (+5)",
    ),
];

/// Whether a run is refused with this number, for this reason.
fn assert_refused(words: &[&str], input: &[u8], number: u8, reason: &str) {
    let report = printed(words, input, 1);
    let found = refusal(&report);
    assert!(found[0].contains(&format!(" is refused by question {number}: ")), "{report}");
    assert_eq!(found[1], format!("    because  {reason}"));
}

#[test]
fn each_refusal_of_a_record_says_why() {
    let head = "version 1\ncontrollers 3\n";
    for (lines, number, reason) in REASONS {
        assert_refused(&["run", "-"], format!("{head}{lines}\n").as_bytes(), *number, reason);
    }
    let full = format!("{head}{}", "report 1 +1\n".repeat(65));
    assert_refused(&["run", "-"], full.as_bytes(), 12, "the run has 64 messages");
    let in_version_2 = [
        ("report 1 +5", 7, "a report of version 2 names a class, and has length 5; this one has length 4"),
        ("report 1 0 class 1", 9, "the amount is 0"),
        ("report 1 1 class 5", 17, "the class is 5"),
    ];
    for (line, number, reason) in in_version_2 {
        assert_refused(&["run", "-"], format!("version 2\ncontrollers 3\n{line}\n").as_bytes(), number, reason);
    }
}

#[test]
fn each_refusal_of_a_file_says_why() {
    let files: [(&[u8], u8, &str); 4] = [
        (&[1], 1, "the file has 1 byte"),
        (&[1; 65_536], 1, "the file has 65536 bytes"),
        (&[3, 3], 2, "byte 0, the version, is 3"),
        (&[1, 8], 3, "byte 1, the number of controllers, is 8"),
    ];
    for (bytes, number, reason) in files {
        for command in ["run", "why"] {
            let more: &[&str] = if command == "why" { &["1.1", "1"] } else { &[] };
            assert_refused(&[&[command, "--bytes", "-"], more].concat(), bytes, number, reason);
        }
    }
    let report = printed(&["run", "-"], b"version 1\ncontrollers 8\n", 1);
    assert!(refusal(&report).contains(&"    text     standard input:2:1"), "{report}");
}

#[test]
fn why_asks_for_a_message_and_a_panel_that_are_there() {
    let sample = "samples/worked.txt";
    let wanted = [
        (vec!["why", sample, "2.1", "1"], "2.1 was not sent in 11 events; sent: 1.1 and 3.1\n"),
        (vec!["why", sample, "3.1", "1", "--after", "4"], "3.1 was not sent in 4 events; sent: 1.1\n"),
        (
            vec!["why", sample, "3", "1"],
            "`3` names no message: a message is named by its sender and its number, as in 3.1\n",
        ),
        (vec!["why", sample, "3.1", "4"], "there is no panel 4: panels are 1 to 3\n"),
        (vec!["why", sample, "3.1", "0"], "there is no panel 0: panels are 1 to 3\n"),
        (vec!["why", sample, "3.1", "300"], "there is no panel 300: panels are 1 to 3\n"),
        (vec!["why", sample, "3.1", "x"], "there is no panel x: panels are 1 to 3\n"),
        (vec!["why", sample, "3.1", "1", "--after", "12"], "event 12 is not reached: 11 events accepted\n"),
    ];
    for (words, wanted) in wanted {
        assert_eq!(complaint(&words, b""), wanted);
    }
    let refused = workbench(&["why", "-", "1.1", "1"], b"version 1\ncontrollers 1\nreport 1 +5\nread 1\n");
    assert_eq!(refused.status.code(), Some(1));
    assert!(text(&refused.stdout).contains("record 2 is refused by question 18: "));
}

#[test]
fn why_says_where_too_few_are_left_to_mark_a_message() {
    let answer = |lines: &str| {
        let text = format!("version 1\ncontrollers 3\nreport 1 +5\n{lines}");
        printed(&["why", "-", "1.1", "1"], text.as_bytes(), 0)
    };
    let lost = "there can be no more than 1: it is not applied here any more\n";
    assert!(answer("stop 2 keep 0\nstop 3 keep 0\n").contains(lost));
    assert!(answer("hand 2 <- 1\nstop 2 keep 0\nstop 3 keep 0\n").contains(lost));
    for enough in ["", "stop 3 keep 0\n", "hand 2 <- 1\nstop 2 keep 1\nstop 3 keep 0\n"] {
        assert!(!answer(enough).contains("no more than"), "{}", answer(enough));
    }
    // Only those that run are asked to put it in their logs.
    let offer = "`hand 2 <- 1`: puts 1.1 (+5) in log 2; 1 log has it, 2 needed; panel 2 would apply nothing\n";
    assert!(answer("stop 3 keep 0\n").contains(offer));
    assert!(!answer("stop 3 keep 0\n").contains("`hand 3"));
}

/// What `run` says that the last event of a text applied: "1.1 (+30)", or "nothing".
fn last_set(lines: &str) -> String {
    let report = printed(&["run", "-"], lines.as_bytes(), 0);
    let (events, _) = report.split_once(" accepted\n").expect("the number of events");
    let last = events.lines().rev().skip(1).find(|line| !line.is_empty()).unwrap_or_default();
    let set = last.trim_start().split_once(" applies ").and_then(|(_, set)| set.split_once(", and shows "));
    set.map_or("nothing", |(set, _)| set).into()
}

#[test]
fn why_says_what_a_single_handover_would_apply() {
    let reported = "version 1\ncontrollers 3\nreport 1 +30\n";
    let worked =
        format!("{reported}hand 1 <- 1\nhand 2 <- 1\nhand 1 <- 2\nreport 3 -2\nhand 2 <- 3 2 2\nhand 3 <- 2 2\n");
    // Wherever a handover is offered, what it would apply is what it applies when it is made.
    for (lines, message, panel, offer, applies) in [
        (reported, "1.1", "1", "hand 2 <- 1", "nothing"),
        (&format!("{reported}hand 2 <- 1\n"), "1.1", "1", "hand 1 <- 2", "1.1 (+30)"),
        (&format!("{reported}hand 2 <- 1\n"), "1.1", "2", "hand 2 <- 2", "1.1 (+30)"),
        (&format!("{reported}hand 2 <- 1\nsync 2\nhand 1 <- 2\n"), "2.2", "1", "hand 1 <- 2", "nothing"),
        (&worked, "3.1", "3", "hand 3 <- 1", "1.1 (+30) and 3.1 (-2) as one set"),
        (&worked, "3.1", "3", "hand 1 <- 2", "nothing"),
    ] {
        let answer = printed(&["why", "-", message, panel], lines.as_bytes(), 0);
        let offers: Vec<&str> = answer.lines().filter(|line| line.contains(&format!("`{offer}`"))).collect();
        let shown = format!("; panel {} would apply {applies}", &offer[5..6]);
        assert!(!offers.is_empty() && offers.iter().all(|line| line.ends_with(&shown)), "{offer}: {answer}");
        assert_eq!(last_set(&format!("{lines}{offer}\n")), applies, "{offer}");
    }
    // Of several handovers no set is said.
    let answer = printed(&["why", "-", "3.1", "3"], worked.as_bytes(), 0);
    assert!(answer.contains("    `hand 3 <- 3 3`: 1.1 (+30), entry 2 of its own log (0 entries read)\n"), "{answer}");
    // The only controller has all marks at once, and applies at its next handover.
    let alone = "version 1\ncontrollers 1\nreport 1 +5\nreport 1 -6\n";
    let answer = printed(&["why", "-", "1.2", "1"], alone.as_bytes(), 0);
    let set = "1.1 (+5) and 1.2 (-6) as one set";
    let offer = format!("sets are applied at handovers: `hand 1 <- 1` applies it; panel 1 would apply {set}\n");
    assert!(answer.contains(&offer), "{answer}");
    assert_eq!(last_set(&format!("{alone}hand 1 <- 1\n")), set);
}

#[test]
fn a_picture_is_called_by_its_file_whatever_that_is_called() {
    let path = std::env::temp_dir().join(format!("<&\"> {}.txt", std::process::id()));
    std::fs::copy("samples/worked.txt", &path).expect("a file");
    let picture = printed(&["draw", path.to_str().expect("a path")], b"", 0);
    std::fs::remove_file(&path).expect("the file");
    let title = format!("&lt;&amp;&quot;&gt; {}.txt", std::process::id());
    let changed = text(&file("../docs/worked.svg")).replace("worked.txt", &title);
    assert_eq!(picture, changed);
}

#[test]
fn every_command_has_help_and_complains_of_what_it_does_not_know() {
    for command in ["assemble", "disassemble", "run", "why", "draw"] {
        assert!(printed(&[command, "--help"], b"", 0).starts_with(&format!("workbench {command} ")));
        assert!(printed(&["--help"], b"", 0).contains(&format!("    workbench {command} ")));
        assert!(complaint(&[command, "--loud"], b"").contains("there is no option --loud; `workbench "));
        assert!(complaint(&[command, "--hlep"], b"").contains("there is no option --hlep; did you mean `--help`? "));
        assert!(complaint(&[command], b"").starts_with(&format!("workbench {command}: ")));
        let more: &[&str] = if command == "why" { &["1.1", "1"] } else { &[] };
        let missing = complaint(&[&[command, "no/such.file"], more].concat(), b"");
        assert!(missing.starts_with("no/such.file: "), "{missing}");
    }
    assert_eq!(workbench(&["assemble", "samples/worked.txt", "-o", "-"], b"").stdout, file("../bindings/worked.run"));
    let unknown = "workbench: there is no command ";
    assert_eq!(complaint(&["shout"], b""), format!("{unknown}shout; `workbench --help` lists them\n"));
    for (word, meant) in [("rnu", "run"), ("RUN", "run"), ("dissasemble", "disassemble"), ("asm", "")] {
        let meant = if meant.is_empty() { meant.into() } else { format!("did you mean `{meant}`? ") };
        assert_eq!(complaint(&[word], b""), format!("{unknown}{word}; {meant}`workbench --help` lists them\n"));
    }
    let version = printed(&["--version"], b"", 0);
    assert_eq!(version, format!("workbench {}, interface {}\n", env!("CARGO_PKG_VERSION"), furnacejade::INTERFACE));
    assert!(complaint(&["run", "--byte", "-"], b"").contains("there is no option --byte; did you mean `--bytes`? "));
    assert!(complaint(&["assemble", "samples/worked.txt", "-o", "no/such.file"], b"").starts_with("no/such.file: "));
}

/// The events, the panels at the end and the hand lines of a report.
fn parts(report: &str) -> (Vec<&str>, Vec<&str>, String) {
    let numbered = |line: &&str| line.get(..5).is_some_and(|number| number.trim().parse::<usize>().is_ok());
    let panels = report.lines().skip_while(|line| line.trim_start().split("  ").next() != Some("panel 1"));
    let hand = report.lines().filter(|line| line.starts_with("hand ")).map(|line| format!("{line}\n"));
    (report.lines().filter(numbered).collect(), panels.take_while(|line| !line.is_empty()).collect(), hand.collect())
}

/// The titles of the events of a picture, and the texts that it shows of the panels at the end.
fn drawn(picture: &str) -> (Vec<&str>, Vec<&str>) {
    let titles = picture.split("<title>").filter_map(|part| part.split("</title>").next());
    let end = picture.split("what the panels show in the end</title>").nth(1).expect("panels");
    let shapes = end.split("</g>").next().unwrap_or_default().split("</text>");
    let texts = shapes.filter_map(|shape| shape.rsplit('>').next());
    (titles.filter(|title| title.starts_with("event ")).collect(), texts.collect())
}

/// Texts that are played to their end: the samples, the run files of the bindings, and runs with stops and without a majority.
fn unfinished() -> Vec<String> {
    let samples = ["worked", "stop", "label", "waits", "late"].map(|name| text(&file(&format!("samples/{name}.txt"))));
    let files = ["worked", "underway", "settings", "reading"]
        .map(|name| printed(&["disassemble", &format!("../bindings/{name}.run")], b"", 0));
    let others = [
        "version 1\ncontrollers 1\nreport 1 +5\nreport 1 -5\n",
        "version 1\ncontrollers 3\nreport 1 +5\nreport 3 +6\nhand 2 <- 1\nstop 1 keep 1\n",
        "version 1\ncontrollers 3\nreport 1 +5\nhand 2 <- 1\nstop 1 keep 1\nstop 3 keep 0\nreport 2 +1\n",
        "version 2\ncontrollers 7\nreport 7 +5 class M\nsync 6\nreport 5 -5 class S\nstop 7 keep 0\n",
    ];
    samples.into_iter().chain(files).chain(others.map(str::to_string)).collect()
}

#[test]
fn lines_that_the_dispatcher_gives_bring_a_text_to_the_same_panels() {
    for lines in unfinished() {
        let driven = printed(&["run", "--to-end", "-"], lines.as_bytes(), 0);
        let (events, panels, hand) = parts(&driven);
        assert!(!hand.is_empty(), "{driven}");
        let pasted = format!("{lines}{hand}");
        let again = printed(&["run", "-"], pasted.as_bytes(), 0);
        assert_eq!((&events, &panels), (&parts(&again).0, &parts(&again).1), "{pasted}");
        // The whole end of the output may be pasted, with what stands above the lines.
        let (_, end) = driven.split_once("\n# the same handovers").expect("lines");
        let with_comment = printed(&["run", "-"], format!("{lines}# the same handovers{end}").as_bytes(), 0);
        assert_eq!(with_comment, again);
        let pictures = [(&["draw", "--to-end", "-"][..], &lines), (&["draw", "-"], &pasted)];
        let [to_end, plain] = pictures.map(|(words, lines)| printed(words, lines.as_bytes(), 0));
        assert_eq!((drawn(&to_end).0.len(), drawn(&to_end)), (events.len(), drawn(&plain)), "{pasted}");
        for line in hand.lines() {
            assert!(to_end.contains(&format!(">{}<", line.replace('<', "&lt;"))), "{line}");
        }
        // Nothing is left then, and it is said.
        let ended = printed(&["run", "--to-end", "-"], pasted.as_bytes(), 0);
        assert!(
            ended.contains("accepted") && ended.contains("\nthe dispatcher finds no handover to make; "),
            "{ended}"
        );
        assert_eq!(parts(&ended), (events, panels, String::new()));
        let none = printed(&["draw", "--to-end", "-"], pasted.as_bytes(), 0);
        assert!(none.contains(">the dispatcher finds no handover to make; ") && !none.contains(">hand "), "{none}");
        assert!(!none.contains(">dispatcher<") && to_end.contains(">dispatcher<"));
    }
}

#[test]
fn what_the_dispatcher_did_is_said() {
    let said = |lines: &str| {
        let report = printed(&["run", "--to-end", "-"], format!("version 1\n{lines}").as_bytes(), 0);
        let picture = printed(&["draw", "--to-end", "-"], format!("version 1\n{lines}").as_bytes(), 0);
        let said = report.lines().skip_while(|line| !line.contains(" accepted")).take_while(|line| !line.is_empty());
        let said: Vec<String> = said.map(str::to_string).collect();
        assert!(said[1..].iter().all(|line| picture.contains(&format!(">{line}<"))), "{picture}");
        said
    };
    let read = "every running controller has read every log to its end";
    assert_eq!(
        said("controllers 1\nreport 1 +5\n"),
        ["1 event accepted".into(), format!("the dispatcher makes 1 handover, event 2; {read}")]
    );
    assert_eq!(
        said("controllers 2\nreport 1 +5\nexpect 1 0 0\n"),
        [
            "1 event accepted; of 1 expectation, 1 held".into(),
            format!("the dispatcher makes 4 handovers, events 2 to 5; {read}")
        ]
    );
    assert_eq!(
        said("controllers 3\n"),
        ["0 events accepted".into(), format!("the dispatcher finds no handover to make; {read}")]
    );
    let too_few =
        |running| format!("controllers that run: {running} of 3, which is no majority; what is pending may stay so");
    assert_eq!(
        said("controllers 3\nreport 1 +5\nstop 2 keep 0\nstop 3 keep 0\n"),
        ["3 events accepted".into(), format!("the dispatcher makes 1 handover, event 4; {read}"), too_few(1)]
    );
    assert_eq!(
        said("controllers 3\nreport 1 +5\nstop 1 keep 1\nstop 2 keep 0\nstop 3 keep 0\n"),
        ["4 events accepted".into(), format!("the dispatcher finds no handover to make; {read}"), too_few(0)]
    );
    // Two of three are a majority.
    assert_eq!(said("controllers 3\nreport 1 +5\nstop 2 keep 0\n").len(), 2);
    let plain = printed(&["run", "-"], b"version 1\ncontrollers 1\nreport 1 +5\n", 0);
    assert!(!plain.contains("dispatcher") && !plain.contains("\nhand "), "{plain}");
}

#[test]
fn an_expectation_is_checked_before_the_dispatcher_hands_over() {
    let lines = "version 1\ncontrollers 1\nreport 1 +5\nexpect 1 0 0\nexpect 1 5 0\n";
    let report = printed(&["run", "--to-end", "-"], lines.as_bytes(), 1);
    let wanted = [
        "       expect 1 0 0: so it is",
        "       standard input:5:1: FAILED: panel 1 shows 0 added, 0 withdrawn; expected: 5 added, 0 withdrawn",
        "       the dispatcher hands over from here on",
        "    2  hand 1 <- 1  controller 1 reads 1.1, entry 1 of its own log: known to it, with its own mark; 1 mark, 1 needed",
    ];
    assert!(report.contains(&wanted.join("\n")), "{report}");
    assert!(report.contains("1 event accepted; of 2 expectations, 1 held, 1 failed\n"), "{report}");
    // Where the lines are pasted before the expectation it holds.
    let pasted = lines.replace("expect 1 0 0\n", &parts(&report).2);
    printed(&["run", "--to-end", "-"], pasted.as_bytes(), 0);
}

#[test]
fn after_a_refusal_the_dispatcher_makes_no_handover() {
    let nothing = "the dispatcher makes no handover: a refusal ends the run";
    let texts = [
        ("version 1\ncontrollers 3\nreport 1 +5\nread 1\nhand 2 <- 1\n", "1 event accepted"),
        ("version 1\ncontrollers 8\n", "0 events accepted"),
        ("version 3\ncontrollers 3\nreport 1 +5\n", "0 events accepted"),
        ("version 1\ncontrollers 3\nreport 1 +5\nbytes 03\n", "1 event accepted"),
    ];
    for (lines, accepted) in texts {
        let (plain, to_end) =
            (workbench(&["run", "-"], lines.as_bytes()), workbench(&["run", "--to-end", "-"], lines.as_bytes()));
        assert_eq!((plain.status.code(), plain.stderr), (to_end.status.code(), to_end.stderr));
        let wanted = text(&plain.stdout).replace(&format!("{accepted}\n"), &format!("{accepted}\n{nothing}\n"));
        assert_eq!(text(&to_end.stdout), wanted);
        let picture = printed(&["draw", "--to-end", "-"], lines.as_bytes(), 1);
        assert!(picture.contains(&format!(">{nothing}<")) && !picture.contains(">dispatcher<"), "{picture}");
    }
}

#[test]
fn a_file_that_the_lines_make_too_long_is_known_before() {
    // A sync that waits for its handover, after as many local reads as leave room for the handover, and after one more.
    for (reads, note) in
        [(21_842, None), (21_843, Some("# with them the file has 65538 bytes, and is refused by question 1: "))]
    {
        let file = [vec![1, 1], [2, 5, 1].repeat(reads), vec![2, 2, 1]].concat();
        let report = printed(&["run", "--to-end", "-"], &file, 0);
        let said = report.lines().find(|line| line.starts_with("# with"));
        assert_eq!(said.is_some_and(|said| said.starts_with(note.unwrap_or("none"))), note.is_some(), "{said:?}");
        assert!(note.is_some() || said.is_none());
        let pasted = printed(&["disassemble", "-"], &file, 0) + &parts(&report).2;
        assert_eq!(workbench(&["run", "-"], pasted.as_bytes()).status.code(), Some(i32::from(note.is_some())));
    }
}

#[test]
fn only_run_and_draw_go_to_the_end() {
    for command in ["assemble", "disassemble", "why"] {
        assert!(complaint(&[command, "--to-end"], b"").contains("there is no option --to-end"), "{command}");
    }
    assert!(complaint(&["run", "--toend", "-"], b"").contains("there is no option --toend; did you mean `--to-end`? "));
    for command in ["run", "draw"] {
        assert!(printed(&[command, "--help"], b"", 0).contains(" [--to-end]"));
    }
}

/// The longest run files, with how many events are accepted: local reads; 64 messages, every log read by each of seven
/// controllers, and local reads; bytes that are no records; and local reads with 64 messages after them that nobody has read.
fn longest() -> [(Vec<u8>, usize); 4] {
    let reads = [vec![2, 7], [2, 5, 3].repeat(21_844)].concat();
    let mut dense = vec![1, 7];
    (0..64).for_each(|message| dense.extend([4, 1, message % 7 + 1, 0, 1]));
    for _ in 0..64 {
        (0..49).for_each(|pair| dense.extend([3, 3, pair / 7 + 1, pair % 7 + 1]));
    }
    let left = (65_535 - dense.len()) / 3;
    dense.extend([2, 5, 1].repeat(left));
    let zeros = [vec![1, 7], vec![0; 65_533]].concat();
    let mut unread = [vec![1, 7], [2, 5, 1].repeat(21_737)].concat();
    (0..64).for_each(|message| unread.extend([4, 1, message % 7 + 1, 0, 1]));
    [(reads, 21_844), (dense, 64 + 64 * 49 + left), (zeros, 0), (unread, 21_737 + 64)]
}

#[test]
fn the_longest_files_take_well_below_a_second() {
    let timed = |words: &[&str], input: &[u8]| {
        let start = Instant::now();
        let output = workbench(words, input);
        assert!(start.elapsed() < Duration::from_secs(1), "{words:?} took {:?}", start.elapsed());
        (output.status.code() != Some(2)).then_some(output.stdout)
    };
    for (bytes, events) in longest() {
        let disassembled = timed(&["disassemble", "-"], &bytes).expect("a text");
        assert!(timed(&["assemble", "-"], &disassembled).is_some_and(|again| again == bytes));
        let report = text(&timed(&["run", "--bytes", "-"], &bytes).expect("a report"));
        assert!(report.contains(&format!("\n{events} events accepted\n")), "{}", &report[report.len() - 500..]);
        assert!(timed(&["draw", "--bytes", "-"], &bytes).is_some());
        assert!(timed(&["run", "--to-end", "--bytes", "-"], &bytes).is_some());
        assert!(timed(&["draw", "--to-end", "--bytes", "-"], &bytes).is_some());
        // Two of them have a message.
        assert_eq!(timed(&["why", "--bytes", "-", "1.1", "1"], &bytes).is_some(), report.contains(" sends 1.1 "));
    }
}

//! Texts whose outcomes are stated, each rule of request Four among them.

use super::answered;
use crate::call::{Call, Lent};
use crate::engine::RAW;
use crate::reference::{CURRENT, OUTPUTS};
use crate::report::{Case, Report};

pub fn texts_stated(report: &mut Report) {
    for (behind, table) in COVERS {
        let text = [HEAD, behind].concat();
        read(report, &text, (2, &[2], &[table]));
    }
    for (behind, table) in SIX_FANINS {
        let head = ".model t\n.inputs a b c d e f\n.outputs g\n.names a b c d e f g\n";
        let text = [head, behind].concat();
        read(report, &text, (6, &[6], &[table]));
    }
    READ.iter().for_each(|row| read(report, row.0, row.1));
    refused(report);
    layouts(report);
    blocks(report);
    long(report);
}

/// Two inputs and an output.
const HEAD: &str = ".model t\n.inputs a b\n.outputs f\n";

/// Behind `HEAD`: the table.
const COVERS: [(&str, u64); 8] = [
    (".names a b f\n10 1\n.end\n", 0x2),
    (".names a b f\n1- 0\n.end\n", 0x5),
    (".names a b f\n.end\n", 0x0),
    (".names a b f\n-- 0\n.end\n", 0x0),
    (".names a b f\n-- 1\n.end\n", 0xF),
    (".names b a f\n10 1\n.end\n", 0x2),
    (".names a b f\n00 0\n-1 0\n11 0\n11 0\n.end\n", 0x2),
    (".names a b f\n\n11 1\n# 00 0\n \n00 1\n.end\n", 0x9),
];

/// The cover of a gate with six fan-ins: the table.
const SIX_FANINS: [(&str, u64); 6] = [
    ("111111 1\n.end\n", 0x8000000000000000),
    ("000001 1\n.end\n", 0x0000000100000000),
    ("-----1 1\n.end\n", 0xFFFFFFFF00000000),
    ("0----- 0\n.end\n", 0xAAAAAAAAAAAAAAAA),
    ("------ 1\n.end\n", 0xFFFFFFFFFFFFFFFF),
    (".end\n", 0),
];

/// n, the outputs' signals and the tables.
type Said<'a> = (u64, &'a [u64], &'a [u64]);

#[rustfmt::skip]
const READ: [(&str, Said); 6] = [
    (".model vote\n.inputs s1 s2 s3 s4\n.outputs maj\n.names s1 s2 s3 s4 maj\n11-- 1\n1-1- 1\n1--1 1\n-11- 1\n-1-1 1\n--11 1\n11-- 1\n.end\n",
        (4, &[4], &[0xFEE8])),
    (".model t\n.inputs a b c\n.outputs x\n.names a b c nor3\n1-- 0\n-1- 0\n--1 0\n.names a b nand2\n11 0\n.names nor3 nand2 x\n00 0\n11 0\n.end\n",
        (3, &[5], &[0x1, 0x7, 0x6])),
    (".model t\n.inputs a b c d e\n.outputs f\n.names a b c d e f\n----1 0\n1---- 0\n.end\n", (5, &[5], &[0x5555])),
    (KEYWORDS, KEYWORDS_SAID),
    // an output may be an input
    (".model t\n.inputs a b\n.outputs b f a\n.names b f\n0 1\n.end\n", (2, &[1, 2, 0], &[0x1])),
    // names are compared whole
    (".model t\n.inputs ab abc a\n.outputs b\n.names a abc ab b\n1-0 1\n.end\n", (3, &[3], &[0xA])),
];

/// Only the first word of a line is a keyword.
const KEYWORDS: &str = ".model .model\n.inputs .inputs .outputs .names .end\n.outputs .end .model\n.names .inputs .end .model\n10 1\n.end\n";
const KEYWORDS_SAID: Said = (4, &[3, 4], &[0x2]);

fn read(report: &mut Report, text: &str, said: Said) {
    let case = Case::text(0, text.as_bytes());
    answered(report, &case, 0);
    let mut lent = Lent::file(&Call::ReadBlif, &case.file);
    (RAW.run)(&Call::ReadBlif, &mut lent);
    let words = &lent.session;
    let outputs = &words[OUTPUTS..][..said.1.len()];
    let tables = &words[CURRENT..][..said.2.len()];
    let counts = [said.0, said.2.len() as u64, said.1.len() as u64];
    let wrong = words[..3] != counts || (outputs, tables) != (said.1, said.2);
    let got = || format!("{case}got {:?}, {outputs:?}, {tables:X?}", &words[..3]);
    report.count(case.size(), wrong.then(got));
}

/// Behind `HEAD`, with and without `.end` behind it.
#[rustfmt::skip]
const REFUSED: [(&[u8], u64); 36] = [
    // 17 before 18 before 3
    (b".names\n", 3),
    (b".names f\n", 3),
    (b".names a\n", 18),
    (b".names f f\n", 18),
    (b".names a q f\n", 18),
    (b".names a q f\x1F\n", 17),
    (b".names a a f\n", 18),
    (b".names a b\n", 18),
    // the rows of a block
    (b".names a b f\n11 1\n00 0\n", 17),
    (b".names a b f\n1 1\n", 17),
    (b".names a b f\n111\n", 17),
    (b".names a b f\n11\n", 17),
    (b".names a b f\n11 -\n", 17),
    (b".names a b f\n11 11\n", 17),
    (b".names a b f\n1 1 1\n", 17),
    (b".names a b f\n11 1 1\n", 17),
    (b".names a b f\n1\x001 1\n", 17),
    (b"11 1\n.names a b f\n", 17),
    // lines of other kinds, and out of order
    (b".names a b f\n.end x\n", 17),
    (b".names a b f\n.exdc\n", 17),
    (b".latch a q\n.names a b f\n", 17),
    (b".subckt x A=a\n.names a b f\n", 17),
    (b".inputs c\n.names a b f\n", 17),
    (b".outputs f\n.names a b f\n", 17),
    (b".names a b f\n.model t\n", 17),
    (b".names a b \\\nf\n", 17),
    // an unknown output at `.end`, then the number of blocks
    (b".end\n", 18),
    (b".end x\n", 17),
    (b".names a g\n1 1\n.end\n", 18),
    // a name that is used before its block
    (b".names g f\n1 1\n.names a g\n1 1\n.end\n", 18),
    (b".names f f\n.names a f\n", 18),
    // what follows `.end`
    (b".names a b f\n11 1\n.end\n\x1A", 17),
    (b".names a b f\n11 1\n.end\n\x0C\n", 17),
    (b".names a b f\n11 1\n.end\n.end\n", 17),
    (b".names a b f\n11 1\n.end\n.model u\n", 17),
    (b".names a b f\n11 1\n.end\n11 1\n", 17),
];

/// The first line, and lines that are well behind it: all 17.
const MODELS: [&[u8]; 8] = [
    b"",
    b".model\n",
    b".model t u\n",
    b".models t\n",
    b".model t\x7F\n",
    b"\xEF\xBB\xBF.model t\n",
    b".model t\n.model t\n",
    b"t .model\n",
];

/// Whole texts.
#[rustfmt::skip]
const WHOLE: [(&[u8], u64); 26] = [
    // no line where one is due
    (b"", 17),
    (b"\n \t\r\n# .model\n", 17),
    (b".model t\n.inputs a b\n.outputs f\n", 17),
    (b".model t\n.inputs a b\n.outputs f\n.names a b f\n11 1\n", 17),
    (b".model t\n.inputs a\n.outputs q\n", 17),
    // lines out of order
    (b".inputs a\n.model t\n", 17),
    (b".model t\n.outputs f\n.inputs a\n", 17),
    // lines end in newlines, not in carriage returns
    (b".model t\r.inputs a\r.outputs f\r.names a f\r1 1\r.end\r", 17),
    // the first line at fault decides, and in it 17 before 18 before 3
    (b".model t\n.inputs\nrubbish\n", 3),
    (b".model t\n.inputs a a\n\xFF\n", 18),
    (b".model t\n.inputs a a\n", 18),
    (b".model t\n.inputs a a\x7F a\n", 17),
    (b".model t\n.inputs a b c d e f g h i j k\n", 3),
    (b".model t\n.inputs a b c d e f g h i j j\n", 18),
    (b".model t\n.inputs a b c d e f g h i j k k\n", 18),
    (b".model t\n.inputs a\n.outputs\n", 3),
    (b".model t\n.inputs a\n.outputs f f\n", 18),
    (b".model t\n.inputs a\n.outputs a b c d e f g h i\n", 3),
    (b".model t\n.inputs a\n.outputs a b c d e f g h h\n", 18),
    (b".model t\n.inputs a\n.outputs a\n.end\n", 3),
    (b".model t\n.inputs a\n.outputs q\n.end\n", 18),
    (b".model t\n.inputs a b c d e g h\n.outputs f\n.names a b c d e g h f\n", 3),
    (b".model t\n.inputs a b c d e g h\n.outputs f\n.names a b c d e g h h f\n", 18),
    (b".model t\n.inputs a b c d e g h\n.outputs f\n.names a b c d e g q f\n", 18),
    (b".model t\n.inputs a b c d e g\n.outputs f\n.names a b c d e g f\n11111 1\n", 17),
    (b".model t\n.inputs a b c d e g\n.outputs f\n.names a b c d e g f\n1111111 1\n", 17),
];

fn refused(report: &mut Report) {
    for (behind, number) in REFUSED {
        for end in [&b""[..], b".end\n"] {
            let text = [HEAD.as_bytes(), behind, end].concat();
            answered(report, &Case::text(0, &text), number);
        }
    }
    for model in MODELS {
        let text = [model, b".inputs a\n.outputs f\n.names a f\n1 1\n.end\n"].concat();
        answered(report, &Case::text(0, &text), 17);
    }
    for (text, number) in WHOLE {
        answered(report, &Case::text(0, text), number);
    }
}

/// The same text in other layouts is the same network.
fn layouts(report: &mut Report) {
    let end = KEYWORDS.trim_end();
    for text in [
        KEYWORDS.replace('\n', "\r\n"),
        KEYWORDS.replace('\n', " \t\r \n\n"),
        KEYWORDS.replace(' ', "\t"),
        KEYWORDS.replace(' ', "\r \t"),
        KEYWORDS.replace('\n', "#\n"),
        KEYWORDS.replace('\n', "# .end \\ #\n"),
        KEYWORDS.replace("10 1", "\n# 00 1\n10 1\n\n10 1"),
        end.into(),
        format!("{end}#x"),
        format!("{KEYWORDS} \t\r\n# .names\n\n"),
        format!("\n\t\n#\n  {KEYWORDS}"),
        format!("{KEYWORDS}# \u{1A}"),
    ] {
        read(report, &text, KEYWORDS_SAID);
    }
}

/// Forty blocks, and one more.
fn blocks(report: &mut Report) {
    let names = ["f".into()]
        .into_iter()
        .chain((1..40).map(|i| format!("g{i}")));
    let forty: String = names.map(|g| format!(".names a {g}\n1 1\n")).collect();
    read(report, &format!("{HEAD}{forty}.end\n"), (2, &[2], &[2; 40]));
    for (behind, number) in [
        (&b".names a h\n"[..], 3),
        (b".names a g1\n", 18),
        (b".names a h\xFF\n", 17),
        (b".names a\n", 18),
    ] {
        let text = [HEAD.as_bytes(), forty.as_bytes(), behind].concat();
        answered(report, &Case::text(0, &text), number);
    }
}

/// Names, lines, rows and texts may be of any length.
fn long(report: &mut Report) {
    let name = "a".repeat(100_000);
    let rows = "-1 1\n".repeat(20_000);
    let blank = "# x\n\n".repeat(20_000);
    for text in [
        format!(
            ".model t\n.inputs {name} {name}b\n.outputs f\n.names {name} {name}b f\n-1 1\n.end\n"
        ),
        format!("{HEAD}.names a b f\n{rows}.end\n"),
        format!("{blank}{HEAD}{blank}.names a b f\n-1 1\n{blank}.end\n{blank}"),
        format!("{HEAD}.names a b f\n-1 1\n.end # {name}"),
    ] {
        read(report, &text, (2, &[2], &[0xC]));
    }
    let names: String = (0..2_000).map(|i| format!(" x{i}")).collect();
    for (text, number) in [
        (format!(".model t\n.inputs{names}\n"), 3),
        (format!(".model t\n.inputs{names} x0\n"), 18),
        (format!("{HEAD}.names{names}\n"), 18),
        (format!("{HEAD}.names{}\n", " a".repeat(20_000)), 18),
        (format!("{HEAD}.names a b f\n{name} 1\n"), 17),
    ] {
        answered(report, &Case::text(0, text.as_bytes()), number);
    }
}

//! Each refusal of a data sheet, and the order among them.

use crate::sheets::{sheet, HEADER_ROWS};
use plain::sheet::{import, Refused};
use plain::Refusal;

/// All names with their widths, in the order in which the tables first have them.
const NAMES: &str = "Q_UPDOWN 1 M_VERSION 7 Q_MEDIA 1 N_PIG 3 N_TOTAL 3 M_DUP 2 M_MCOUNT 8 \
    NID_C 10 NID_BG 14 Q_LINK 1 NID_PACKET 8 Q_DIR 2 L_PACKET 13 Q_SCALE 2 N_ITER 5 D_LINK 15 \
    Q_NEWCOUNTRY 1 Q_LINKORIENTATION 1 Q_LINKREACTION 2 Q_LOCACC 6 D_GRADIENT 15 Q_GDIR 1 G_A 8 \
    D_STATIC 15 V_STATIC 7 Q_FRONT 1 NC_DIFF 4 V_DIFF 7 D_LEVELTR 15 M_LEVELTR 3 NID_STM 8 \
    L_ACKLEVELTR 15 Q_RBC 1 NID_RBC 14 NID_RADIO 64 Q_SLEEPSESSION 1 Q_TRACKINIT 1 \
    D_TRACKINIT 15 D_TRACKCOND 15 L_TRACKCOND 15 M_TRACKCOND 4 Q_TEXTCLASS 2 Q_TEXTDISPLAY 1 \
    D_TEXTDISPLAY 15 M_MODETEXTDISPLAY 4 M_LEVELTEXTDISPLAY 3 L_TEXTDISPLAY 15 T_TEXTDISPLAY 10 \
    Q_TEXTCONFIRM 2 L_TEXT 8 X_TEXT 8 D_POSOFF 15 Q_MPOSITION 1 M_POSITION 20 D_RBCTR 15 \
    Q_ASPECT 1 Q_SRSTOP 1 NID_XUSER 9 D_SIGNAL 15 NID_SIGNAL 4 NID_FREQUENCY 5 L_SECTION 15 \
    L_TSRarea 15 D_TSR 15 L_TSR 15 V_TSR 7 D_STARTREVERSE 15 L_REVERSEAREA 15 D_TURNOUT 15 \
    V_TURNOUT 7 Q_STOP 1 END 8";

fn names() -> Vec<(&'static str, usize)> {
    let words: Vec<&str> = NAMES.split_whitespace().collect();
    let width = |word: &str| word.parse().expect("a width");
    words
        .chunks(2)
        .map(|pair| (pair[0], width(pair[1])))
        .collect()
}

fn writer<T>(number: u32, place: u64) -> Result<T, Refused> {
    Err(Refused::Telegram(Refusal { number, place }))
}

/// The rows of the empty telegram, one of them, counted from 1, in another wording.
fn with_row(number: usize, row: &str) -> Vec<u8> {
    let mut rows = [&HEADER_ROWS[..], &["END,8,255"]].concat();
    rows[number - 1] = row;
    sheet(&rows)
}

/// The rows of the empty telegram, with a packet.
fn with_packet(rows: &[&str]) -> Vec<u8> {
    sheet(&[&HEADER_ROWS[..], rows, &["END,8,255"]].concat())
}

const SESSION: [&str; 6] = [
    "NID_PACKET,8,42",
    "Q_DIR,2,1",
    "L_PACKET,13,113",
    "Q_RBC,1,1",
    "NID_C,10,9",
    "NID_RBC,14,77",
];

fn with_radio_number(places: &str) -> Vec<u8> {
    let radio = format!("NID_RADIO,64,{places}");
    with_packet(&[&SESSION[..], &[&radio, "Q_SLEEPSESSION,1,0"]].concat())
}

#[test]
fn the_header() {
    let good = String::from_utf8(sheet(&HEADER_ROWS)).expect("text");
    for wrong in [
        "",
        "\r\n",
        "variable,bits,value",
        "variable,bits,value\r",
        "variable,bits,value\n",
        "variable,bits,value \r\n",
        "Variable,bits,value\r\n",
        "variable,bits\r\n",
        "\u{feff}variable,bits,value\r\n",
        "\"variable\",bits,value\r\n",
        &good[1..],
        &format!("\r\n{good}"),
    ] {
        assert_eq!(import(wrong.as_bytes()), Err(Refused::Row(0)), "{wrong:?}");
    }
}

#[test]
fn every_name_has_its_own_width() {
    assert_eq!(names().len(), 72);
    for (name, width) in names() {
        let value = if name == "NID_RADIO" {
            "0000000000000000"
        } else {
            "0"
        };
        let row = |width: usize| sheet(&[&format!("{name},{width},{value}")]);
        assert!(
            matches!(import(&row(width)), Err(Refused::Telegram(_))),
            "{name}"
        );
        for other in (0..70).filter(|&other| other != width) {
            assert_eq!(import(&row(other)), Err(Refused::Row(1)), "{name}");
        }
    }
}

// Each in the place of row 4.
const NO_ROWS: [&str; 35] = [
    "",
    ",",
    ",,",
    "N_PIG",
    "N_PIG,3",
    "N_PIG,3,",
    "N_PIG,3,0,",
    "N_PIG,03,0",
    "N_PIG,4,0",
    "N_PIG,,0",
    "N_PIG,3,00",
    "N_PIG,3,05",
    "N_PIG,3,+0",
    "N_PIG,3,-0",
    "N_PIG,3, 0",
    "N_PIG,3,0 ",
    "N_PIG,3,0.0",
    "N_PIG,3,F",
    "N_PIG,3,\"0\"",
    "\"N_PIG\",3,0",
    " N_PIG,3,0",
    "n_pig,3,0",
    "N_PIG(1),3,0",
    "PIG,3,0",
    "L_TSRAREA,15,0",
    "variable,bits,value",
    "N_PIG,3,18446744073709551616",
    "N_PIG,3,36893488147419103232",
    "N_PIG,3,100000000000000000000000000000000000000",
    "N_PIG,3,0\r",
    "N_PIG,3,0\nN_TOTAL,3,1",
    "N_PIG,3,0\rN_TOTAL,3,1",
    "NID_RADIO,64,0",
    "END,8,",
    "END,8,0255",
];

#[test]
fn rows_that_are_none() {
    for wrong in NO_ROWS {
        assert_eq!(
            import(&with_row(4, wrong)),
            Err(Refused::Row(4)),
            "{wrong:?}"
        );
    }
}

#[test]
fn line_ends() {
    let good = with_row(1, HEADER_ROWS[0]);
    for cut in [1, 2] {
        assert_eq!(import(&good[..good.len() - cut]), Err(Refused::Row(11)));
    }
    let without_cr = [&good[..good.len() - 2], b"\n"].concat();
    assert_eq!(import(&without_cr), Err(Refused::Row(11)));
    for more in [&b"\r\n"[..], b"\n", b" ", b"\0", b"END,8,255", b"\x1a"] {
        assert_eq!(import(&[&good[..], more].concat()), Err(Refused::Row(12)));
    }
}

#[test]
fn rows_that_do_for_the_row_test() {
    // They need not fit their width, and an end mark need not be one: the writer sees to that.
    assert_eq!(import(&with_row(4, "N_PIG,3,8")), writer(12, 9));
    assert_eq!(
        import(&with_row(4, "N_PIG,3,18446744073709551615")),
        writer(12, 9)
    );
    assert_eq!(
        import(&with_row(11, "END,8,18446744073709551615")),
        writer(12, 50)
    );
    assert_eq!(import(&with_row(11, "END,8,254")), writer(5, 58));
    assert_eq!(import(&with_row(11, "END,8,7")), writer(6, 50));
    assert_eq!(import(&with_row(4, "N_PIG,3,2")), writer(4, 12));
}

#[test]
fn radio_numbers() {
    assert!(import(&with_radio_number("08614970020002FF")).is_ok());
    for wrong in [
        "08614970020002F",
        "08614970020002FFF",
        "",
        "0",
        "08614970020002ff",
        "08614970020002FA",
        "0861497002000 FF",
        "+861497002000FFF",
        "604068206010827519",
    ] {
        assert_eq!(
            import(&with_radio_number(wrong)),
            Err(Refused::Row(17)),
            "{wrong:?}"
        );
    }
    for mixed in ["0861497002000FF2", "F861497002000FFF", "FFFFFFFFFFFFFFF0"] {
        assert_eq!(import(&with_radio_number(mixed)), writer(7, 98));
    }
}

#[test]
fn names_that_are_not_due() {
    assert_eq!(import(&with_row(4, "N_TOTAL,3,0")), Err(Refused::Name(4)));
    // Another width is no matter, only the value has to fit the field that is due.
    assert_eq!(import(&with_row(4, "NID_C,10,0")), Err(Refused::Name(4)));
    assert_eq!(
        import(&with_row(11, "NID_PACKET,8,255")),
        Err(Refused::Name(11))
    );
    assert_eq!(import(&with_row(7, "END,8,255")), Err(Refused::Name(7)));
    assert_eq!(
        import(&with_row(9, "NID_RADIO,64,000000000000000F")),
        Err(Refused::Name(9))
    );
    let packet = ["END,8,254", "Q_DIR,2,1", "L_PACKET,13,23"];
    assert_eq!(import(&with_packet(&packet)), Err(Refused::Name(11)));
    let packet = ["NID_PACKET,8,254", "Q_SCALE,2,1", "L_PACKET,13,23"];
    assert_eq!(import(&with_packet(&packet)), Err(Refused::Name(12)));
}

#[test]
fn the_first_of_several_wrong_names() {
    let mut rows = [&HEADER_ROWS[..], &["END,8,255"]].concat();
    rows.swap(3, 4);
    rows[3] = "N_TOTAL,3,0";
    rows[4] = "N_PIG,3,1";
    assert_eq!(import(&sheet(&rows)), Err(Refused::Name(4)));
}

#[test]
fn rows_come_before_values_and_values_before_names() {
    // A wrong name in row 1, a wrong value in row 2, a bad row at the end.
    let mut rows = [&HEADER_ROWS[..], &["END,8,0255"]].concat();
    rows[0] = "Q_MEDIA,1,1";
    rows[1] = "M_VERSION,7,17";
    assert_eq!(import(&sheet(&rows)), Err(Refused::Row(11)));
    rows[10] = "END,8,255";
    assert_eq!(import(&sheet(&rows)), writer(4, 1));
    rows[1] = "M_VERSION,7,16";
    assert_eq!(import(&sheet(&rows)), Err(Refused::Name(1)));
    rows[0] = "Q_UPDOWN,1,1";
    assert!(import(&sheet(&rows)).is_ok());
}

#[test]
fn values_that_end_early_or_go_on() {
    // Where the field of the row that is missing would begin.
    let starts = [0, 1, 8, 9, 12, 15, 17, 25, 35, 49, 50];
    for (rows, place) in starts.into_iter().enumerate() {
        assert_eq!(import(&sheet(&HEADER_ROWS[..rows])), writer(5, place));
    }
    assert_eq!(import(&with_packet(&["END,8,255"])), writer(11, 58));
    // The end mark does for a radio number, and Q_SLEEPSESSION is missing.
    assert_eq!(import(&with_packet(&SESSION)), writer(5, 162));
}

#[test]
fn as_many_rows_as_there_may_be() {
    let filled = |rows: usize| {
        let mut all = [&HEADER_ROWS[..], &["END,8,255"]].concat();
        all.resize(rows, "X_TEXT,8,0");
        sheet(&all)
    };
    assert_eq!(import(&filled(829)), writer(11, 58));
    assert_eq!(import(&filled(830)), writer(11, 58));
    for rows in [831, 832, 5000] {
        assert_eq!(import(&filled(rows)), Err(Refused::Row(831)));
    }
    // An 831st row is refused whatever it is, and an earlier bad row comes first.
    for more in [&b"\r\n"[..], b"X", b"\0"] {
        assert_eq!(
            import(&[&filled(830)[..], more].concat()),
            Err(Refused::Row(831))
        );
        assert_eq!(
            import(&[&filled(829)[..], more].concat()),
            Err(Refused::Row(830))
        );
    }
}

//! The status sheet: the one that source document 001 prints, every byte of it, every length, every number of every field.

use super::code;
use crate::figures::sheet;
use crate::second::sheet::{check, read, write, Area, Port, Sheet, BYTES};

/// The printed sheet's figures, as the table under it tells them.
fn printed() -> Sheet {
    let mut of = Sheet {
        aircraft: *b"AU0115",
        a1: 10,
        a2: 50,
        level: 1,
        seconds: 421,
        descent: 1,
        d1: 50,
        d2: 10,
        tl1: 690,
        tl2: 500,
        method: 2,
        profile: 1,
        cruise: 5,
        devg: 5,
        instant: 1,
        ports: [Port { icao: *b"0000", active: 0 }; 50],
        ..Sheet::default()
    };
    of.areas[0] = Area { y1: 0, x1: 5400, y2: -5399, x2: 9600, active: 1 };
    of.areas[1] = Area { y1: 0, x1: 9600, y2: -3000, x2: -9600, active: 1 };
    of.ports[0].icao = *b"YPDN";
    of.ports[1] = Port { icao: *b"WSSS", active: 1 };
    of
}

fn put(at: usize, bytes: &[u8]) -> Vec<u8> {
    let mut text = sheet();
    text[at..at + bytes.len()].copy_from_slice(bytes);
    text
}

fn written(of: &Sheet) -> Result<Vec<u8>, crate::second::Refusal> {
    let mut out = vec![b'#'; BYTES + 1];
    let length = write(of, &mut out)?;
    assert_eq!((length, out[BYTES]), (BYTES, b'#'));
    out.truncate(BYTES);
    Ok(out)
}

#[test]
fn the_printed_sheet() {
    assert_eq!(sheet().len(), BYTES);
    assert_eq!(read(&sheet()), Ok(printed()));
    assert_eq!(written(&printed()), Ok(sheet()));
    let mut short = vec![b'#'; BYTES - 1];
    assert_eq!(write(&printed(), &mut short), Err(code(2, 0)));
    assert!(short.iter().all(|byte| *byte == b'#'));
}

#[test]
fn ends() {
    assert_eq!(check(b""), Err(code(8, 0)));
    assert_eq!(check(&sheet()[..14]), Err(code(8, 0)));
    assert_eq!(check(&sheet()[..15]), Err(code(8, 15)));
    assert_eq!(check(&sheet()[..912]), Err(code(8, 911)));
    let mut longer = sheet();
    longer.push(b' ');
    assert_eq!(check(&longer), Err(code(8, 913)));
}

#[test]
fn fields() {
    for (at, bytes, want) in [
        (0, &b"+"[..], code(3, 0)),
        (14, b"-", code(3, 0)),
        (15, b"a", code(4, 15)),
        (21, b"\n", code(3, 21)),
        (24, b"X", code(4, 24)),
        (25, b" 0", code(5, 25)),
        (25, b"00", code(6, 25)),
        (25, b"05", code(6, 25)),
        (25, b"5 ", code(4, 25)),
        (25, b"  ", code(4, 25)),
        (25, b"+5", code(4, 25)),
        (25, b"-5", code(5, 25)),
        (25, b"-0", code(6, 25)),
        (25, b" -", code(4, 25)),
        (33, b"007", code(6, 33)),
        (60, b"-1", code(5, 60)),
        (65, b"3", code(4, 65)),
        (69, b" ", code(4, 69)),
        (83, b"B1", code(3, 83)),
        (86, b" 5401", code(5, 86)),
        (86, b"-5401", code(5, 86)),
        (86, b"-0400", code(6, 86)),
        (86, b"- 400", code(4, 86)),
        (92, b"-10801", code(5, 92)),
        (92, b" 10801", code(5, 92)),
        (112, b"2", code(4, 112)),
        (403, b"A2 ", code(3, 403)),
        (406, b"ypdn", code(4, 406)),
        (410, b" ", code(3, 410)),
        (411, b"R", code(4, 411)),
        (412, b"  A11", code(3, 412)),
    ] {
        assert_eq!(check(&put(at, bytes)), Err(want), "{}", bytes.escape_ascii());
    }
    for (at, bytes) in
        [(86, &b"-5400"[..]), (86, b" 5400"), (92, b"-10800"), (92, b" 10800"), (25, b" 1"), (33, b"  0")]
    {
        assert_eq!(check(&put(at, bytes)), Ok(()), "{}", bytes.escape_ascii());
    }
}

/// Airports go down the columns: the row of airport 1 has 11, 21, 31 and 41 behind it.
#[test]
fn columns() {
    let mut of = printed();
    for (index, port) in of.ports.iter_mut().enumerate() {
        port.icao.copy_from_slice(format!("N0{:02}", index + 1).as_bytes());
        port.active = index as i32 % 2;
    }
    let text = written(&of).expect("an allowed record");
    let line = b"A4 N004/1 A14N014/1 A24N024/1 A34N034/1 A44N044/1\r\n";
    assert_eq!(&text[403 + 3 * 51..403 + 4 * 51], line);
    assert_eq!(read(&text), Ok(of));
}

/// Records that are refused, at the place where the field would stand, the leftmost first.
#[test]
fn records() {
    let refused = |change: fn(&mut Sheet)| {
        let mut of = printed();
        change(&mut of);
        written(&of)
    };
    assert_eq!(refused(|of| of.aircraft[5] = b' '), Err(code(4, 15)));
    assert_eq!(refused(|of| of.ascent = 2), Err(code(4, 24)));
    assert_eq!(refused(|of| of.ascent = -1), Err(code(4, 24)));
    assert_eq!(refused(|of| of.a1 = 0), Err(code(5, 25)));
    assert_eq!(refused(|of| of.seconds = 1000), Err(code(5, 33)));
    assert_eq!(refused(|of| of.seconds = -1), Err(code(5, 33)));
    assert_eq!(refused(|of| of.method = 3), Err(code(4, 65)));
    assert_eq!(refused(|of| of.areas[9].x2 = 10_801), Err(code(5, 83 + 32 * 9 + 22)));
    assert_eq!(refused(|of| of.areas[9].active = 2), Err(code(4, 83 + 32 * 9 + 29)));
    assert_eq!(refused(|of| of.ports[49].icao[0] = 0), Err(code(4, 403 + 51 * 9 + 43)));
    assert_eq!(refused(|of| of.ports[49].active = 2), Err(code(4, 403 + 51 * 9 + 48)));
    let two = |of: &mut Sheet| {
        of.ports[10].active = 9;
        of.ports[1].active = 9;
    };
    assert_eq!(refused(two), Err(code(4, 403 + 18)));
}

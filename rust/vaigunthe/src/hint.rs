//! What the first bytes of a refused file tell: formats that the station does not read, and the way from each to one that it does.

/// What a compound file starts with.
const COMPOUND: &[u8] = &[0xD0, 0xCF, 0x11, 0xE0, 0xA1, 0xB1, 0x1A, 0xE1];
/// What a zip file starts with.
const ZIP: &[u8] = b"PK\x03\x04";

const TAKE_OUT: &str = "\
this is a whole .xls file; take its workbook stream out first, with one of
  gsf cat FILE Workbook > session.bin       of Debian's package libgsf-bin
  7z e -so FILE Workbook > session.bin      of Debian's package p7zip-full
  Where it has no Workbook but a Book, it is of Excel 5.0 or 95, which is not read.";

const SAVE_AS: &str = "\
the station reads workbooks of Excel 97 to 2003
  Open it in a spreadsheet program, save it as 'Excel 97-2003' (.xls), and take
  the workbook stream out of that.";

pub fn of(bytes: &[u8]) -> Option<String> {
    if bytes.starts_with(COMPOUND) {
        return Some(TAKE_OUT.into());
    }
    let format = if bytes.starts_with(ZIP) {
        "a zip file, as .xlsx files of Excel 2007 and later are"
    } else {
        older_biff(bytes)?
    };
    Some(format!("this is {format}; {SAVE_AS}"))
}

/// Which older workbook starts with this BOF. That of Excel 5.0 has the type of Excel 97's, and another version.
fn older_biff(bytes: &[u8]) -> Option<&'static str> {
    match bytes {
        [0x09, 0x00, ..] => Some("a worksheet of Excel 2"),
        [0x09, 0x02, ..] => Some("a worksheet of Excel 3"),
        [0x09, 0x04, ..] => Some("a workbook of Excel 4"),
        [0x09, 0x08, _, _, 0x00, 0x05, ..] => Some("a workbook of Excel 5.0 or 95"),
        _ => None,
    }
}

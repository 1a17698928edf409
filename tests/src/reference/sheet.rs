//! The bench sheet: reading a code from two lines of text, and the listing that is printed for it.

use super::params::{self, Params};
use super::words::Code;
use crate::Elem;

/// The columns of a number.
const COLUMNS: usize = 6;

/// The greatest number on a sheet.
const GREATEST: u32 = 65535;

/// The greatest n on a sheet.
const LONGEST: u32 = 512;

/// A number in its columns, blanks before it.
pub fn number(value: u32) -> String {
    format!("{value:>COLUMNS$}")
}

/// The number in some columns: the one from 0 to the greatest that is printed so again.
fn read_number(columns: &[u8]) -> Option<u32> {
    let value = std::str::from_utf8(columns).ok()?.trim_start().parse().ok()?;
    (value <= GREATEST && number(value).as_bytes() == columns).then_some(value)
}

/// The numbers of a line.
fn read_line(line: &[u8]) -> Option<Vec<u32>> {
    line.chunks(COLUMNS).map(read_number).collect()
}

/// The code on a sheet, which hides nothing; none for a text that is no sheet. The code may be refused.
pub fn read(text: &[u8]) -> Option<Params> {
    // Two lines, each ended by byte 10, and nothing after them.
    let parts: Vec<&[u8]> = text.split(|&byte| byte == 10).collect();
    let [first, second, []] = parts[..] else {
        return None;
    };
    let [m, n, t, omega] = read_line(first)?[..] else {
        return None;
    };
    let h: Vec<Elem> = read_line(second)?.into_iter().map(|entry| entry as Elem).collect();
    (n <= LONGEST && h.len() == n as usize).then(|| Params::new(m, t, omega, h))
}

/// The listing of a sheet, or 13, or the number of its code.
pub fn listing(text: &[u8]) -> Result<Vec<u8>, u32> {
    let params = read(text).ok_or(13_u32)?;
    params::judge(&params, &[])?;
    let code = Code::new(&params);
    let (support, k) = (params::support(&params), code.k() as u32);
    let mut lines = vec![vec![params.m, params.n, params.t, params.omega, params.n - k, k]];
    for j in 0..code.places() {
        lines.push(vec![j as u32, params.h[j].into(), support[j].into(), code.roles[j].into()]);
    }
    let printed: String = lines.iter().map(|line| print_line(line)).collect();
    Ok(printed.into_bytes())
}

/// A line of numbers, ended by byte 10.
fn print_line(numbers: &[u32]) -> String {
    numbers.iter().map(|&value| number(value)).collect::<String>() + "\n"
}

/// A code as a sheet.
pub fn sheet(params: &Params) -> Vec<u8> {
    let h: Vec<u32> = params.h.iter().map(|&entry| entry.into()).collect();
    (print_line(&[params.m, params.n, params.t, params.omega]) + &print_line(&h)).into_bytes()
}

/// What the sheet program prints: the listing, or one line with the number alone.
pub fn printed(text: &[u8]) -> Vec<u8> {
    listing(text).unwrap_or_else(|number| print_line(&[number]).into_bytes())
}

#[cfg(test)]
mod tests {
    use super::params::{code_a, code_t};
    use super::*;

    const SHEET: &str = "     3     4     1     0\n     7     2     3     4\n";
    const LISTING: &str = concat!(
        "     3     4     1     0     3     1\n",
        "     0     7     0     0\n",
        "     1     2     1     0\n",
        "     2     3     2     0\n",
        "     3     4     3     1\n",
    );

    #[test]
    fn cases() {
        assert_eq!(read(SHEET.as_bytes()), Some(code_a()));
        assert_eq!(sheet(&code_a()), SHEET.as_bytes());
        assert_eq!(printed(SHEET.as_bytes()), LISTING.as_bytes());
        assert_eq!(printed(b""), b"    13\n");
        assert_eq!(printed(b"     3     4     1     0\n     7     2     3     5\n"), b"     5\n");
    }

    #[test]
    fn the_toy_example() {
        let lines = String::from_utf8(printed(&sheet(&code_t()))).expect("plain text");
        let lines: Vec<&str> = lines.lines().collect();
        assert_eq!(lines.len(), 17);
        assert_eq!(lines[0], "     5    16     2    24    10     6");
        assert_eq!(lines[1], "     0    12    24     0");
        assert_eq!(lines[9], "     8    14    25     1");
        assert_eq!(lines[16], "    15    31     4     1");
    }

    #[test]
    fn texts_that_are_no_sheets() {
        for text in [
            "     3     4     1     0\n     7     2     3     4",
            "     3     4     1     0\n     7     2     3     4\n\n",
            "     3     4     1     0\n     7     2     3\n",
            "     3     4     1     0\n     7     2     3     4     5\n",
            "     3     4     1    00\n     7     2     3     4\n",
            "000003     4     1     0\n     7     2     3     4\n",
            "3          4     1     0\n     7     2     3     4\n",
            "     3     4     1      \n     7     2     3     4\n",
            "     3     4     1\n     7     2     3     4\n",
            "     3     4     1     0     0\n     7     2     3     4\n",
            "     3     4     1     0\n     7     2     3 65536\n",
            "     3     4     1     0\r\n     7     2     3     4\r\n",
            "     3     4     1\n     0     7     2     3     4\n",
            "   3   4   1   0\n   7   2   3   4\n",
        ] {
            assert_eq!(listing(text.as_bytes()), Err(13), "{text:?}");
        }
    }

    /// A code of any n up to 512 is read whole and then judged; a greater n stands on no sheet.
    #[test]
    fn lengths_that_no_code_has() {
        assert_eq!(listing(b"     3     0     1     0\n\n"), Err(2));
        assert_eq!(listing(b"    17     0     1     0\n\n"), Err(1));
        let of_length = |n: u32| Params::new(16, 1, 65535, vec![65535; n as usize]);
        for (n, number) in [(511, 2), (512, 6)] {
            assert_eq!(listing(&sheet(&of_length(n))), Err(number));
            assert_eq!(read(&sheet(&of_length(n))), Some(of_length(n)));
        }
        for n in [513, 1024, 65535] {
            assert_eq!(listing(&sheet(&of_length(n))), Err(13));
            assert_eq!(listing(&sheet(&Params { m: 1, h: vec![], ..of_length(n) })), Err(13));
        }
    }
}

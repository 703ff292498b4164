//! Prints what `emit temperature` prints of readings of two sensors, as you would write it by hand for these lines alone: each value of
//! `temperature` from the tick before it to the tick before the next one. Bad lines are counted, and their causes aren't looked for.

#[path = "../../bench/series.rs"]
#[allow(dead_code)]
mod series;

use std::io::BufRead;

const ORIGIN: i64 = 1_772_352_000;
const SENSORS: [(&[u8], i64); 2] = [(b"temperature", 10), (b"pressure", 100)];

fn main() -> std::io::Result<()> {
    let mut lines = std::io::BufReader::with_capacity(65536, std::io::stdin().lock());
    let mut out = series::Out::new();
    // The tick and the value of the last reading of each sensor.
    let mut last: [Option<(i64, i64)>; 2] = [None; 2];
    let (mut line, mut bad) = (Vec::new(), 0);
    lines.read_until(b'\n', &mut line)?;
    loop {
        line.clear();
        if lines.read_until(b'\n', &mut line)? == 0 {
            break;
        }
        let Some((sensor, tick, value)) = reading(line.strip_suffix(b"\n").unwrap_or(&line)) else {
            bad += 1;
            continue;
        };
        if let Some((before, held)) = last[sensor] {
            if tick <= before {
                bad += 1;
                continue;
            }
            if sensor == 0 {
                out.put(before - 1, tick - 1, Some(held));
            }
        }
        last[sensor] = Some((tick, value));
    }
    out.flush();
    if bad > 0 {
        eprintln!("{bad} bad lines");
    }
    Ok(())
}

/// The sensor, the tick and the value of a line.
fn reading(line: &[u8]) -> Option<(usize, i64, i64)> {
    let (time, rest) = field(line)?;
    let (name, value) = field(rest)?;
    let sensor = SENSORS.iter().position(|sensor| sensor.0 == name.trim_ascii())?;
    let (seconds, _nanoseconds) = moment(time.trim_ascii())?;
    Some((sensor, seconds - ORIGIN + 1, scaled(value.trim_ascii(), SENSORS[sensor].1)?))
}

/// What is before the first comma, and what is after it.
fn field(text: &[u8]) -> Option<(&[u8], &[u8])> {
    let at = text.iter().position(|byte| *byte == b',')?;
    Some((&text[..at], &text[at + 1..]))
}

/// The seconds since 1970 in UTC and the nanoseconds of a date such as `2026-03-01T08:00:00.25+01:00`.
fn moment(text: &[u8]) -> Option<(i64, i64)> {
    let (head, mut rest) = text.split_at_checked(19)?;
    let [_, _, _, _, b'-', _, _, b'-', _, _, b'T', _, _, b':', _, _, b':', _, _] = head else {
        return None;
    };
    let (year, month, day) = (100 * pair(head, 0)? + pair(head, 2)?, pair(head, 5)?, pair(head, 8)?);
    let (hour, minute, second) = (pair(head, 11)?, pair(head, 14)?, pair(head, 17)?);
    if !(1..=12).contains(&month) || !(1..=last_day(year, month)).contains(&day) || hour > 23 || minute > 59 || second > 59 {
        return None;
    }
    let (mut nanoseconds, mut unit) = (0, 100_000_000);
    if let [b'.', digits @ ..] = rest {
        rest = digits;
        while let [digit @ b'0'..=b'9', more @ ..] = rest {
            nanoseconds += i64::from(digit - b'0') * unit;
            unit /= 10;
            rest = more;
        }
    }
    let ahead = match rest {
        [b'Z'] => 0,
        [sign @ (b'+' | b'-'), _, _, b':', _, _] => {
            let ahead = 3600 * pair(rest, 1)? + 60 * pair(rest, 4)?;
            if *sign == b'-' { -ahead } else { ahead }
        }
        _ => return None,
    };
    Some((days(year, month, day) * 86400 + 3600 * hour + 60 * minute + second - ahead, nanoseconds))
}

/// The number of two digits.
fn pair(text: &[u8], at: usize) -> Option<i64> {
    let (tens, ones) = (text[at].wrapping_sub(b'0'), text[at + 1].wrapping_sub(b'0'));
    if tens > 9 || ones > 9 { None } else { Some(i64::from(10 * tens + ones)) }
}

fn last_day(year: i64, month: i64) -> i64 {
    match month {
        2 if year % 4 == 0 && (year % 100 != 0 || year % 400 == 0) => 29,
        2 => 28,
        4 | 6 | 9 | 11 => 30,
        _ => 31,
    }
}

/// The days since 1970, with years that start in March.
fn days(year: i64, month: i64, day: i64) -> i64 {
    let year = if month < 3 { year - 1 } else { year };
    let of_year = (153 * ((month + 9) % 12) + 2) / 5 + day - 1;
    365 * year + year / 4 - year / 100 + year / 400 + of_year - 719_468
}

/// A decimal times a scale, if that is whole.
fn scaled(text: &[u8], scale: i64) -> Option<i64> {
    let unsigned = text.strip_prefix(b"-").unwrap_or(text);
    let (mut number, mut parts, mut has_mark) = (0_i64, 1, false);
    for byte in unsigned {
        match byte {
            b'.' if !has_mark => has_mark = true,
            b'0'..=b'9' => {
                number = number.checked_mul(10)?.checked_add(i64::from(byte - b'0'))?;
                parts *= if has_mark { 10 } else { 1 };
            }
            _ => return None,
        }
    }
    let scaled = number.checked_mul(scale)?;
    if scaled % parts != 0 {
        return None;
    }
    Some(if unsigned.len() < text.len() { -scaled / parts } else { scaled / parts })
}

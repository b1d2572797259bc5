//! Rows of the two binary kinds; W is the sample width, 2 or 4.

use super::{fits, no, place_of, word_of, Answer, Layout, MISSING, NONE};

pub fn four(bytes: &[u8]) -> u32 {
    u32::from_le_bytes([bytes[0], bytes[1], bytes[2], bytes[3]])
}

/// A sample of W bytes in two's complement; the lowest of either width is a missing one. Its bytes are loaded at once, so
/// that the compiler reads many samples at a time.
#[inline(always)]
pub fn sample<const W: usize>(bytes: &[u8]) -> i32 {
    if W == 4 {
        return i32::from_le_bytes(bytes.try_into().unwrap_or_default());
    }
    match i16::from_le_bytes(bytes.try_into().unwrap_or_default()) {
        i16::MIN => MISSING,
        sample => i32::from(sample),
    }
}

/// Writes a sample that fits as W bytes. A missing one, which lies below all others, becomes the lowest of the width.
#[inline(always)]
pub fn put_sample<const W: usize>(sample: i32, bytes: &mut [u8]) {
    if W == 4 {
        return bytes.copy_from_slice(&sample.to_le_bytes());
    }
    let narrow = sample.clamp(i16::MIN.into(), i16::MAX.into()) as i16;
    bytes.copy_from_slice(&narrow.to_le_bytes());
}

/// Bytes of a row: number, time, samples, status words.
pub fn row_size<const W: usize>(layout: &Layout) -> usize {
    8 + layout.a * W + 2 * layout.d.div_ceil(16)
}

/// Bits past D in the last status word: none where D fills it.
fn padding(layout: &Layout) -> u16 {
    match layout.d % 16 {
        0 => 0,
        used => u16::MAX << used,
    }
}

/// The length of the file, 11.
pub fn check_length<const W: usize>(layout: &Layout, data: &[u8]) -> Result<(), Answer> {
    if data.len() as u64 != u64::from(layout.rows) * row_size::<W>(layout) as u64 {
        return Err(no(11, 0, 0));
    }
    Ok(())
}

/// One row: 12, then 13. Where no bit can be padding the row's last bytes are not touched.
#[inline(always)]
pub fn check_row(row: &[u8], n: u32, padding: u16) -> Result<(), Answer> {
    if four(row) != n {
        return Err(no(12, n, 1));
    }
    if padding != 0 {
        let last = row.len() - 2;
        if u16::from_le_bytes([row[last], row[last + 1]]) & padding != 0 {
            return Err(no(13, n, 0));
        }
    }
    Ok(())
}

/// The whole file, `each` called with every row that passes.
#[inline(always)]
pub fn walk<const W: usize>(layout: &Layout, data: &[u8], mut each: impl FnMut(u32, &[u8])) -> Result<(), Answer> {
    check_length::<W>(layout, data)?;
    let padding = padding(layout);
    for (n, row) in (1..).zip(data.chunks_exact(row_size::<W>(layout))) {
        check_row(row, n, padding)?;
        each(n, row);
    }
    Ok(())
}

pub fn check<const W: usize>(layout: &Layout, data: &[u8]) -> Result<(), Answer> {
    walk::<W>(layout, data, |_, _| ())
}

/// Where row n starts in a file that passes.
pub fn find<const W: usize>(layout: &Layout, data: &[u8], n: u32) -> Result<usize, Answer> {
    check::<W>(layout, data)?;
    Ok((n as usize - 1) * row_size::<W>(layout))
}

/// Shows the row at the start of `data`.
pub fn show<const W: usize>(layout: &Layout, data: &[u8], shown: &mut [i64]) {
    shown[0] = i64::from(four(&data[4..]));
    let (samples, statuses) = shown[1..].split_at_mut(layout.a);
    let (sample_bytes, words) = data[8..].split_at(layout.a * W);
    for (place, bytes) in samples.iter_mut().zip(sample_bytes.chunks_exact(W)) {
        *place = place_of(sample::<W>(bytes));
    }
    for (places, bytes) in statuses.chunks_mut(16).zip(words.chunks_exact(2)) {
        let word = u16::from_le_bytes([bytes[0], bytes[1]]);
        for (bit, place) in places.iter_mut().enumerate() {
            *place = i64::from(word >> bit & 1);
        }
    }
}

/// Writes the missing samples of a row over the zeros that stand there.
#[cold]
fn put_missing<const W: usize>(samples: &[i64], bytes: &mut [u8]) {
    for (bytes, &sample) in bytes.chunks_exact_mut(W).zip(samples) {
        if sample == NONE {
            bytes[W - 1] = 0x80;
        }
    }
}

/// Writes a row: 16, 17.
pub fn put_row<const W: usize>(layout: &Layout, n: u32, row: &[i64], out: &mut [u8]) -> Result<usize, Answer> {
    let missing = fits(layout, n, row, 8 * W as u32)?;
    let size = row_size::<W>(layout);
    let Some(out) = out.get_mut(..size) else { return Err(no(17, 0, 0)) };
    let (head, rest) = out.split_at_mut(8);
    head[..4].copy_from_slice(&n.to_le_bytes());
    head[4..].copy_from_slice(&(row[0] as u32).to_le_bytes());
    let (samples, statuses) = row[1..].split_at(layout.a);
    let (sample_bytes, words) = rest.split_at_mut(layout.a * W);
    for (bytes, sample) in sample_bytes.chunks_exact_mut(W).zip(samples) {
        bytes.copy_from_slice(&sample.to_le_bytes()[..W]);
    }
    if missing {
        put_missing::<W>(samples, sample_bytes);
    }
    for (bytes, statuses) in words.chunks_exact_mut(2).zip(statuses.chunks(16)) {
        bytes.copy_from_slice(&word_of(statuses).to_le_bytes());
    }
    Ok(size)
}

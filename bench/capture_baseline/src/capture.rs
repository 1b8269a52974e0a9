//! Reads and writes captures in classic pcap, in plain Rust, with the same checks as the proved crate `capture`.

const HEADER: usize = 24;
const RECORD_HEADER: usize = 16;
const FRAME_LENGTHS: std::ops::RangeInclusive<usize> = 14..=15_000;
const MOST_RECORDS: usize = 1_000_000;

#[derive(Debug)]
#[allow(dead_code)] // the numbers are printed with a fault
pub enum Fault {
    NotCapture,
    LinkType,
    CutShort(u64),
    CapturedShort(u64),
    FrameLength(u64),
    TooMany(u64),
}

pub struct Record<'a> {
    pub seconds: u32,
    pub fraction: u32,
    pub wire_len: u32,
    pub frame: &'a [u8],
}

pub struct Capture<'a> {
    pub nanos: bool,
    pub records: Vec<Record<'a>>,
}

fn half(bytes: &[u8], place: usize, big: bool) -> u16 {
    let field = bytes[place..place + 2].try_into().unwrap();
    if big {
        u16::from_be_bytes(field)
    } else {
        u16::from_le_bytes(field)
    }
}

fn word(bytes: &[u8], place: usize, big: bool) -> u32 {
    let field = bytes[place..place + 4].try_into().unwrap();
    if big {
        u32::from_be_bytes(field)
    } else {
        u32::from_le_bytes(field)
    }
}

pub fn read(bytes: &[u8]) -> Result<Capture<'_>, Fault> {
    if bytes.len() < HEADER {
        return Err(Fault::NotCapture);
    }
    let (big, nanos) = match word(bytes, 0, true) {
        0xa1b2_c3d4 => (true, false),
        0xa1b2_3c4d => (true, true),
        0xd4c3_b2a1 => (false, false),
        0x4d3c_b2a1 => (false, true),
        _ => return Err(Fault::NotCapture),
    };
    if (half(bytes, 4, big), half(bytes, 6, big)) != (2, 4) {
        return Err(Fault::NotCapture);
    }
    if word(bytes, 20, big) != 1 {
        return Err(Fault::LinkType);
    }
    let records = if big {
        records::<true>(&bytes[HEADER..])?
    } else {
        records::<false>(&bytes[HEADER..])?
    };
    Ok(Capture { nanos, records })
}

fn records<const BIG: bool>(bytes: &[u8]) -> Result<Vec<Record<'_>>, Fault> {
    let mut records = Vec::new();
    let mut rest = bytes;
    while !rest.is_empty() {
        let number = records.len() as u64 + 1;
        let Some((head, after)) = rest.split_at_checked(RECORD_HEADER) else {
            return Err(Fault::CutShort(number));
        };
        let captured = word(head, 8, BIG) as usize;
        let wire_len = word(head, 12, BIG);
        let Some((frame, after)) = after.split_at_checked(captured) else {
            return Err(Fault::CutShort(number));
        };
        if captured < wire_len as usize {
            return Err(Fault::CapturedShort(number));
        }
        if !FRAME_LENGTHS.contains(&captured) {
            return Err(Fault::FrameLength(number));
        }
        if records.len() == MOST_RECORDS {
            return Err(Fault::TooMany(number));
        }
        records.push(Record {
            seconds: word(head, 0, BIG),
            fraction: word(head, 4, BIG),
            wire_len,
            frame,
        });
        rest = after;
    }
    Ok(records)
}

pub fn write_header(bytes: &mut Vec<u8>) {
    bytes.extend_from_slice(&0xa1b2_c3d4u32.to_le_bytes());
    bytes.extend_from_slice(&2u16.to_le_bytes());
    bytes.extend_from_slice(&4u16.to_le_bytes());
    bytes.extend_from_slice(&[0; 8]);
    bytes.extend_from_slice(&65_535u32.to_le_bytes());
    bytes.extend_from_slice(&1u32.to_le_bytes());
}

pub fn write_record(bytes: &mut Vec<u8>, record: &Record<'_>) {
    bytes.extend_from_slice(&record.seconds.to_le_bytes());
    bytes.extend_from_slice(&record.fraction.to_le_bytes());
    bytes.extend_from_slice(&(record.frame.len() as u32).to_le_bytes());
    bytes.extend_from_slice(&record.wire_len.to_le_bytes());
    bytes.extend_from_slice(record.frame);
}

pub fn write(records: &[Record<'_>]) -> Vec<u8> {
    let room: usize = records
        .iter()
        .map(|record| RECORD_HEADER + record.frame.len())
        .sum();
    let mut bytes = Vec::with_capacity(HEADER + room);
    write_header(&mut bytes);
    for record in records {
        write_record(&mut bytes, record);
    }
    bytes
}

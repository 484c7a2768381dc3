//! Counts the packets of a capture that pass a filter, by two threads: filter FILTER CAPTURE
//!
//! FILTER is what `tcpdump -ddd` wrote. CAPTURE is a pcap file of little-endian order.
mod bpfrt;

use bpfrt::Program;
use std::error::Error;
use std::{env, fs, process, thread};

fn number(bytes: &[u8]) -> u32 {
    u32::from_le_bytes(bytes.try_into().expect("four bytes"))
}

/// The packets of a capture, each with its length on the wire.
fn packets(capture: &[u8]) -> Result<Vec<(&[u8], u32)>, String> {
    let Some((head, mut rest)) = capture.split_at_checked(24) else {
        return Err("the capture is too short".into());
    };
    if ![0xa1b2c3d4, 0xa1b23c4d].contains(&number(&head[..4])) {
        return Err("the capture is no pcap file of little-endian order".into());
    }
    let mut found = Vec::new();
    while !rest.is_empty() {
        let cut = || "the capture ends inside a packet".to_string();
        let (head, more) = rest.split_at_checked(16).ok_or_else(cut)?;
        let (packet, more) = more.split_at_checked(number(&head[8..12]) as usize).ok_or_else(cut)?;
        found.push((packet, number(&head[12..])));
        rest = more;
    }
    Ok(found)
}

fn count(filter: &mut Program, packets: &[(&[u8], u32)]) -> Result<usize, bpfrt::Error> {
    let mut passed = 0;
    for (packet, len) in packets {
        passed += usize::from(filter.run_packet(packet, *len)? != 0);
    }
    Ok(passed)
}

fn judge(filter: &str, capture: &str) -> Result<(), Box<dyn Error>> {
    let mut filter = Program::from_tcpdump(&fs::read(filter)?)?;
    let mut other = filter.share()?;
    let capture = fs::read(capture)?;
    let packets = packets(&capture)?;
    let (one, two) = packets.split_at(packets.len() / 2);
    let passed = thread::scope(|threads| {
        let first = threads.spawn(move || count(&mut other, one));
        let second = count(&mut filter, two)?;
        Ok::<_, bpfrt::Error>(first.join().expect("the thread ends")? + second)
    })?;
    println!("{passed} of {} packets passed", packets.len());
    Ok(())
}

fn main() {
    let given: Vec<String> = env::args().collect();
    let [_, filter, capture] = &given[..] else {
        eprintln!("usage: filter FILTER CAPTURE");
        process::exit(2);
    };
    if let Err(error) = judge(filter, capture) {
        eprintln!("filter: {error}");
        process::exit(1);
    }
}

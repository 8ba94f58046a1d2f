//! One symbol of 16-QAM, received at gain 5 as (3, -20), of which 3 bits are payload; then the same frame as a line of hexadecimal.

use softdemap::{answer_of, read_frame, Header, Modulation, Refused};

fn main() -> Result<(), Refused> {
    let header = Header { modulation: Modulation::Qam { bits_i: 2, bits_q: 2 }, payload: 3, weight: 1, shift: 2, limit: 32767 };
    let reading = read_frame(&header, &[5], &[3], &[-20])?;
    println!("bits {:?}, soft values {:?}", reading.hard, reading.soft); // plus leans to 0, minus to 1
    println!("probes {:?}, costs {:?}", reading.probe_index, reading.probe_cost);

    println!("{}", answer_of(b"01020200030001027FFF000500000003FFFFFFEC")?);
    Ok(())
}

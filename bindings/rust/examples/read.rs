//! Reads the report of a frost guard and prints its members by their types.
//!
//!     cargo run --example read

const TABLE: &[u8] = include_bytes!("../samples/report.table");
const MESSAGE: &[u8] = include_bytes!("../samples/report.message");

fn main() -> Result<(), icehub::Refusal> {
    let mut rows = [0; 3 * icehub::ROW_SIZE];
    let report = icehub::read(TABLE, 3, MESSAGE, &mut rows)?;
    println!("reading: {:?}", report.member(0).and_then(|reading| reading.as_i16()));
    println!("tick:    {:?} ms", report.member(1).and_then(|tick| tick.as_i64()));
    println!("delay:   {:?} s", report.member(2).and_then(|delay| delay.as_i32()));
    for member in report.members() {
        println!(
            "member {}: {} bytes at {}: {:?}",
            member.number(),
            member.row.length,
            member.row.place,
            member.value()
        );
    }
    Ok(())
}

//! Plans the channel of docs/FORMAT.md, Desk text, writes its field and prints the plan as the desk does
//! (examples/tie.plan), then the lines of its page that show bins. Then it reads the field back and compares.
//!
//!     cargo run --offline --manifest-path examples/rust/Cargo.toml --target-dir target/bindings
use fathrugg::{plan_aht_channel, print_pages, read_aht_channel, write_aht_channel, Position};
use std::error::Error;

/// hebap 8: six mantissas of 3 bits; hebap 0: nothing is coded.
const ROW: [u8; 2] = [8, 0];
const X: [f32; 12] = [0.25, 0.0, -0.25, 0.0, 0.0, 0.0, 0.0, 0.0, 0.0, 0.0, 0.0, 0.0];

fn main() -> Result<(), Box<dyn Error>> {
    let plan = plan_aht_channel(&ROW, 0, 2, &X)?;

    let mut field = vec![0; plan.total_bits().div_ceil(8) as usize];
    let mut end = Position::default();
    write_aht_channel(&plan, &ROW, 0, 2, &X, &mut field, &mut end)?;

    let gains: String = plan.gains().iter().map(|g| format!(" {g}")).collect();
    let bytes: String = field.iter().map(|b| format!(" {b:02x}")).collect();
    println!("(plan\n(mode {})\n(gains{gains})", plan.gaqmod());
    println!("(payload {})\n(total {})\n(field{bytes})\n)", plan.payload_bits(), plan.total_bits());

    let mut pages = [0; 6500];
    let length = print_pages(&plan, &ROW, 0, 2, &X, &mut pages)?;
    for line in std::str::from_utf8(&pages[..length])?.lines().take_while(|l| !l.trim().is_empty()) {
        println!("{line}");
    }

    let (mut values, mut exact, mut indices) = ([0.0; 12], [0; 12], [0; 2]);
    let mut position = Position::default();
    let channel = read_aht_channel(&field, &mut position, &ROW, 0, 2, &mut values, &mut exact, &mut indices)?;
    // each component of this channel is a level of the quantiser, so it comes back as it went in
    if position != end || channel.gaqmod() != plan.gaqmod() || channel.gains() != plan.gains() || values != X {
        return Err("something else is read than was planned".into());
    }
    Ok(())
}

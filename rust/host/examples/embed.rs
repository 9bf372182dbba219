use marshbodkin::{Program, Record, Refusal, Setting, RAM_LENGTH};

fn main() -> Result<(), Refusal> {
    let program = Program::new(&[0x01, 0x20, 0x00, 0xDF]); // 2001 DF00
    let mut ram = vec![0; RAM_LENGTH];
    let mut record = Record::default();
    let run = Setting::new(program).run(&mut ram, &mut record, 100_000)?;
    let (count, stop, steps) = (program.count()?, run.stop, run.steps);
    println!("count {count}: {stop} after {steps} steps");
    Ok(())
}

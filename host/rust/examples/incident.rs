//! The incident, replayed, and two tasks on one record.
use aml_fields::{read_field, store, write_field, FieldFlags, FieldOp, FieldUnit, RegionSpace, Step, Table};

const WORD: u8 = 2;
const LOCK_RULE: u8 = 16;

// The fill count's twelve bits and the trim's four share a word.
const fn field(flags: u8, offset: u64, length: u64) -> FieldUnit {
    FieldUnit { space: RegionSpace::SystemMemory, flags: FieldFlags(flags), offset, length }
}

fn show(title: &str, record: &[u8; 2]) {
    println!("{title:<32}{:02X} {:02X}", record[0], record[1]);
}

// The record after a write of 0x123 as aml 0.16.4 makes it (write_field, src/value.rs): what is kept is what a read of the field gives, the bits
// inside it alone, and the whole unit is stored.
fn write_as_aml(record: &mut [u8; 2]) {
    let inside = (1 << 12) - 1;
    let kept = read_field(record, field(WORD, 0, 12)).unwrap().value;
    store(record, 0, 2, (kept & !inside) | 0x123);
}

fn replay() {
    let mut record = [0xff, 0xff];
    show("record before", &record);
    write_as_aml(&mut record);
    show("0x123 in 12 bits, as aml", &record);
    record = [0xff, 0xff];
    let count = write_field(&mut record, field(WORD, 0, 12), 0x123).unwrap();
    show("0x123 in 12 bits, proved", &record);
    println!("{:<32}{count}", "loads and stores");
}

fn start(table: &mut Table, record: &[u8; 2], task: usize, op: FieldOp) {
    println!("start task {task}: count {}", table.start(record, task, op).unwrap());
}

fn step(table: &mut Table, record: &mut [u8; 2], task: usize) {
    print!("step task {task}: ");
    match table.step(record, task) {
        Ok(Step::More) => println!("more"),
        Ok(_) => println!("done"),
        Err(refusal) => println!("refused {}", refusal.number()),
    }
}

// Both tasks touch the one word, so both carry the lock rule.
fn together() {
    let mut record = [0xff, 0xff];
    let mut table = Table::new(2).unwrap();
    start(&mut table, &record, 0, FieldOp::Write(field(WORD | LOCK_RULE, 0, 12), 0x123));
    start(&mut table, &record, 1, FieldOp::Write(field(WORD | LOCK_RULE, 12, 4), 0xa));
    for task in [0, 1, 0, 1, 1] {
        step(&mut table, &mut record, task);
    }
    show("record after both", &record);
    table.holder = 1; // nobody has the lock
    print!("a damaged table: ");
    step(&mut table, &mut record, 0);
}

fn main() {
    replay();
    together();
}

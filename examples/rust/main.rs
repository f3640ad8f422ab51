//! Reads the text in a file and explores it through the C entries, and prints the answer, the last execution and its path: main TEXT

use std::process::ExitCode;

const BRANCHES: usize = 64;
const OPERATIONS: usize = 64;
const EXECUTIONS: u64 = 1000;
/// The bound that is none.
const UNBOUNDED: u64 = 256;
/// A path record and a trace entry have this many bytes.
const RECORD: usize = 16;
/// The buffers into which a text is read have at least this many bytes.
const TABLE_BYTES: usize = 7752;
const CONDITION_BYTES: usize = 1024;
const CHECK_FAILED: u64 = 15;

// A slice goes as its address, then its length in elements.
extern "C" {
    fn chjirvollu_read(
        text: *const u8,
        text_length: usize,
        table: *mut u8,
        table_length: usize,
        condition: *mut u8,
        condition_length: usize,
        numbers: *mut u64,
        numbers_length: usize,
    ) -> u64;

    fn chjirvollu_explore_condition(
        table: *const u8,
        table_length: usize,
        condition: *const u8,
        condition_length: usize,
        branches: u64,
        operations: u64,
        executions: u64,
        bound: u64,
        exploring: u64,
        path: *mut u8,
        path_length: usize,
        trace: *mut u8,
        trace_length: usize,
        report: *mut u64,
        report_length: usize,
    ) -> u64;
}

/// Reads a text: its table and its condition, or the line and column at which it is refused.
fn read(text: &[u8]) -> Result<(Vec<u8>, Vec<u8>), (u64, u64)> {
    let mut table = vec![0; TABLE_BYTES];
    let mut condition = vec![0; CONDITION_BYTES];
    let mut numbers = [0; 5];
    // SAFETY: each address goes with the length of its own slice, and no two overlap.
    let how = unsafe {
        chjirvollu_read(
            text.as_ptr(),
            text.len(),
            table.as_mut_ptr(),
            table.len(),
            condition.as_mut_ptr(),
            condition.len(),
            numbers.as_mut_ptr(),
            numbers.len(),
        )
    };
    let [_, table_length, condition_length, line, column] = numbers;
    if how != 0 {
        return Err((line, column));
    }
    table.truncate(table_length as usize);
    condition.truncate(condition_length as usize);
    Ok((table, condition))
}

/// Explores; the report's numbers, and path and trace of the last execution.
fn explore(table: &[u8], condition: &[u8]) -> ([u64; 29], Vec<u8>, Vec<u8>) {
    let mut path = vec![0; RECORD * BRANCHES];
    let mut trace = vec![0; RECORD * OPERATIONS];
    let mut report = [0; 29];
    // SAFETY: as above.
    unsafe {
        chjirvollu_explore_condition(
            table.as_ptr(),
            table.len(),
            condition.as_ptr(),
            condition.len(),
            BRANCHES as u64,
            OPERATIONS as u64,
            EXECUTIONS,
            UNBOUNDED,
            1,
            path.as_mut_ptr(),
            path.len(),
            trace.as_mut_ptr(),
            trace.len(),
            report.as_mut_ptr(),
            report.len(),
        );
    }
    (report, path, trace)
}

/// One trace entry: thread, row, opcode, slot, offers, three zeros, and a value of eight bytes.
fn print_entry(entry: &[u8]) {
    let slot = match entry[3] {
        255 => "no slot".to_string(),
        slot => format!("slot {slot}"),
    };
    let value = u64::from_le_bytes(entry[8..].try_into().unwrap());
    println!("thread {}, row {}: opcode {}, {slot}, value {value}", entry[0], entry[1], entry[2]);
}

/// One path record, as its bytes.
fn print_record(record: &[u8]) {
    let bytes: Vec<String> = record.iter().map(|byte| format!("{byte:02x}")).collect();
    println!("path: {}", bytes.join(" "));
}

fn main() -> ExitCode {
    let Some(name) = std::env::args().nth(1) else {
        eprintln!("usage: main TEXT");
        return ExitCode::from(3);
    };
    let text = match std::fs::read(&name) {
        Ok(text) => text,
        Err(why) => {
            eprintln!("{name}: {why}");
            return ExitCode::from(3);
        }
    };
    let (table, condition) = match read(&text) {
        Ok(program) => program,
        Err((line, column)) => {
            eprintln!("{name}: refused at line {line}, column {column}");
            return ExitCode::from(3);
        }
    };
    let (report, path, trace) = explore(&table, &condition);
    let [answer, executions, _, _, _, thread, row, ..] = report;
    println!("answer {answer} after {executions} executions");
    // Past the last entry all is zero; an entry of opcode 0, a load, has at least one offer.
    trace.chunks(RECORD).take_while(|entry| entry[2] != 0 || entry[4] != 0).for_each(print_entry);
    path.chunks(RECORD).take_while(|record| record[0] != 0).for_each(print_record);
    if answer == CHECK_FAILED {
        println!("the check at thread {thread}, row {row} failed");
    }
    ExitCode::from((answer != 0) as u8)
}

//! The calls on configurations as the library exports them, those of both cabinets: a slice is a pointer and a length. They take what
//! was lent as raw memory, so that a write where none belongs is seen and not assumed away.

use crate::memory::Lent;
use reference::Numbers;

type Step = unsafe extern "C" fn(u16, u16, u16, u16, u16, *const u8, usize, *mut u8, usize) -> u64;
type StepJournal = unsafe extern "C" fn(
    u16,
    u16,
    u16,
    u16,
    u16,
    *const u8,
    usize,
    *mut u8,
    usize,
    *mut u8,
    usize,
) -> u64;

extern "C" {
    fn sock_step(
        engine: u16,
        position: u16,
        second_engine: u16,
        second_position: u16,
        branch: u16,
        config: *const u8,
        config_length: usize,
        output: *mut u8,
        output_length: usize,
    ) -> u64;
    fn sock_step_small(
        engine: u16,
        position: u16,
        second_engine: u16,
        second_position: u16,
        branch: u16,
        config: *const u8,
        config_length: usize,
        output: *mut u8,
        output_length: usize,
    ) -> u64;
    fn sock_step_journal(
        engine: u16,
        position: u16,
        second_engine: u16,
        second_position: u16,
        branch: u16,
        config: *const u8,
        config_length: usize,
        output: *mut u8,
        output_length: usize,
        journal: *mut u8,
        journal_length: usize,
    ) -> u64;
    fn sock_step_journal_small(
        engine: u16,
        position: u16,
        second_engine: u16,
        second_position: u16,
        branch: u16,
        config: *const u8,
        config_length: usize,
        output: *mut u8,
        output_length: usize,
        journal: *mut u8,
        journal_length: usize,
    ) -> u64;
    fn sock_take_back(
        config: *const u8,
        config_length: usize,
        journal: *const u8,
        journal_length: usize,
        output: *mut u8,
        output_length: usize,
    ) -> u64;
    fn sock_join(
        config: *const u8,
        config_length: usize,
        newcomer: *const u8,
        newcomer_length: usize,
        output: *mut u8,
        output_length: usize,
    ) -> u64;
    fn sock_leave(
        config: *const u8,
        config_length: usize,
        output: *mut u8,
        output_length: usize,
    ) -> u64;
    fn sock_translate(
        config: *const u8,
        config_length: usize,
        output: *mut u8,
        output_length: usize,
    ) -> u64;
    fn sock_begin_index(
        config: *const u8,
        config_length: usize,
        index: *mut u8,
        index_length: usize,
    ) -> u8;
    fn sock_step_indexed(
        engine: u16,
        position: u16,
        second_engine: u16,
        second_position: u16,
        branch: u16,
        config: *const u8,
        config_length: usize,
        output: *mut u8,
        output_length: usize,
        journal: *mut u8,
        journal_length: usize,
        index: *mut u8,
        index_length: usize,
    ) -> u64;
    fn sock_take_back_indexed(
        config: *const u8,
        config_length: usize,
        journal: *const u8,
        journal_length: usize,
        output: *mut u8,
        output_length: usize,
        index: *mut u8,
        index_length: usize,
    ) -> u64;
    fn sock_open_count(index: *const u8, index_length: usize) -> u64;
    fn sock_oldest(index: *const u8, index_length: usize) -> u64;
    fn sock_check_start(config: *const u8, length: usize) -> u8;
    fn sock_check_start_small(config: *const u8, length: usize) -> u8;
    fn sock_check_readable(config: *const u8, length: usize) -> u8;
    fn sock_check_readable_small(config: *const u8, length: usize) -> u8;
    fn sock_ends(config: *const u8, length: usize, serial: u16) -> u64;
    fn sock_process(config: *const u8, length: usize, engine: u16) -> u64;
    fn sock_pending(engine: u16, position: u16, config: *const u8, length: usize) -> u64;
    fn sock_keeper_words(
        config: *const u8,
        length: usize,
        engines: u8,
        serial: u16,
        k: u16,
        scratch: *mut u16,
        scratch_length: usize,
    ) -> u64;
}

fn make_step(step: Step, numbers: Numbers, config: Lent, output: Lent) -> u64 {
    let Numbers { engine, position, second_engine, second_position, branch } = numbers;
    // Both are lent whole for the call, and no reference to either is held meanwhile.
    unsafe {
        step(
            engine,
            position,
            second_engine,
            second_position,
            branch,
            config.start,
            config.length,
            output.start,
            output.length,
        )
    }
}

fn make_step_journal(
    step: StepJournal,
    numbers: Numbers,
    config: Lent,
    output: Lent,
    journal: Lent,
) -> u64 {
    let Numbers { engine, position, second_engine, second_position, branch } = numbers;
    // All are lent whole for the call, and no reference to any is held meanwhile.
    unsafe {
        step(
            engine,
            position,
            second_engine,
            second_position,
            branch,
            config.start,
            config.length,
            output.start,
            output.length,
            journal.start,
            journal.length,
        )
    }
}

pub fn step(numbers: Numbers, config: Lent, output: Lent) -> u64 {
    make_step(sock_step, numbers, config, output)
}

pub fn step_small(numbers: Numbers, config: Lent, output: Lent) -> u64 {
    make_step(sock_step_small, numbers, config, output)
}

pub fn step_journal(numbers: Numbers, config: Lent, output: Lent, journal: Lent) -> u64 {
    make_step_journal(sock_step_journal, numbers, config, output, journal)
}

pub fn step_journal_small(numbers: Numbers, config: Lent, output: Lent, journal: Lent) -> u64 {
    make_step_journal(sock_step_journal_small, numbers, config, output, journal)
}

pub fn take_back(config: Lent, journal: Lent, output: Lent) -> u64 {
    unsafe {
        sock_take_back(
            config.start,
            config.length,
            journal.start,
            journal.length,
            output.start,
            output.length,
        )
    }
}

pub fn join(config: Lent, newcomer: Lent, output: Lent) -> u64 {
    unsafe {
        sock_join(
            config.start,
            config.length,
            newcomer.start,
            newcomer.length,
            output.start,
            output.length,
        )
    }
}

pub fn leave(config: Lent, output: Lent) -> u64 {
    unsafe { sock_leave(config.start, config.length, output.start, output.length) }
}

pub fn translate(config: Lent, output: Lent) -> u64 {
    unsafe { sock_translate(config.start, config.length, output.start, output.length) }
}

pub fn begin_index(config: Lent, index: Lent) -> u8 {
    unsafe { sock_begin_index(config.start, config.length, index.start, index.length) }
}

pub fn step_indexed(
    numbers: Numbers,
    config: Lent,
    output: Lent,
    journal: Lent,
    index: Lent,
) -> u64 {
    let Numbers { engine, position, second_engine, second_position, branch } = numbers;
    // All are lent whole for the call, and no reference to any is held meanwhile.
    unsafe {
        sock_step_indexed(
            engine,
            position,
            second_engine,
            second_position,
            branch,
            config.start,
            config.length,
            output.start,
            output.length,
            journal.start,
            journal.length,
            index.start,
            index.length,
        )
    }
}

pub fn take_back_indexed(config: Lent, journal: Lent, output: Lent, index: Lent) -> u64 {
    unsafe {
        sock_take_back_indexed(
            config.start,
            config.length,
            journal.start,
            journal.length,
            output.start,
            output.length,
            index.start,
            index.length,
        )
    }
}

pub fn open_count(index: Lent) -> u64 {
    unsafe { sock_open_count(index.start, index.length) }
}

pub fn oldest(index: Lent) -> u64 {
    unsafe { sock_oldest(index.start, index.length) }
}

pub fn check_start(config: Lent) -> u8 {
    unsafe { sock_check_start(config.start, config.length) }
}

pub fn check_start_small(config: Lent) -> u8 {
    unsafe { sock_check_start_small(config.start, config.length) }
}

pub fn check_readable(config: Lent) -> u8 {
    unsafe { sock_check_readable(config.start, config.length) }
}

pub fn check_readable_small(config: Lent) -> u8 {
    unsafe { sock_check_readable_small(config.start, config.length) }
}

pub fn ends(config: Lent, serial: u16) -> u64 {
    unsafe { sock_ends(config.start, config.length, serial) }
}

pub fn process(config: Lent, engine: u16) -> u64 {
    unsafe { sock_process(config.start, config.length, engine) }
}

pub fn pending(config: Lent, engine: u16, position: u16) -> u64 {
    unsafe { sock_pending(engine, position, config.start, config.length) }
}

/// The scratch is lent as words.
pub fn keeper(config: Lent, engines: u8, serial: u16, k: u16, scratch: Lent) -> u64 {
    let (start, words) = (scratch.start.cast(), scratch.length / 2);
    unsafe { sock_keeper_words(config.start, config.length, engines, serial, k, start, words) }
}

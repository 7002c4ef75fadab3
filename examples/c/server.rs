// A server in Rust, whose two threads log while a third one writes the lines to the files of a folder: server CONFIG FOLDER
//
// A program in Rust calls the exports of libalog_c.a, of which alog.h says what each does; the functions of the headers are C's, and inline.
// Where a call gets a handle by `&mut`, the borrow checker sees to it that no two calls use it at once. The folder is not held by a lock here.
use std::fs::{self, OpenOptions};
use std::io::{self, Write};
use std::os::raw::c_void;
use std::path::Path;
use std::sync::atomic::{AtomicBool, Ordering};
use std::time::{Duration, SystemTime, UNIX_EPOCH};
use std::{env, process, ptr, thread};

const REQUESTS: usize = 1000;
const DONE: u32 = 0;
const WOULD_BLOCK: u32 = 2;
const IDLE: u32 = 7;
const ENDED: u32 = 10;
const INFO: u32 = 2;
const AREA: usize = 131_072;
const AREAS: usize = 16;
const BATCH: usize = 14;

// A pool, a producer, a worker or the files, which hold nothing as long as they are all zero.
#[repr(C)]
struct Handle {
    kind: u64,
    at: *mut c_void,
}

// (a handle may go from thread to thread)
unsafe impl Send for Handle {}

impl Handle {
    const EMPTY: Handle = Handle { kind: 0, at: ptr::null_mut() };
}

#[repr(C)]
#[derive(Default)]
struct Report {
    asked: u64,
    posted: u64,
    discarded: u64,
    overrun: u64,
    handled: u64,
    faults: u64,
}

extern "C" {
    fn alog_c_found(files: &mut Handle, name: *const u8, name_length: usize, size: u64) -> u32;
    fn alog_c_open(pool: &mut Handle, files: &mut Handle, document: *const u8, length: usize, producers: usize, areas: usize, told: *mut u8, room: usize, said: &mut usize) -> u32;
    fn alog_c_take(files: &mut Handle, to: *mut u8, room: usize, length: &mut usize) -> u32;
    fn alog_c_close(files: &mut Handle) -> u32;
    fn alog_c_producer(pool: &mut Handle, producer: &mut Handle) -> u32;
    fn alog_c_worker(pool: &mut Handle, worker: &mut Handle) -> u32;
    fn alog_c_find(at: &mut Handle, name: *const u8, length: usize, logger: &mut u32) -> u32;
    fn alog_c_log(producer: &mut Handle, logger: u32, level: u32, time: i64, text: *const u8, length: usize, ticket: &mut u64) -> u32;
    fn alog_c_work(worker: &mut Handle, most: usize, items: &mut usize) -> u32;
    fn alog_c_give(part: &mut Handle) -> u32;
    fn alog_c_shutdown(pool: &mut Handle, report: &mut Report) -> u32;
}

fn expect(answer: u32) {
    assert!(answer == DONE, "alog answers {answer}");
}

// Logs a text, and tries again where there is no room.
fn log(producer: &mut Handle, logger: u32, text: &str) {
    let time = SystemTime::now().duration_since(UNIX_EPOCH).map_or(0, |it| it.as_nanos() as i64);
    let mut ticket = 0;
    loop {
        match unsafe { alog_c_log(producer, logger, INFO, time, text.as_ptr(), text.len(), &mut ticket) } {
            WOULD_BLOCK => thread::yield_now(),
            answer => return expect(answer),
        }
    }
}

fn serve(mut producer: Handle, thread: usize) {
    let mut net = 0;
    expect(unsafe { alog_c_find(&mut producer, "net".as_ptr(), 3, &mut net) });
    for request in 0..REQUESTS {
        log(&mut producer, net, &format!("thread {thread} served request {request}"));
    }
    while unsafe { alog_c_give(&mut producer) } != DONE {}
}

fn number_at(bytes: &[u8]) -> usize {
    u32::from_le_bytes([bytes[0], bytes[1], bytes[2], bytes[3]]) as usize
}

// Does what these records say, and answers the first error. A file that is not there is neither renamed nor removed.
fn carry_out(mut records: &[u8], folder: &Path) -> io::Result<()> {
    let mut all = Ok(());
    while !records.is_empty() {
        let (header, rest) = records.split_at(16);
        let (name, rest) = rest.split_at(number_at(&header[4..]));
        let (body, rest) = rest.split_at(number_at(&header[8..]));
        let path = folder.join(String::from_utf8_lossy(name).as_ref());
        let done = match number_at(header) {
            1 => OpenOptions::new().append(true).create(true).open(path).and_then(|mut it| it.write_all(body)),
            2 => fs::rename(path, folder.join(String::from_utf8_lossy(body).as_ref())),
            3 => fs::remove_file(path),
            _ => Ok(()),
        };
        all = all.and(done.or_else(|error| if error.kind() == io::ErrorKind::NotFound { Ok(()) } else { Err(error) }));
        records = rest;
    }
    all
}

fn drain(files: &mut Handle, area: &mut [u8], folder: &Path) -> io::Result<()> {
    let (mut all, mut length) = (Ok(()), 0);
    while unsafe { alog_c_take(files, area.as_mut_ptr(), area.len(), &mut length) } == DONE {
        all = all.and(carry_out(&area[..length], folder));
    }
    all
}

// Writes lines, and rests where there are none, until it is to end and there are none. What fails does not end it: who logs waits for it.
fn write(mut worker: Handle, files: &mut Handle, folder: &Path, is_ending: &AtomicBool) -> io::Result<()> {
    let (mut all, mut area, mut items) = (Ok(()), vec![0; AREA], 0);
    loop {
        let is_last = is_ending.load(Ordering::SeqCst);
        let answer = unsafe { alog_c_work(&mut worker, BATCH, &mut items) };
        all = all.and(drain(files, &mut area, folder));
        if answer == IDLE && is_last {
            break;
        }
        if answer != DONE {
            thread::sleep(Duration::from_millis(1));
        }
    }
    while unsafe { alog_c_give(&mut worker) } != DONE {}
    all
}

fn run(document: &[u8], folder: &Path) -> io::Result<Report> {
    let (mut pool, mut files, mut worker) = (Handle::EMPTY, Handle::EMPTY, Handle::EMPTY);
    let (mut told, mut said, mut report) = ([0; 400], 0, Report::default());
    for it in fs::read_dir(folder)? {
        let it = it?;
        if let (Some(name), true) = (it.file_name().to_str(), it.file_type()?.is_file()) {
            expect(unsafe { alog_c_found(&mut files, name.as_ptr(), name.len(), it.metadata()?.len()) });
        }
    }
    let answer = unsafe { alog_c_open(&mut pool, &mut files, document.as_ptr(), document.len(), 2, AREAS, told.as_mut_ptr(), told.len(), &mut said) };
    if answer != DONE {
        return Err(io::Error::other(format!("alog answers {answer}: {}", String::from_utf8_lossy(&told[..said]))));
    }
    expect(unsafe { alog_c_worker(&mut pool, &mut worker) });
    let mut producers = [Handle::EMPTY, Handle::EMPTY];
    for it in &mut producers {
        expect(unsafe { alog_c_producer(&mut pool, it) });
    }
    let is_ending = AtomicBool::new(false);
    thread::scope(|all| {
        let writer = all.spawn(|| write(worker, &mut files, folder, &is_ending));
        let servers = producers.into_iter().enumerate().map(|(number, it)| all.spawn(move || serve(it, number))).collect::<Vec<_>>();
        let ends = servers.into_iter().map(|it| it.join()).collect::<Vec<_>>();
        is_ending.store(true, Ordering::SeqCst);
        assert!(ends.iter().all(Result::is_ok));
        writer.join().expect("the writer ends")
    })?;
    expect(unsafe { alog_c_shutdown(&mut pool, &mut report) });
    let (mut area, mut length) = (vec![0; AREA], 0);
    drain(&mut files, &mut area, folder)?;
    if unsafe { alog_c_take(&mut files, area.as_mut_ptr(), area.len(), &mut length) } != ENDED {
        return Err(io::Error::other("not all was taken that the pool told its files"));
    }
    expect(unsafe { alog_c_close(&mut files) });
    Ok(report)
}

fn main() {
    let words: Vec<String> = env::args().collect();
    let [_, config, folder] = words.as_slice() else {
        eprintln!("server: wanted are a configuration and a folder");
        process::exit(1);
    };
    match fs::read(config).and_then(|document| run(&document, Path::new(folder))) {
        Ok(it) => println!("asked {}\nposted {}\ndiscarded {}\noverrun {}\nhandled {}\nfaults {}", it.asked, it.posted, it.discarded, it.overrun, it.handled, it.faults),
        Err(error) => {
            eprintln!("server: {error}");
            process::exit(1);
        }
    }
}

//! Files audited in processes of their own, so that one whose disk fails does not end the audits of the others.
//!
//! Each process takes the next file that is not taken (`shared`) and sends what it finds through a pipe (`message`).
//! This process tells it in the order of the names. A process that is ahead waits when much of what it sent is not
//! told yet. One that ends before its time has lost the file it was at, and another is started in its place.

use super::finding::{self, Look};
use super::message::{Frame, Message, CHUNK};
use super::options::Options;
use super::process::{self, End, Process, SIGBUS};
use super::progress::State;
use super::reach::Reach;
use super::report::Report;
use super::shared::Shared;
use super::{fault, words, Audit};
use crate::ffi::Answer;
use std::collections::VecDeque;
use std::ffi::OsString;
use std::fs::{self, File};
use std::io::{self, Read, Write};
use std::mem;
use std::time::Duration;

/// What is to be done.
pub struct Task<'a> {
    pub files: &'a [OsString],
    pub options: &'a Options,
    pub audit: Audit<'a>,
}

/// How much of one process is kept before its turn.
const MOST_KEPT: usize = 1 << 20;

/// Audits all files in this many processes, and has them reported.
pub fn audit(task: &Task, jobs: usize, report: &mut Report) -> io::Result<()> {
    process::prepare();
    let jobs = jobs.clamp(1, task.files.len().max(1));
    let mut pool = match Shared::new(task.files.len(), jobs) {
        Ok(shared) => Pool::new(task, shared, jobs, report.screen.has_terminal()),
        Err(error) => {
            return (0..task.files.len()).try_for_each(|nth| report.hear(nth, Message::Lost(&unable(&error))))
        }
    };
    let mut turn = 0;
    while turn < task.files.len() {
        if let Some(frame) = pool.next(turn) {
            // A frame that is none was never taken in.
            report.hear(turn, frame.message().unwrap_or(Message::Lost(GARBLED)))?;
            turn += usize::from(frame.is_last());
        } else if pool.is_over() {
            report.hear(turn, Message::Lost(&pool.why))?;
            turn += 1;
        } else {
            // Whatever becomes of the next file, these lines are out.
            report.screen.flush()?;
            report.screen.renew(|time| pool.progress(turn, time));
            pool.wait(turn, report.screen.pause())?;
        }
    }
    Ok(())
}

/// What is said of a file for which there is no process.
fn unable(error: &io::Error) -> String {
    format!("not audited: no process could be started for it: {error}")
}

/// What is said of a file whose process sent something else than messages about it.
const GARBLED: &str = "not audited: the process that audited it sent what is no message";

/// What is said of a file whose process ended at it.
fn lost(end: End) -> String {
    let names = [(6, "SIGABRT"), (9, "SIGKILL"), (11, "SIGSEGV"), (15, "SIGTERM")];
    let how = match end {
        End::Signal(SIGBUS) => return fault::CUT.into(),
        End::Signal(signal) => match names.iter().find(|(number, _)| *number == signal) {
            Some((_, name)) => format!("was ended by signal {signal}, {name}"),
            None => format!("was ended by signal {signal}"),
        },
        End::Status(status) => format!("ended with status {status}"),
        End::Unknown => "ended".into(),
    };
    format!("not audited: the process that audited it {how}")
}

/// A process, and what it and those before it in its place sent.
struct Worker {
    process: Process,
    /// Of no other process.
    number: u64,
    gauge: usize,
    pipe: File,
    /// The start of a frame.
    begun: Vec<u8>,
    /// What was not told yet, and how many bytes it is.
    frames: VecDeque<Frame>,
    kept: usize,
    /// Where the files begin that it has not told, and where they began.
    from: usize,
    first: usize,
    is_alive: bool,
}

impl Worker {
    /// Which file it tells next, if that is known.
    fn file(&self) -> Option<usize> {
        self.frames.front().map(|frame| frame.nth).or_else(|| Frame::file(&self.begun))
    }

    /// Whether more is to be read of it at this turn.
    fn is_wanted(&self, turn: usize) -> bool {
        self.is_alive && (self.kept + self.begun.len() < MOST_KEPT || self.file().is_none_or(|file| file == turn))
    }

    fn push(&mut self, frame: Frame) {
        self.kept += frame.size();
        if frame.is_last() {
            self.from = frame.nth + 1;
        }
        self.frames.push_back(frame);
    }
}

struct Pool<'a> {
    task: &'a Task<'a>,
    shared: Shared,
    has_terminal: bool,
    workers: Vec<Worker>,
    /// How many processes were started.
    started: u64,
    /// Why files are left over, if they are.
    why: String,
    /// Lengths of the files, for the terminal alone, and of those that are done.
    lens: Vec<u64>,
    done: u64,
    buffer: Vec<u8>,
}

impl<'a> Pool<'a> {
    fn new(task: &'a Task<'a>, shared: Shared, jobs: usize, has_terminal: bool) -> Self {
        let len = |file| fs::metadata(file).map_or(0, |found| found.len());
        let lens = if has_terminal { task.files.iter().map(len).collect() } else { Vec::new() };
        let (workers, why, buffer) = (Vec::new(), lost(End::Unknown), vec![0; CHUNK]);
        let mut pool = Pool { task, shared, has_terminal, workers, started: 0, why, lens, done: 0, buffer };
        (0..jobs).for_each(|gauge| pool.start(gauge));
        pool
    }

    /// Starts a process, if it can.
    fn start(&mut self, gauge: usize) {
        match self.try_start(gauge) {
            Ok(worker) => self.workers.push(worker),
            Err(error) => self.why = unable(&error),
        }
    }

    /// Starts a process in the place of one that has ended, if it can. Its files come behind those of the other, so
    /// that what the other sent stays before what it sends.
    fn replace(&mut self, nth: usize) {
        match self.try_start(self.workers[nth].gauge) {
            Ok(worker) => {
                let ended = mem::replace(&mut self.workers[nth], worker);
                let worker = &mut self.workers[nth];
                (worker.frames, worker.kept) = (ended.frames, ended.kept);
            }
            Err(error) => self.why = unable(&error),
        }
    }

    fn try_start(&mut self, gauge: usize) -> io::Result<Worker> {
        let [pipe, end] = process::pipe()?;
        self.started += 1;
        let (number, first) = (self.started, self.shared.next());
        let (process, pipe) = Process::start(pipe, || {
            // These pipes too are read elsewhere.
            self.workers.clear();
            work(self.task, &self.shared, number, gauge, self.has_terminal, end)
        })?;
        let (begun, frames) = Default::default();
        Ok(Worker { process, number, gauge, pipe, begun, frames, kept: 0, from: first, first, is_alive: true })
    }

    /// Whether no process is left.
    fn is_over(&self) -> bool {
        !self.workers.iter().any(|worker| worker.is_alive)
    }

    /// The next message about this file, if it is here.
    fn next(&mut self, turn: usize) -> Option<Frame> {
        let worker = self.workers.iter_mut().find(|worker| worker.frames.front().is_some_and(|f| f.nth == turn))?;
        let frame = worker.frames.pop_front()?;
        worker.kept -= frame.size();
        Some(frame)
    }

    fn wait(&mut self, turn: usize, at_most: Option<Duration>) -> io::Result<()> {
        self.workers.retain(|worker| worker.is_alive || !worker.frames.is_empty());
        let wanted: Vec<usize> = (0..self.workers.len()).filter(|&nth| self.workers[nth].is_wanted(turn)).collect();
        let ready = process::wait_for(wanted.iter().map(|&nth| &self.workers[nth].pipe), at_most)?;
        for (nth, _) in wanted.into_iter().zip(ready).filter(|(_, is_ready)| *is_ready) {
            self.read(nth);
        }
        Ok(())
    }

    /// Takes in what a process sent.
    fn read(&mut self, nth: usize) {
        let worker = &mut self.workers[nth];
        match worker.pipe.read(&mut self.buffer) {
            Err(error) if error.kind() == io::ErrorKind::Interrupted => (),
            Ok(0) => self.bury(nth, None),
            Err(_) => self.stop(nth),
            Ok(len) => {
                worker.begun.extend(&self.buffer[..len]);
                if !self.take_in(nth) {
                    self.stop(nth);
                }
            }
        }
    }

    /// False if there is something that is no message about a file of this process.
    fn take_in(&mut self, nth: usize) -> bool {
        let worker = &mut self.workers[nth];
        let mut at = 0;
        while let Some(file) = Frame::file(&worker.begun[at..]) {
            if !self.shared.is_claimed(file, worker.number) || file < worker.from {
                return false;
            }
            let Some((frame, len)) = Frame::take(&worker.begun[at..]) else { break };
            if frame.message().is_none() {
                return false;
            }
            if frame.is_last() {
                self.done += self.lens.get(frame.nth).unwrap_or(&0);
            }
            worker.push(frame);
            at += len;
        }
        worker.begun.drain(..at);
        true
    }

    /// Ends a process that cannot be understood.
    fn stop(&mut self, nth: usize) {
        self.workers[nth].process.kill();
        self.bury(nth, Some(GARBLED));
    }

    /// A process has ended. The file it was at is lost, and another process goes on behind it.
    fn bury(&mut self, nth: usize, why: Option<&str>) {
        let worker = &mut self.workers[nth];
        let end = worker.process.wait();
        worker.is_alive = false;
        worker.begun.clear();
        self.shared.gauge(worker.gauge).begin(None);
        let mut claimed = self.shared.claimed(worker.from, worker.number);
        if claimed.is_none() && end == End::Status(0) {
            return;
        }
        let why = why.map_or_else(|| lost(end), Into::into);
        // One that was stopped may have taken others meanwhile.
        while let Some(file) = claimed {
            worker.push(Frame::new(file, Message::Lost(&why)));
            claimed = self.shared.claimed(worker.from, worker.number);
        }
        // One that took no file would be followed by others that take none.
        if worker.from > worker.first {
            self.replace(nth);
        } else {
            self.why = why;
        }
    }

    /// The line for the terminal.
    fn progress(&self, turn: usize, time: Duration) -> String {
        let len = |nth: usize| *self.lens.get(nth).unwrap_or(&0);
        let parts = 1 + u64::from(self.task.options.read) + u64::from(self.task.options.rows);
        let under_way = self.shared.under_way(parts);
        let (files, name) = (self.task.files.len(), words::name(&self.task.files[turn]));
        let all = self.lens.iter().sum();
        let done = self.done + under_way.map(|(nth, done)| done.min(len(nth))).sum::<u64>();
        State { file: turn + 1, files, name: &name, done: done.min(all), all, time }.text(process::columns())
    }
}

impl Drop for Pool<'_> {
    fn drop(&mut self) {
        let alive = || self.workers.iter().filter(|worker| worker.is_alive);
        alive().for_each(|worker| worker.process.kill());
        // Behind this command nobody has its files open.
        for worker in alive() {
            worker.process.wait();
        }
    }
}

/// What one process does.
fn work(task: &Task, shared: &Shared, number: u64, gauge: usize, has_terminal: bool, pipe: File) -> io::Result<()> {
    let gauge = shared.gauge(gauge);
    let reach = has_terminal.then(|| Reach::new(gauge));
    let audit = |file: &[u8], tables: [&mut [u64]; 3]| -> Answer {
        match &reach {
            Some(reach) => reach.audit(task.audit, file, tables),
            None => (task.audit)(file, tables),
        }
    };
    let look = Look { audit: &audit, step: &|step, bytes| gauge.set(step, bytes) };
    let mut sender = Sender { pipe, kept: Vec::new() };
    while let Some(nth) = shared.claim(number) {
        gauge.begin(Some(nth));
        let path = &task.files[nth];
        finding::tell(path, task.options, &look, &mut |message| sender.send(nth, message))?;
        gauge.begin(None);
    }
    Ok(())
}

/// The end of the pipe that is written to.
struct Sender {
    pipe: File,
    kept: Vec<u8>,
}

impl Sender {
    /// What is said of one file goes out at its end at the latest.
    fn send(&mut self, nth: usize, message: Message) -> io::Result<()> {
        let frame = Frame::new(nth, message);
        frame.put(&mut self.kept);
        if frame.is_last() || self.kept.len() >= CHUNK {
            self.pipe.write_all(&self.kept)?;
            self.kept.clear();
        }
        Ok(())
    }
}

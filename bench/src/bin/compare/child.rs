//! Running a program once: how long it takes and how much memory it takes at most.

use std::ffi::c_int;
use std::fs::File;
use std::io;
use std::process::{Command, Stdio};
use std::time::{Duration, Instant};

/// A program and its arguments.
pub struct Call<'a> {
    pub program: &'a str,
    pub arguments: &'a [&'a str],
    /// Where its standard output goes.
    pub output: &'a str,
}

/// What a run took, from before it was started until it had ended.
#[derive(Clone, Copy)]
pub struct Took {
    pub time: Duration,
    pub most_memory_kib: u64,
}

/// `struct rusage` of Linux on 64 bits.
#[repr(C)]
#[derive(Default)]
struct ResourceUsage {
    user_time: [i64; 2],
    system_time: [i64; 2],
    most_resident_kib: i64,
    others: [i64; 13],
}

unsafe extern "C" {
    fn wait4(child: c_int, status: *mut c_int, options: c_int, usage: *mut ResourceUsage) -> c_int;
}

/// Waits for a child to end; gives its status, as the system has it, and what it took.
fn wait(child: u32) -> io::Result<(c_int, ResourceUsage)> {
    let mut status = 0;
    let mut usage = ResourceUsage::default();
    let id = c_int::try_from(child).map_err(io::Error::other)?;
    // SAFETY: both pointers are to live values of the types that the system writes.
    let ended = unsafe { wait4(id, &raw mut status, 0, &raw mut usage) };
    if ended == id {
        Ok((status, usage))
    } else {
        Err(io::Error::last_os_error())
    }
}

impl Call<'_> {
    /// Runs the program; an error where it does not end with status 0.
    pub fn run(&self) -> io::Result<Took> {
        let output = File::create(self.output)?;
        let mut command = Command::new(self.program);
        command
            .args(self.arguments)
            .stdin(Stdio::null())
            .stdout(output)
            .stderr(Stdio::null());
        let start = Instant::now();
        let child = command.spawn()?;
        let (status, usage) = wait(child.id())?;
        let time = start.elapsed();
        if status != 0 {
            let program = self.program;
            return Err(io::Error::other(format!("{program}: status {status}")));
        }
        Ok(Took {
            time,
            most_memory_kib: usage.most_resident_kib.unsigned_abs(),
        })
    }
}

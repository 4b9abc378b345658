//! Signals, the child and its group, limits, who runs this and on what.

use super::{checked, is};
use std::io;
use std::os::unix::io::{AsRawFd, RawFd};
use std::os::unix::process::CommandExt;
use std::process::{Child, Command};
use std::sync::atomic::{AtomicI32, Ordering};

/// The signal that came last, or 0.
static CAUGHT: AtomicI32 = AtomicI32::new(0);
/// The writing end of a pipe that a signal writes to, so that who waits wakes; or -1.
static WAKES: AtomicI32 = AtomicI32::new(-1);

extern "C" fn note(signal: i32) {
    CAUGHT.store(signal, Ordering::SeqCst);
    let pipe = WAKES.load(Ordering::SeqCst);
    if pipe >= 0 {
        // SAFETY: write(2) may be called from a handler, and it reads one byte that is there.
        // errno is what it was before.
        unsafe {
            let errno = *libc::__errno_location();
            libc::write(pipe, [0u8].as_ptr().cast(), 1);
            *libc::__errno_location() = errno;
        }
    }
}

/// The signal that asks this run to end.
pub fn stopping() -> Option<i32> {
    match CAUGHT.load(Ordering::Relaxed) {
        0 => None,
        signal => Some(signal),
    }
}

fn set_action(signal: i32, action: libc::sighandler_t) {
    // SAFETY: a zeroed sigaction is one without flags, so that a call that waits ends with EINTR;
    // the action is one of the system's, or `note`, which does what a handler may.
    unsafe {
        let mut wanted: libc::sigaction = std::mem::zeroed();
        wanted.sa_sigaction = action;
        libc::sigemptyset(&mut wanted.sa_mask);
        libc::sigaction(signal, &wanted, std::ptr::null_mut());
    }
}

fn is_ignored(signal: i32) -> bool {
    // SAFETY: a zeroed sigaction is a value of its type, and the kernel fills it.
    unsafe {
        let mut found: libc::sigaction = std::mem::zeroed();
        libc::sigaction(signal, std::ptr::null(), &mut found);
        found.sa_sigaction == libc::SIG_IGN
    }
}

/// Makes errors of writes of the signals that would end the program at them, waits for children as
/// if nobody had set anything before, and notes the signals that ask it to end, but for those that
/// whoever started it ignores. Gives the reading end of the pipe that wakes who waits.
pub fn set_up_signals() -> io::Result<RawFd> {
    let mut ends = [-1; 2];
    // SAFETY: the kernel fills two numbers.
    checked(unsafe { libc::pipe2(ends.as_mut_ptr(), libc::O_CLOEXEC | libc::O_NONBLOCK) }.into())?;
    WAKES.store(ends[1], Ordering::SeqCst);
    set_action(libc::SIGPIPE, libc::SIG_IGN);
    set_action(libc::SIGXFSZ, libc::SIG_IGN);
    set_action(libc::SIGCHLD, libc::SIG_DFL);
    let handler: extern "C" fn(i32) = note;
    for signal in [libc::SIGHUP, libc::SIGINT, libc::SIGTERM] {
        if !is_ignored(signal) {
            set_action(signal, handler as libc::sighandler_t);
        }
    }
    // SAFETY: a zeroed set is a value of its type; the call reads it and fills nothing.
    unsafe {
        let mut none: libc::sigset_t = std::mem::zeroed();
        libc::sigemptyset(&mut none);
        libc::pthread_sigmask(libc::SIG_SETMASK, &none, std::ptr::null_mut());
    }
    Ok(ends[0])
}

/// Has the program started in a process group of its own, so that all of it can be ended.
pub fn start_apart(command: &mut Command) -> io::Result<Child> {
    // SAFETY: setpgid(2) may be called between fork and exec, and takes no memory.
    unsafe {
        command.pre_exec(|| checked(libc::setpgid(0, 0).into()).map(|_| ()));
    }
    command.spawn()
}

/// Ends the group of a child that wasn't waited for yet.
pub fn end_group(child: &Child) {
    if let Ok(group) = i32::try_from(child.id()) {
        // SAFETY: the call takes numbers alone; the child isn't waited for, so its number is its
        // own, and the group is the one that it made.
        unsafe {
            libc::kill(-group, libc::SIGKILL);
            libc::kill(group, libc::SIGKILL);
        }
    }
}

/// Waits until one of two descriptors can be read, or the second written to; ends early where a
/// signal comes.
pub fn wait_for(wakes: RawFd, other: &impl AsRawFd, writes: bool) -> io::Result<()> {
    let events = if writes { libc::POLLOUT } else { libc::POLLIN };
    let mut waited = [
        libc::pollfd { fd: wakes, events: libc::POLLIN, revents: 0 },
        libc::pollfd { fd: other.as_raw_fd(), events, revents: 0 },
    ];
    // SAFETY: the kernel reads and fills two elements.
    match checked(unsafe { libc::poll(waited.as_mut_ptr(), 2, -1) }.into()) {
        Err(error) if !is(&error, libc::EINTR) => Err(error),
        _ => Ok(()),
    }
}

/// Lets the process have as many descriptors as it may, and says how many may be used for folders.
/// Room for them is made at once: later on, with several threads, each time that the kernel makes
/// more it waits for all processors.
pub fn raise_descriptors() -> usize {
    let mut limit = libc::rlimit { rlim_cur: 0, rlim_max: 0 };
    // SAFETY: the kernel fills and reads this one value.
    unsafe {
        if libc::getrlimit(libc::RLIMIT_NOFILE, &mut limit) != 0 {
            return FEW_FOLDERS;
        }
        let before = limit.rlim_cur;
        limit.rlim_cur = limit.rlim_max.min(MOST_DESCRIPTORS).max(before);
        if libc::setrlimit(libc::RLIMIT_NOFILE, &limit) != 0 {
            limit.rlim_cur = before;
        }
    }
    let folders = (limit.rlim_cur.min(MOST_DESCRIPTORS) / 2) as usize;
    // SAFETY: these calls take numbers alone; what the first one opens nobody else knows of.
    unsafe {
        let last = libc::fcntl(WAKES.load(Ordering::SeqCst), libc::F_DUPFD_CLOEXEC, folders as i32);
        if last >= 0 {
            libc::close(last);
        }
    }
    folders
}

const FEW_FOLDERS: usize = 64;
const MOST_DESCRIPTORS: libc::rlim_t = 1 << 15;

/// Whether threads may have working folders of their own here.
pub fn has_own_folders() -> bool {
    let thread = std::thread::Builder::new();
    let tried = thread.spawn(|| super::files::part_from_others().is_ok());
    tried.map_or(false, |tried| tried.join().unwrap_or(false))
}

pub fn is_root() -> bool {
    // SAFETY: the call takes nothing and can't fail.
    unsafe { libc::geteuid() == 0 }
}

pub fn is_terminal(descriptor: RawFd) -> bool {
    // SAFETY: the call takes a number alone.
    unsafe { libc::isatty(descriptor) == 1 }
}

//! What the standard library doesn't have of the system: libraries that are opened at run time, signals, limits, and the room of a file on
//! its disk. Beside [`crate::btx`] this is the only module with `unsafe`.

use crate::exit::Status;
use libc::{c_char, c_int, c_void};
use libloading::os::unix::Library;
use memchr::memmem;
use rustix::fs::{Access, AtFlags, FallocateFlags, FlockOperation, accessat, cwd, fallocate, flock};
use rustix::io::Errno;
use rustix::process::{Pid, Rlimit, getrlimit, kill_process_group, setrlimit};
use signal_hook::flag::register_conditional_shutdown;
use signal_hook::low_level::{emulate_default_handler, exit, signal_name};
use std::alloc::{GlobalAlloc, Layout, System};
use std::cell::Cell;
use std::env;
use std::ffi::{CStr, CString, OsStr};
use std::fs::{File, OpenOptions};
use std::io;
use std::mem::MaybeUninit;
use std::os::fd::{AsRawFd, IntoRawFd, OwnedFd};
use std::os::unix::ffi::OsStrExt;
use std::os::unix::fs::OpenOptionsExt;
use std::os::unix::process::{CommandExt, parent_id};
use std::path::{Path, PathBuf};
use std::process::{Child, Command};
use std::ptr::null_mut;
use std::sync::Arc;
use std::sync::atomic::{AtomicBool, AtomicI32, AtomicPtr, Ordering};
use std::time::Duration;

pub use rustix::fd::AsFd;
pub use rustix::process::Resource;

/// Where `what` stands first in `text`.
pub fn position(text: &[u8], what: &[u8]) -> Option<usize> {
    memmem::find(text, what)
}

/// Sets a variable of the environment, or removes it. To be called as long as the program has one thread.
pub fn set_variable(name: &str, value: Option<&OsStr>) {
    // SAFETY: the program has no other thread that could read the environment.
    unsafe {
        match value {
            Some(value) => env::set_var(name, value),
            None => env::remove_var(name),
        }
    }
}

// ---- memory ----

/// Lets each text of 128 KB or more have pages of its own: these grow without a copy, and go back to the system when the text is freed. That is how
/// GNU's C library begins; but it raises the bound whenever such a text is freed, and then a long list that grows stands in memory twice.
pub fn keep_long_texts_apart() {
    // SAFETY: the call has no preconditions; it changes how memory is given from now on.
    #[cfg(target_env = "gnu")]
    unsafe {
        libc::mallopt(libc::M_MMAP_THRESHOLD, 128 << 10)
    };
}

/// What is said after the program's name where memory is refused, and the longest name under which that is said.
const OUT_OF_MEMORY: &[u8] = b": out of memory\n";
const LONGEST_NAME: usize = 255;

/// The memory of a program: the system's. Where it refuses some, one sentence says so under the program's name, and the program ends with the status of refused
/// memory; but where that was asked for by [`trying`].
pub struct Memory {
    /// The program's own name.
    pub name: &'static str,
    /// Whether it is called by other names too, and says what it says under those.
    pub has_names: bool,
}

thread_local! {
    static IS_TRYING: Cell<bool> = const { Cell::new(false) };
}

/// Asks for memory that may be refused.
pub fn trying<T>(ask: impl FnOnce() -> T) -> T {
    let was_trying = IS_TRYING.replace(true);
    let answer = ask();
    IS_TRYING.set(was_trying);
    answer
}

/// The name under which this program was called, where any terminal prints its bytes as they are. It takes no memory, and is known before the program's first line.
fn called_name() -> Option<&'static [u8]> {
    let name = rustix::param::linux_execfn().to_bytes().rsplit(|byte| *byte == b'/').next()?;
    let is_short = (1..=LONGEST_NAME).contains(&name.len());
    (is_short && name.iter().all(u8::is_ascii_graphic)).then_some(name)
}

/// Says under a program's name that memory was refused, by one write, from memory that is there.
fn say_refused(name: &[u8]) {
    let mut line = [0; LONGEST_NAME + OUT_OF_MEMORY.len()];
    let mut len = 0;
    for (place, byte) in line.iter_mut().zip(name.iter().chain(OUT_OF_MEMORY)) {
        *place = *byte;
        len += 1;
    }
    // Where standard error takes nothing, the exit status has to do.
    let _ = rustix::io::write(io::stderr(), &line[..len]);
}

impl Memory {
    /// The place of memory that was asked for; null only where that was tried.
    fn given(&self, place: *mut u8) -> *mut u8 {
        if place.is_null() && !IS_TRYING.get() {
            let called = if self.has_names { called_name() } else { None };
            say_refused(called.unwrap_or(self.name.as_bytes()));
            exit(Status::Memory as c_int)
        }
        place
    }
}

/// A call of the allocator: the system's, and what is made of its answer.
macro_rules! by_system {
    ($call:ident($($parameter:ident: $type:ty),*) -> $answer:ty, $make:expr) => {
        unsafe fn $call(&self, $($parameter: $type),*) -> $answer {
            // SAFETY: what is asked of the caller is what the system asks for.
            $make(self, unsafe { System.$call($($parameter),*) })
        }
    };
}

// SAFETY: all memory is the system's, and is asked for and given back as the caller does.
unsafe impl GlobalAlloc for Memory {
    by_system!(alloc(layout: Layout) -> *mut u8, Memory::given);
    by_system!(alloc_zeroed(layout: Layout) -> *mut u8, Memory::given);
    by_system!(realloc(place: *mut u8, layout: Layout, len: usize) -> *mut u8, Memory::given);
    by_system!(dealloc(place: *mut u8, layout: Layout) -> (), |_, ()| ());
}

// ---- TeX's path search ----

/// Whether the library of TeX's path search has the word. It ends the program by itself where memory is refused.
static IS_SEARCHING: AtomicBool = AtomicBool::new(false);

/// Where standard error is kept while the library has the word.
static KEPT_ERROR: AtomicI32 = AtomicI32::new(NOT_KEPT);
const NOT_KEPT: c_int = -1;

/// Ends the program with the status of refused memory, where the library ended it.
extern "C" fn end_as_memory() {
    if IS_SEARCHING.load(Ordering::Relaxed) {
        put_back_error(KEPT_ERROR.load(Ordering::Relaxed));
        say_refused(called_name().unwrap_or(b"bibtex-search"));
        exit(Status::Memory as c_int)
    }
}

/// Lets standard error be the file of this number, and answers whether that could be done.
fn let_error_be(file: c_int) -> bool {
    // SAFETY: numbers alone; standard error is nobody's own.
    unsafe { libc::dup2(file, libc::STDERR_FILENO) >= 0 }
}

/// Lets nothing come through to standard error, which is a file that can't be written to, and answers where it is kept. None where there is no file left for that.
fn put_error_aside() -> Option<OwnedFd> {
    let nowhere = File::open("/dev/null").ok()?;
    let kept = std::os::fd::AsFd::as_fd(&io::stderr()).try_clone_to_owned().ok()?;
    let_error_be(nowhere.as_raw_fd()).then_some(kept)
}

/// Lets standard error be again what it was, where it was kept.
fn put_back_error(kept: c_int) {
    if kept != NOT_KEPT {
        let_error_be(kept);
    }
}

/// Calls the library of TeX's path search. What it prints meanwhile goes nowhere: it prints names as they are, also those of a stranger. To be called as long as
/// the program has one thread.
fn searching<T>(call: impl FnOnce() -> T) -> T {
    let kept = put_error_aside();
    let number = kept.as_ref().map_or(NOT_KEPT, AsRawFd::as_raw_fd);
    KEPT_ERROR.store(number, Ordering::Relaxed);
    IS_SEARCHING.store(true, Ordering::Relaxed);
    let answer = call();
    IS_SEARCHING.store(false, Ordering::Relaxed);
    put_back_error(number);
    answer
}

/// What the library answered: null, or a text that ends with a byte 0. It is never freed, since there is little of it.
fn text(answer: *const c_char) -> Option<Vec<u8>> {
    // SAFETY: as said above.
    (!answer.is_null()).then(|| unsafe { CStr::from_ptr(answer) }.to_bytes().to_vec())
}

/// Whether the library answered that it is so.
fn is_so(answer: c_int) -> bool {
    answer != 0
}

/// The calls of the library of TeX's path search. The first ones begin a search. Of each other one its method comes first, what that makes of the answer, and the
/// call, with what it is handed after the search.
macro_rules! calls_of_library {
    (
        $($first:ident($($of_first:ty),*) -> $answer_of_first:ty;)*
        $($(#[$doc:meta])* fn $method:ident($($parameter:ident: $type:ty),*) -> $made:ty = $make:ident($call:ident($($handed:expr => $c:ty),*) -> $answer:ty);)*
    ) => {
        /// The calls that are needed, with the types of the library's headers.
        #[derive(Clone, Copy)]
        struct Calls {
            $($first: unsafe extern "C" fn($($of_first),*) -> $answer_of_first,)*
            $($call: unsafe extern "C" fn(*mut c_void, $($c),*) -> $answer,)*
        }

        impl PathLibrary {
            /// The library, where it is installed.
            pub fn open() -> Option<PathLibrary> {
                // SAFETY: the library's own beginning has no effect on this program, and each call has the type of its field in kpathsea's headers.
                let (library, calls) = unsafe {
                    let library = Library::new("libkpathsea.so.6").ok()?;
                    let calls = Calls {
                        $($first: *library.get(stringify!($first).as_bytes()).ok()?,)*
                        $($call: *library.get(stringify!($call).as_bytes()).ok()?,)*
                    };
                    (library, calls)
                };
                // (it is never closed, so its calls stay)
                std::mem::forget(library);
                Some(PathLibrary(calls))
            }
        }

        impl PathSearch {
            $($(#[$doc])* pub fn $method(&self, $($parameter: $type),*) -> $made {
                // SAFETY: the texts that go to C end with a byte 0, and `state` is what C made.
                searching(|| $make(unsafe { (self.calls.$call)(self.state, $($handed),*) }))
            })*
        }
    };
}

/// The library of TeX's path search, opened.
#[derive(Clone, Copy)]
pub struct PathLibrary(Calls);

/// A search of TeX's, with its set-up.
pub struct PathSearch {
    calls: Calls,
    state: *mut c_void,
}

calls_of_library! {
    kpathsea_new() -> *mut c_void;
    kpathsea_set_program_name(*mut c_void, *const c_char, *const c_char) -> ();

    /// Where a file of this format is found.
    fn find_file(name: &CStr, format: c_int) -> Option<Vec<u8>>
        = text(kpathsea_find_file(name.as_ptr() => *const c_char, format => c_int, 1 => c_int) -> *const c_char);
    /// Where a file is found along a path.
    fn path_search(path: &CStr, name: &CStr) -> Option<Vec<u8>>
        = text(kpathsea_path_search(path.as_ptr() => *const c_char, name.as_ptr() => *const c_char, 1 => c_int) -> *const c_char);
    /// The path along which files of this format are looked for.
    fn path(format: c_int) -> Option<Vec<u8>>
        = text(kpathsea_init_format(format => c_int) -> *const c_char);
    /// A path with all its variables and braces written out, as far as its folders are there.
    fn path_expand(path: &CStr) -> Option<Vec<u8>>
        = text(kpathsea_path_expand(path.as_ptr() => *const c_char) -> *const c_char);
    /// What the files of the set-up say of a variable.
    fn setting(name: &CStr) -> Option<Vec<u8>>
        = text(kpathsea_cnf_get(name.as_ptr() => *const c_char) -> *const c_char);
    /// The value of a variable: of the environment, or else of the set-up.
    fn value(name: &CStr) -> Option<Vec<u8>>
        = text(kpathsea_var_value(name.as_ptr() => *const c_char) -> *const c_char);
    /// Whether a file of this name may be read, by `openin_any`.
    fn may_read(name: &CStr) -> bool
        = is_so(kpathsea_in_name_ok_silent(name.as_ptr() => *const c_char) -> c_int);
    /// Whether a file of this name may be written, by `openout_any`.
    fn may_write(name: &CStr) -> bool
        = is_so(kpathsea_out_name_ok_silent(name.as_ptr() => *const c_char) -> c_int);
}

impl PathLibrary {
    /// Begins a search, whose set-up is that of `program`. TeX's folders are looked for from where the program `beside` stands.
    pub fn begin(&self, beside: &CStr, program: &CStr) -> PathSearch {
        let calls = self.0;
        // SAFETY: the handler is a function of this program; where it isn't taken, only the status of refused memory differs. Both texts end with a byte 0, and the
        // library copies them.
        let state = searching(|| unsafe {
            libc::atexit(end_as_memory);
            let state = (calls.kpathsea_new)();
            (calls.kpathsea_set_program_name)(state, beside.as_ptr(), program.as_ptr());
            state
        });
        PathSearch { calls, state }
    }
}

// ---- signals ----

/// A signal, by the system's number for it.
#[derive(Debug, Clone, Copy, PartialEq, Eq)]
pub struct Signal(pub c_int);

/// The signals that end a program.
const ENDING: [Signal; 3] = [Signal::HANGUP, Signal::INTERRUPT, Signal::TERMINATE];
/// All signals that can be held back.
const HELD: [Signal; 7] = [
    Signal::HANGUP,
    Signal::INTERRUPT,
    Signal::QUIT,
    Signal::PIPE,
    Signal::TERMINATE,
    Signal::CHILD,
    Signal::PROCESSOR_TIME,
];

/// A set of signals, for C.
fn set_of(signals: impl IntoIterator<Item = Signal>) -> libc::sigset_t {
    let mut set = MaybeUninit::uninit();
    // SAFETY: the set is made empty before a signal is added, and each number is that of a signal.
    unsafe {
        libc::sigemptyset(set.as_mut_ptr());
        for Signal(number) in signals {
            libc::sigaddset(set.as_mut_ptr(), number);
        }
        set.assume_init()
    }
}

/// Lets a signal be ignored, or do what it does by default. Whether it was ignored before.
fn ignore(signal: Signal, is_ignored: bool) -> bool {
    let handler = if is_ignored { libc::SIG_IGN } else { libc::SIG_DFL };
    // SAFETY: both handlers are always valid.
    unsafe { libc::signal(signal.0, handler) == libc::SIG_IGN }
}

/// Signals that are held back in this thread and in those that it begins, until one is waited for.
#[derive(Clone, Copy)]
pub struct Held(libc::sigset_t);

impl Signal {
    pub const HANGUP: Signal = Signal(libc::SIGHUP);
    pub const INTERRUPT: Signal = Signal(libc::SIGINT);
    pub const QUIT: Signal = Signal(libc::SIGQUIT);
    pub const KILL: Signal = Signal(libc::SIGKILL);
    /// A pipe has no reader. The standard library ignores this one.
    pub const PIPE: Signal = Signal(libc::SIGPIPE);
    pub const TERMINATE: Signal = Signal(libc::SIGTERM);
    /// Something became of a process that this one began.
    pub const CHILD: Signal = Signal(libc::SIGCHLD);
    /// The seconds of the processor are spent.
    pub const PROCESSOR_TIME: Signal = Signal(libc::SIGXCPU);

    /// Its name.
    pub fn name(self) -> &'static str {
        signal_name(self.0).unwrap_or("a signal")
    }

    /// Holds back the signals that end a program. Those that whoever called the program has switched off stay off.
    pub fn hold() -> Held {
        Signal::hold_these(&ENDING)
    }

    /// Holds back all signals that end a program, its processor time, and what becomes of its children.
    pub fn hold_all() -> Held {
        Signal::hold_these(&HELD)
    }

    fn hold_these(signals: &[Signal]) -> Held {
        let stays_off = |signal: &Signal| {
            let was_off = ignore(*signal, false) && ![Signal::PIPE, Signal::CHILD].contains(signal);
            if was_off {
                ignore(*signal, true);
            }
            was_off
        };
        let held = Held(set_of(signals.iter().copied().filter(|signal| !stays_off(signal))));
        held.hold_again();
        held
    }

    /// Ends the program by this signal, as if it had never been held back.
    pub fn end_program(self) -> ! {
        // Where that can't be done, the status says it.
        let _ = emulate_default_handler(self.0);
        std::process::exit(128 + self.0)
    }
}

impl Held {
    fn mask(&self, how: c_int) {
        // SAFETY: the set is a valid one, and the old one isn't asked for.
        unsafe { libc::pthread_sigmask(how, &self.0, null_mut()) };
    }

    /// Lets these signals end the program again, in this thread.
    pub fn release(&self) {
        self.mask(libc::SIG_UNBLOCK);
    }

    /// Holds them back again, in this thread.
    pub fn hold_again(&self) {
        self.mask(libc::SIG_BLOCK);
    }

    /// Waits for one of these signals; None where the time is over before one comes.
    pub fn wait(&self, time: Duration) -> Option<Signal> {
        let seconds = libc::time_t::try_from(time.as_secs()).unwrap_or(libc::time_t::MAX);
        let timeout = libc::timespec { tv_sec: seconds, tv_nsec: time.subsec_nanos() as _ };
        // SAFETY: the set and the time are valid, and no information is asked for.
        let number = unsafe { libc::sigtimedwait(&self.0, null_mut(), &timeout) };
        (number > 0).then_some(Signal(number))
    }
}

/// Lets a write beyond the limit of a file's length fail, in place of ending the program.
pub fn survive_long_files() {
    ignore(Signal(libc::SIGXFSZ), true);
}

/// Ends the program with the status of refused memory where the standard library aborts it: it does so where memory is refused.
pub fn end_aborts_as_memory() {
    let always = Arc::new(AtomicBool::new(true));
    // Where the handler isn't taken, only the status of refused memory differs.
    let _ = register_conditional_shutdown(libc::SIGABRT, Status::Memory as c_int, always);
}

// ---- limits ----

/// Limits this process, and those that it begins: past `soft` a process gets a signal, and past `hard` it is ended or refused. A limit is never raised.
pub fn limit(resource: Resource, soft: u64, hard: u64) -> io::Result<()> {
    let old = getrlimit(resource);
    let hard = hard.min(old.maximum.unwrap_or(u64::MAX));
    let soft = soft.min(old.current.unwrap_or(u64::MAX)).min(hard);
    Ok(setrlimit(resource, Rlimit { current: Some(soft), maximum: Some(hard) })?)
}

// ---- files and terminals ----

/// Reserves room on the disk for the first bytes of a file, whose length and contents stay; `has_room` is how much it has. A file or a system
/// that can't do this has no fault here.
pub fn reserve(file: impl AsFd, len: u64, has_room: u64) -> io::Result<()> {
    if getrlimit(Resource::Fsize).current.is_some_and(|most| len > most) {
        return Err(Errno::FBIG.into());
    }
    if len <= has_room {
        return Ok(());
    }
    match fallocate(file, FallocateFlags::KEEP_SIZE, 0, len) {
        Err(fault @ (Errno::NOSPC | Errno::DQUOT)) => Err(fault.into()),
        _ => Ok(()),
    }
}

/// Takes the lock of an open file, by which programs agree that one alone writes it; false where another one has it. Closing the file gives it
/// back. A system that can't lock this file has no fault here.
pub fn lock(file: impl AsFd) -> bool {
    flock(file, FlockOperation::NonBlockingLockExclusive) != Err(Errno::WOULDBLOCK)
}

/// Closes a file; some systems say only then that what was written didn't reach its disk.
pub fn close_file(file: impl Into<OwnedFd>) -> io::Result<()> {
    let number = file.into().into_raw_fd();
    // SAFETY: the number is that of a file that is ours, and isn't used any more.
    if unsafe { libc::close(number) } == 0 { Ok(()) } else { Err(io::Error::last_os_error()) }
}

/// How many characters a line of this terminal has, where that is known.
pub fn columns(terminal: impl AsFd) -> Option<usize> {
    let size = rustix::termios::tcgetwinsize(terminal).ok()?;
    (size.ws_col > 0).then_some(usize::from(size.ws_col))
}

/// A text for C. None where it has a byte 0: no file has such a name.
pub fn c_text(bytes: &[u8]) -> Option<CString> {
    CString::new(bytes).ok()
}

// ---- what `bibtex-confined` asks for ----

/// The words of a command, for C: each ends with a byte 0, and a null pointer ends the list of them.
struct CommandWords {
    _texts: Vec<CString>,
    /// (these have the form of plain pointers, and may go to another thread)
    places: Vec<AtomicPtr<c_char>>,
}

impl CommandWords {
    fn of(command: &Command) -> io::Result<CommandWords> {
        let words = std::iter::once(command.get_program()).chain(command.get_args());
        let texts = words.map(|word| CString::new(word.as_bytes())).collect::<Result<Vec<_>, _>>()?;
        let places = texts.iter().map(|text| text.as_ptr().cast_mut()).chain([null_mut()]);
        Ok(CommandWords { places: places.map(AtomicPtr::new).collect(), _texts: texts })
    }

    /// Where the words stand, as C wants it, for as long as this value is there.
    fn for_c(&self) -> *const *const c_char {
        self.places.as_ptr().cast()
    }
}

/// Lets the process that the command begins become the command's program, named by its path, and nothing else: the standard library would hand a file that
/// the system can't execute, such as an empty one, to a shell. Its words are those that the command has now. It writes no file of more bytes than `longest`, and
/// takes that as a fault; it holds no signal back, and is killed where this process ends.
pub fn execute_itself(command: &mut Command, longest: u64) -> io::Result<()> {
    let words = CommandWords::of(command)?;
    let (parent, none) = (std::process::id(), set_of([]));
    // SAFETY: between fork and exec the process makes only calls that a signal handler may make; it allocates nothing and takes no lock. The set is a valid one. The
    // first place is that of the program's path, and all end as C asks.
    unsafe {
        command.pre_exec(move || {
            let is_bound = libc::prctl(libc::PR_SET_PDEATHSIG, libc::SIGKILL) == 0;
            if !is_bound || parent_id() != parent {
                return Err(io::ErrorKind::BrokenPipe.into());
            }
            survive_long_files();
            libc::pthread_sigmask(libc::SIG_SETMASK, &none, null_mut());
            limit(Resource::Fsize, longest, longest)?;
            let places = words.for_c();
            libc::execv(*places, places);
            Err(io::Error::last_os_error())
        });
    }
    Ok(())
}

/// Whether a process that this one began has ended. It isn't taken from the system's table yet, so its number stays its own.
pub fn has_ended(child: &Child) -> bool {
    let mut found = MaybeUninit::<libc::siginfo_t>::zeroed();
    let how = libc::WEXITED | libc::WNOHANG | libc::WNOWAIT;
    // SAFETY: what is found is written to a valid place of its type, of which zeros are a value; its process is 0 where nothing has ended.
    unsafe { libc::waitid(libc::P_PID, child.id(), found.as_mut_ptr(), how) != 0 || found.assume_init().si_pid() != 0 }
}

/// Kills all processes of the group that this process leads.
pub fn kill_group(leader: &Child) {
    // That the group is gone is no fault here.
    let _ = kill_process_group(Pid::from_child(leader), rustix::process::Signal::Kill);
}

/// Whether this process may do this with a file.
fn may(path: &Path, what: Access) -> io::Result<()> {
    Ok(accessat(cwd(), path, what, AtFlags::empty())?)
}

/// Whether this is a file that may be run.
pub fn is_program(path: &Path) -> bool {
    path.is_file() && may(path, Access::EXEC_OK).is_ok()
}

/// Where programs stand if the environment has no search path.
const USUAL_PATH: &str = "/usr/local/bin:/usr/bin:/bin";

/// The first program of this name along the search path. Only folders that are named from the root count: the present folder is the document's.
pub fn program_named(name: &OsStr) -> Option<PathBuf> {
    let folders = env::var_os("PATH").unwrap_or_else(|| USUAL_PATH.into());
    env::split_paths(&folders)
        .filter(|folder| folder.is_absolute())
        .map(|folder| folder.join(name))
        .find(|path| is_program(path))
}

/// Whether files may be made in the present folder.
pub fn may_make_files() -> io::Result<()> {
    may(Path::new("."), Access::WRITE_OK | Access::EXEC_OK)
}

/// Opens no link, and waits for no pipe.
pub fn no_links(options: &mut OpenOptions) -> &mut OpenOptions {
    options.custom_flags(libc::O_NOFOLLOW | libc::O_NONBLOCK)
}

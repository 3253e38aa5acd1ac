//! SQLite in memory: one connection, prepared statements. The library is loaded when the program runs, so that nothing needs it.

use super::Counts;
use second::archive::{Playback, ADDRESSES};
use second::line::sets::{address, rising, ObjectSet, OBJECTS};
use std::ffi::{c_char, c_int, c_void, CStr, CString};
use std::mem::transmute;
use std::ptr::{null, null_mut};

const FILE: &CStr = c"libsqlite3.so.0";
/// Debian's package of it.
pub const PACKAGE: &str = "libsqlite3-0";

const OK: c_int = 0;
const ROW: c_int = 100;
const DONE: c_int = 101;

const TABLES: &str = "CREATE TABLE counters (address INTEGER PRIMARY KEY, value INTEGER NOT NULL);
    CREATE TABLE log (number INTEGER PRIMARY KEY, station INTEGER NOT NULL, entries BLOB NOT NULL);";

extern "C" {
    fn dlopen(file: *const c_char, mode: c_int) -> *mut c_void;
    fn dlsym(library: *mut c_void, name: *const c_char) -> *mut c_void;
}

/// dlopen's: all names are looked up at once.
const RTLD_NOW: c_int = 2;

/// The functions that are used, by SQLite's own names behind `sqlite3_`.
macro_rules! functions {
    ($(fn $name:ident($($type:ty),*) -> $result:ty;)*) => {
        pub struct Library {
            $($name: unsafe extern "C" fn($($type),*) -> $result,)*
        }

        impl Library {
            /// None where it is not installed.
            pub fn load() -> Option<Library> {
                // the file is SQLite's by its name, and so are its functions' types
                unsafe {
                    let library = dlopen(FILE.as_ptr(), RTLD_NOW);
                    if library.is_null() {
                        return None;
                    }
                    Some(Library {
                        $($name: {
                            let name = concat!("sqlite3_", stringify!($name), "\0");
                            let function = dlsym(library, name.as_ptr().cast());
                            if function.is_null() {
                                return None;
                            }
                            transmute::<*mut c_void, unsafe extern "C" fn($($type),*) -> $result>(function)
                        },)*
                    })
                }
            }
        }
    };
}

functions! {
    fn libversion() -> *const c_char;
    fn open(*const c_char, *mut *mut c_void) -> c_int;
    fn close(*mut c_void) -> c_int;
    fn exec(*mut c_void, *const c_char, *const c_void, *const c_void, *const c_void) -> c_int;
    fn prepare_v2(*mut c_void, *const c_char, c_int, *mut *mut c_void, *const c_void) -> c_int;
    fn finalize(*mut c_void) -> c_int;
    fn bind_int64(*mut c_void, c_int, i64) -> c_int;
    fn bind_blob(*mut c_void, c_int, *const c_void, c_int, *const c_void) -> c_int;
    fn step(*mut c_void) -> c_int;
    fn reset(*mut c_void) -> c_int;
    fn column_int64(*mut c_void, c_int) -> i64;
}

impl Library {
    pub fn version(&self) -> String {
        let version = unsafe { CStr::from_ptr((self.libversion)()) };
        version.to_string_lossy().into_owned()
    }
}

/// Every address's value, and a row of the log for each commit.
pub struct Database<'a> {
    library: &'a Library,
    connection: *mut c_void,
    begin: *mut c_void,
    select: *mut c_void,
    update: *mut c_void,
    log: *mut c_void,
    commit: *mut c_void,
    /// Of the open transaction: an address and a value each, as in a record.
    entries: Vec<u8>,
}

impl Database<'_> {
    pub fn new(library: &Library) -> Database<'_> {
        let mut database = Database {
            library,
            connection: null_mut(),
            begin: null_mut(),
            select: null_mut(),
            update: null_mut(),
            log: null_mut(),
            commit: null_mut(),
            entries: Vec::new(),
        };
        let opened = unsafe { (library.open)(c":memory:".as_ptr(), &mut database.connection) };
        assert_eq!(opened, OK, "SQLite: a connection");
        database.run(TABLES);
        for address in 0..ADDRESSES {
            database.run(&format!("INSERT INTO counters VALUES ({address}, 0)"));
        }
        database.begin = database.prepared("BEGIN");
        database.select = database.prepared("SELECT value FROM counters WHERE address = ?1");
        database.update = database.prepared("UPDATE counters SET value = ?2 WHERE address = ?1");
        database.log = database.prepared("INSERT INTO log (station, entries) VALUES (?1, ?2)");
        database.commit = database.prepared("COMMIT");
        database
    }

    fn run(&self, text: &str) {
        let text = CString::new(text).expect("a text without zeros");
        let number =
            unsafe { (self.library.exec)(self.connection, text.as_ptr(), null(), null(), null()) };
        assert_eq!(number, OK, "SQLite: {text:?}");
    }

    fn prepared(&self, text: &str) -> *mut c_void {
        let text = CString::new(text).expect("a text without zeros");
        let mut statement = null_mut();
        let number = unsafe {
            (self.library.prepare_v2)(self.connection, text.as_ptr(), -1, &mut statement, null())
        };
        assert_eq!(number, OK, "SQLite: {text:?}");
        statement
    }

    /// A statement that gives no row.
    fn done(&self, statement: *mut c_void) {
        unsafe {
            assert_eq!((self.library.step)(statement), DONE);
            assert_eq!((self.library.reset)(statement), OK);
        }
    }

    /// A statement that gives one number.
    fn number(&self, statement: *mut c_void) -> u64 {
        unsafe {
            assert_eq!((self.library.step)(statement), ROW);
            let number = (self.library.column_int64)(statement, 0);
            assert_eq!((self.library.reset)(statement), OK);
            number as u64
        }
    }

    fn bind(&self, statement: *mut c_void, place: c_int, number: u64) {
        let number = unsafe { (self.library.bind_int64)(statement, place, number as i64) };
        assert_eq!(number, OK);
    }

    fn note(&mut self, address: u8, value: u64) {
        self.entries.push(address);
        self.entries.extend_from_slice(&value.to_le_bytes());
    }

    /// As many commits were logged as an archive has, and left its values.
    pub fn assert_same(&self, played: &Playback) {
        let count = self.prepared("SELECT count(*) FROM log");
        assert_eq!(self.number(count), played.last.into(), "SQLite: commits");
        unsafe { (self.library.finalize)(count) };
        for (address, value) in played.values.into_iter().enumerate() {
            self.bind(self.select, 1, address as u64);
            assert_eq!(self.number(self.select), value, "SQLite: {address}");
        }
    }
}

impl Counts for Database<'_> {
    fn begin(&mut self, _: u8) {
        self.entries.clear();
        self.done(self.begin);
    }

    fn read(&mut self, _: u8, address: u8) -> u64 {
        self.bind(self.select, 1, address.into());
        let value = self.number(self.select);
        self.note(address, value);
        value
    }

    fn write(&mut self, _: u8, address: u8, value: u64) {
        self.bind(self.update, 1, address.into());
        self.bind(self.update, 2, value);
        self.done(self.update);
        self.note(address, value);
    }

    fn write_set(&mut self, station: u8, page: u8, set: ObjectSet, values: &[u64; OBJECTS]) {
        for object in rising(set) {
            self.write(station, address(page, object), values[object as usize]);
        }
    }

    fn commit(&mut self, station: u8) {
        self.bind(self.log, 1, station.into());
        let (bytes, length) = (self.entries.as_ptr(), self.entries.len());
        // lent until the row is written: a null destructor says so
        let number =
            unsafe { (self.library.bind_blob)(self.log, 2, bytes.cast(), length as c_int, null()) };
        assert_eq!(number, OK);
        self.done(self.log);
        self.done(self.commit);
    }
}

impl Drop for Database<'_> {
    fn drop(&mut self) {
        for statement in [self.begin, self.select, self.update, self.log, self.commit] {
            unsafe { (self.library.finalize)(statement) };
        }
        unsafe { (self.library.close)(self.connection) };
    }
}

//! SQLite: tables in memory with an index each way, and recursive queries prepared once.

use std::ffi::{c_char, c_int, c_void, CString};
use std::ptr::{null, null_mut};

use crate::policy::{Decision, Policy};

#[link(name = "sqlite3")]
extern "C" {
    fn sqlite3_open_v2(
        name: *const c_char,
        database: *mut *mut c_void,
        flags: c_int,
        vfs: *const c_char,
    ) -> c_int;
    fn sqlite3_exec(
        database: *mut c_void,
        sql: *const c_char,
        callback: *const c_void,
        argument: *mut c_void,
        message: *mut *mut c_char,
    ) -> c_int;
    fn sqlite3_prepare_v2(
        database: *mut c_void,
        sql: *const c_char,
        bytes: c_int,
        statement: *mut *mut c_void,
        tail: *mut *const c_char,
    ) -> c_int;
    fn sqlite3_bind_int(statement: *mut c_void, at: c_int, value: c_int) -> c_int;
    fn sqlite3_step(statement: *mut c_void) -> c_int;
    fn sqlite3_column_int(statement: *mut c_void, at: c_int) -> c_int;
    fn sqlite3_reset(statement: *mut c_void) -> c_int;
    fn sqlite3_finalize(statement: *mut c_void) -> c_int;
    fn sqlite3_close(database: *mut c_void) -> c_int;
}

const OK: c_int = 0;
const ROW: c_int = 100;
// To read and write, in memory, without a mutex.
const FLAGS: c_int = 0x2 | 0x4 | 0x80 | 0x8000;

const TABLES: &str = "
    CREATE TABLE active (session INTEGER, role INTEGER, PRIMARY KEY (session, role)) WITHOUT ROWID;
    CREATE TABLE attachment (senior INTEGER, junior INTEGER, PRIMARY KEY (senior, junior)) WITHOUT ROWID;
    CREATE TABLE granted (permission INTEGER, role INTEGER, PRIMARY KEY (permission, role)) WITHOUT ROWID;
    CREATE UNIQUE INDEX senior_of ON attachment (junior, senior);
";

const DOWNWARDS: &str = "
    WITH RECURSIVE reached (role) AS (
        SELECT role FROM active WHERE session = ?1
        UNION
        SELECT junior FROM reached CROSS JOIN attachment ON senior = reached.role
    )
    SELECT EXISTS (
        SELECT 1 FROM reached CROSS JOIN granted USING (role) WHERE permission = ?2
    )";

const UPWARDS: &str = "
    WITH RECURSIVE above (role) AS (
        SELECT role FROM granted WHERE permission = ?2
        UNION
        SELECT senior FROM above CROSS JOIN attachment ON junior = above.role
    )
    SELECT EXISTS (
        SELECT 1 FROM above CROSS JOIN active USING (role) WHERE session = ?1
    )";

pub struct Database(*mut c_void);

impl Database {
    pub fn new(policy: &Policy) -> Database {
        let mut database = null_mut();
        // SAFETY: the name ends in 0, and the pointer is written before it is used.
        let status = unsafe { sqlite3_open_v2(c":memory:".as_ptr(), &mut database, FLAGS, null()) };
        assert_eq!(status, OK, "SQLite opens");
        let database = Database(database);
        database.execute(TABLES);
        database.execute("BEGIN");
        for (table, pairs) in [
            ("active", &policy.active),
            ("attachment", &policy.attachments),
            ("granted", &policy.grants),
        ] {
            for (left, right) in pairs {
                database.execute(&format!("INSERT INTO {table} VALUES ({left}, {right})"));
            }
        }
        database.execute("COMMIT");
        database.execute("ANALYZE");
        database
    }

    fn execute(&self, sql: &str) {
        let sql = CString::new(sql).expect("no 0 in a query");
        // SAFETY: the database is open and the text ends in 0.
        let status = unsafe { sqlite3_exec(self.0, sql.as_ptr(), null(), null_mut(), null_mut()) };
        assert_eq!(status, OK, "{sql:?}");
    }

    /// From the session's active roles along the attachments.
    pub fn downwards(&self) -> Query<'_> {
        self.prepare(DOWNWARDS)
    }

    /// From the roles that hold the permission against the attachments.
    pub fn upwards(&self) -> Query<'_> {
        self.prepare(UPWARDS)
    }

    fn prepare(&self, sql: &str) -> Query<'_> {
        let text = CString::new(sql).expect("no 0 in a query");
        let mut statement = null_mut();
        // SAFETY: the database is open and the text ends in 0.
        let status =
            unsafe { sqlite3_prepare_v2(self.0, text.as_ptr(), -1, &mut statement, null_mut()) };
        assert_eq!(status, OK, "{sql}");
        Query {
            statement,
            _database: self,
        }
    }
}

impl Drop for Database {
    fn drop(&mut self) {
        // SAFETY: every query borrows the database, so none is left.
        unsafe { sqlite3_close(self.0) };
    }
}

/// A prepared statement.
pub struct Query<'a> {
    statement: *mut c_void,
    _database: &'a Database,
}

impl Query<'_> {
    pub fn ask(&mut self, decision: &Decision) -> bool {
        // SAFETY: the statement is prepared, and its column is read while a row stands.
        unsafe {
            sqlite3_bind_int(self.statement, 1, decision.session_number().into());
            sqlite3_bind_int(self.statement, 2, decision.permission_number().into());
            assert_eq!(sqlite3_step(self.statement), ROW);
            let verdict = sqlite3_column_int(self.statement, 0);
            sqlite3_reset(self.statement);
            verdict == 1
        }
    }
}

impl Drop for Query<'_> {
    fn drop(&mut self) {
        // SAFETY: the statement is prepared and is not used again.
        unsafe { sqlite3_finalize(self.statement) };
    }
}

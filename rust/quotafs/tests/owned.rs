//! Texts and lists that own their memory, and errors of input and output.
#![cfg(feature = "std")]
use quotafs::{Caller, Error, Session};
use std::io;

const CONFIG: &str = r#"
size = "1m"
nr_inodes = 16
block_grace = 100
inode_grace = 100
user = [{id = 0, name = "root"}, {id = 1000, name = "builder"}]
group = [{id = 0, name = "root"}]
"#;

const REPORT: &str = "\
user    root             --          0          0          0          -          2          0          0          -
user    builder          --          0          0          0          -          0          0          0          -
group   root             --          0          0          0          -          2          0          0          -
";

const JOURNAL: &str = "\
quotafs journal 2 workers 1
1 3 0:0 create /a => done 2 blocks +0 -0 inodes +1 -0
";

#[test]
fn texts_and_lists_are_as_long_as_they_are() -> Result<(), Error> {
    let mut session = Session::open_journaled(CONFIG, 7)?;
    assert_eq!(session.line_text("3 0:0 create /a\n")?, "done 2 blocks +0 -0 inodes +1 -0\n");
    assert_eq!(session.report_text(3)?, REPORT);
    assert_eq!(session.journal_text()?, JOURNAL);
    let inodes: Vec<_> = session.inode_list()?.iter().map(|inode| (inode.ino, inode.dir)).collect();
    assert_eq!(inodes, [(1, true), (2, false)]);
    let list = session.name_list()?;
    let names: Vec<_> = list.names().iter().map(|name| (name.dir, name.text, name.ino)).collect();
    assert_eq!(names, [(1, "a", 2)]);
    Ok(())
}

#[test]
fn an_error_is_one_of_input_and_output() -> Result<(), Error> {
    fn missing(session: &mut Session) -> io::Result<u64> {
        Ok(session.stat(&Caller::ROOT, 0, "/none")?.size)
    }
    let error = missing(&mut Session::open(CONFIG, 7)?).unwrap_err();
    assert_eq!((error.kind(), error.to_string().as_str()), (io::ErrorKind::NotFound, "refused: ENOENT"));
    Ok(())
}

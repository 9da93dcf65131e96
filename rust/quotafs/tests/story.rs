//! A builder fills its quota, and a project's: every call, with its whole answer as worked out by the rules.
use quotafs::{
    Caller, ConfigFault, DoneReply, Error, Fault, Kind, ListedInode, ListedName, NewLimits, NewOwners, Over, Refusal,
    Session, StatReply, TallyReply,
};

const CONFIG: &str = r#"
size = "1m"
nr_inodes = 16
block_grace = 100
inode_grace = 100
[[user]]
id = 0
name = "root"
[[user]]
id = 1000
name = "builder"
block_soft = 8
block_hard = 16
[[group]]
id = 0
name = "root"
[[group]]
id = 100
name = "farm"
"#;

const PROJECTS: &str = r#"
[[project]]
id = 0
name = "none"
[[project]]
id = 7
name = "kit"
block_hard = 4
"#;

const REPORT: &str = "\
user    root             --          0          0          0          -          1          0          0          -
user    builder          --          8         16         32          -          2          0          0          -
group   root             --          0          0          0          -          1          0          0          -
group   farm             --          8          0          0          -          2          0          0          -
";

const JOURNAL: &str = "\
quotafs journal 2 workers 1
1 0 1000:100 mkdir /p => done 2 blocks +0 -0 inodes +1 -0
1 1 0:0 chown /p - - 7 => done 2 blocks +0 -0 inodes +0 -0
1 2 1000:100 create /p/a => done 3 blocks +0 -0 inodes +1 -0
1 3 1000:100 write /p/a 0 6f6b => done 3 blocks +1 -0 inodes +0 -0
1 4 1000:100 write /p/a 4096 6e6f => refused EDQUOT project block-hard
1 5 0:0 quota project 7 => quota 1 2 0 4 0 0 - -
";

const BUILDER: Caller = Caller::new(1000, 100);

/// What touched an inode and charged nothing.
fn done(ino: u64) -> DoneReply {
    DoneReply { ino, ..DoneReply::default() }
}

fn refused<T>(refusal: Refusal) -> Result<T, Error> {
    Err(Error::Refused(refusal))
}

fn fault<T>(fault: Fault) -> Result<T, Error> {
    Err(Error::Fault(fault))
}

fn wants_bytes(bytes: usize) -> Fault {
    Fault::Room { bytes, rows: 0 }
}

fn text(bytes: &[u8]) -> &str {
    std::str::from_utf8(bytes).unwrap()
}

/// Why a text is no configuration.
fn why(config: &str) -> ConfigFault {
    match Session::open(config, 7) {
        Err(Error::Config(fault)) => fault,
        other => panic!("{other:?}"),
    }
}

#[test]
fn a_text_that_is_no_configuration_is_told_why() {
    assert_eq!(why("size"), ConfigFault::Text);
    let ConfigFault::Field(key) = why("nr_inodes = 16") else { panic!() };
    assert_eq!(key.as_str(), Some("size"));
    assert_eq!(why(&CONFIG.replace("block_grace = 100", "block_grace = 0")), ConfigFault::Range);
    assert_eq!(why(&CONFIG.replace("1000", "0")), ConfigFault::Duplicate);
    assert_eq!(why(&CONFIG.replace("id = 0", "id = 5")), ConfigFault::NoZero);
    assert!(matches!(Session::open_journaled("size", 7), Err(Error::Config(ConfigFault::Text))));
}

#[test]
fn a_builder_fills_its_quota() -> Result<(), Error> {
    let mut session = Session::open(CONFIG, 7)?;
    let mut buffer = [0; 4096];
    assert_eq!(session.create(&BUILDER, 0, "/a")?, DoneReply { inodes_charged: 1, ..done(2) });
    assert_eq!(session.create(&BUILDER, 0, "/a b"), fault(Fault::Path));
    assert_eq!(session.create(&BUILDER, 0, "/a"), refused(Refusal::EEXIST));
    assert_eq!(session.write(&BUILDER, 0, "/a", 0, b"hello")?, DoneReply { blocks_charged: 1, ..done(2) });
    assert_eq!(session.read(&BUILDER, 0, "/a", 1, &mut buffer[..3])?, b"ell");
    assert_eq!(session.read(&BUILDER, 0, "/a", 1, &mut buffer)?, b"ello");

    // Three blocks are 12 KiB, over the soft limit of 8: a grace of 100 seconds begins at 10.
    assert_eq!(session.fill(&BUILDER, 10, "/a", 4096, 8192, 1)?, DoneReply { blocks_charged: 2, ..done(2) });
    let quota = session.quota(&BUILDER, 10, Kind::User, 1000)?;
    assert_eq!((quota.blocks, quota.inodes), (3, 1));
    assert_eq!((quota.block_soft, quota.block_hard, quota.inode_soft, quota.inode_hard), (8, 16, 0, 0));
    assert_eq!((quota.block_end(), quota.inode_end()), (Some(110), None));
    let ended = Refusal::EDQUOT(Kind::User, Over::BlockSoft);
    assert_eq!(session.fill(&BUILDER, 110, "/a", 12288, 4096, 1), refused(ended));
    assert_eq!(session.fill(&BUILDER, 110, "/a", 0, 12288, 2)?, done(2));

    let limits = NewLimits { block_soft: 16, block_hard: 32, ..NewLimits::default() };
    assert_eq!(session.setquota(&BUILDER, 120, Kind::User, 1000, &limits), refused(Refusal::EPERM));
    assert_eq!(session.setquota(&Caller::ROOT, 120, Kind::User, 1000, &limits)?, done(0));
    assert_eq!(session.fill(&BUILDER, 120, "/a", 12288, 4096, 1)?, DoneReply { blocks_charged: 1, ..done(2) });
    let whole = StatReply { ino: 2, size: 16384, blocks: 4, links: 1, uid: 1000, gid: 100, dir: false };
    assert_eq!(session.stat(&BUILDER, 120, "/a")?, whole);

    assert_eq!(session.mkdir(&BUILDER, 120, "/d")?, DoneReply { inodes_charged: 1, ..done(3) });
    assert_eq!(session.link(&BUILDER, 120, "/a", "/d/b")?, done(2));
    assert_eq!(session.rename(&BUILDER, 120, "/a", "/c")?, done(2));
    assert_eq!(session.rmdir(&BUILDER, 120, "/d"), refused(Refusal::ENOTEMPTY));
    assert_eq!(session.chown(&BUILDER, 120, "/c", &NewOwners::new().uid(0)), refused(Refusal::EPERM));
    assert_eq!(session.truncate(&BUILDER, 120, "/c", 5000)?, DoneReply { blocks_released: 2, ..done(2) });
    assert_eq!(session.setgrace(&Caller::ROOT, 120, 5, 5)?, done(0));
    assert_eq!(session.unlink(&BUILDER, 120, "/c")?, done(2));

    assert_eq!(text(session.line("130 1000:100 stat /d/b\n", &mut buffer)?), "stat 2 file 1000 100 5000 2 1\n");
    assert_eq!(session.line("130 nobody stat /d/b\n", &mut buffer), fault(Fault::Line));
    assert_eq!(session.line("130 0:0 stat /\n130 0:0 stat /\n", &mut buffer), fault(Fault::Line));
    assert_eq!(text(session.report(130, &mut buffer)?), REPORT);
    assert_eq!(session.report(130, &mut buffer[..10]), fault(wants_bytes(REPORT.len())));
    assert_eq!(session.audit()?, 0);
    assert_eq!(session.journal(&mut buffer), fault(Fault::NoJournal));
    assert_eq!(session.tally(), fault(Fault::NoJournal));
    session.close();
    Ok(())
}

/// A journaled session in which the builder fills a directory of project 7.
fn filled_project() -> Result<Session, Error> {
    let mut session = Session::open_journaled(&[CONFIG, PROJECTS].concat(), 7)?;
    let mut buffer = [0; 64];
    assert_eq!(session.mkdir(&BUILDER, 0, "/p")?, DoneReply { inodes_charged: 1, ..done(2) });
    assert_eq!(session.chown(&Caller::ROOT, 1, "/p", &NewOwners::new().project(7))?, done(2));
    assert_eq!(session.create(&BUILDER, 2, "/p/a")?, DoneReply { inodes_charged: 1, ..done(3) });
    assert_eq!(session.write(&BUILDER, 3, "/p/a", 0, b"ok")?, DoneReply { blocks_charged: 1, ..done(3) });
    let full = Refusal::EDQUOT(Kind::Project, Over::BlockHard);
    assert_eq!(session.write(&BUILDER, 4, "/p/a", 4096, b"no"), refused(full));
    assert_eq!(text(session.line("5 0:0 quota project 7\n", &mut buffer)?), "quota 1 2 0 4 0 0 - -\n");
    assert_eq!(
        session.line("6 0:0 stat /p\n", &mut buffer[..4]),
        fault(wants_bytes("stat 2 dir 1000 100 0 0 2\n".len()))
    );
    Ok(session)
}

#[test]
fn a_project_is_filled_and_journaled() -> Result<(), Error> {
    let mut session = filled_project()?;
    let mut buffer = [0; 4096];
    assert_eq!(text(session.journal(&mut buffer)?), JOURNAL);
    assert_eq!(session.journal(&mut buffer[..10]), fault(wants_bytes(JOURNAL.len())));
    let tally = TallyReply { blocks_charged: 1, inodes_charged: 2, calls: 6, ..TallyReply::default() };
    assert_eq!(session.tally()?, tally);
    Ok(())
}

#[test]
fn inodes_are_listed() -> Result<(), Error> {
    let mut session = filled_project()?;
    let mut list = [ListedInode::default(); 4];
    let inodes = session.inodes(&mut list)?;
    let told: Vec<_> = inodes.iter().map(|i| (i.ino, i.dir, i.uid, i.gid, i.project(), i.blocks, i.links)).collect();
    let wanted =
        [(1, true, 0, 0, Some(0), 0, 3), (2, true, 1000, 100, Some(7), 0, 2), (3, false, 1000, 100, Some(7), 1, 1)];
    assert_eq!(told, wanted);
    assert_eq!(session.inodes(&mut list[..2]).map(<[_]>::len), fault(Fault::Room { bytes: 0, rows: 3 }));
    Ok(())
}

#[test]
fn names_are_listed_by_directory_and_name() -> Result<(), Error> {
    let mut session = Session::open(CONFIG, 7)?;
    session.mkdir(&BUILDER, 0, "/zone")?;
    session.create(&BUILDER, 0, "/b")?;
    session.mkdir(&BUILDER, 0, "/ab")?;
    session.create(&BUILDER, 0, "/zone/log")?;
    session.link(&BUILDER, 0, "/b", "/ab/bb")?;
    session.create(&BUILDER, 0, "/zone/Log")?;
    let (mut list, mut text) = ([ListedName::default(); 8], [0; 16]);
    let names = session.names(&mut list, &mut text)?;
    let told: Vec<_> = names.iter().map(|name| (name.dir, name.text, name.ino)).collect();
    // The directories are the root 1, zone 2 and ab 4; capitals come first.
    let wanted = [(1, "ab", 4), (1, "b", 3), (1, "zone", 2), (2, "Log", 6), (2, "log", 5), (4, "bb", 3)];
    assert_eq!((names.len(), told.as_slice()), (6, wanted.as_slice()));
    let wants = Fault::Room { bytes: 15, rows: 6 };
    assert_eq!(session.names(&mut list, &mut text[..14]).map(|_| ()), fault(wants));
    assert_eq!(session.names(&mut list[..5], &mut text).map(|_| ()), fault(wants));
    Ok(())
}

#[test]
fn a_caller_has_the_rights_of_its_further_groups() -> Result<(), Error> {
    let mut session = Session::open(CONFIG, 7)?;
    let member = Caller::with_groups(1000, 0, &[100]).unwrap();
    assert_eq!(session.quota(&member, 0, Kind::Group, 100)?.inodes, 0);
    assert_eq!(session.quota(&Caller::new(1000, 0), 0, Kind::Group, 100), refused(Refusal::EPERM));
    Ok(())
}

#[test]
fn an_error_is_told_as_a_text() {
    let errors = [
        (Error::Refused(Refusal::EDQUOT(Kind::Group, Over::InodeSoft)), 37, "refused: EDQUOT group inode-soft"),
        (Error::Fault(wants_bytes(26)), 69, "not called: too little room: 26 bytes, 0 rows are wanted"),
        (Error::Config(ConfigFault::Range), 53, "no configuration: a number out of its range"),
        (Error::Unknown(99), 99, "an unknown number: 99"),
    ];
    for (error, number, text) in errors {
        assert_eq!((error.number(), error.to_string().as_str()), (number, text));
    }
}

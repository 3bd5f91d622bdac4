//! C17 under one test: 14 of 34 faults.

use faultsim::{firsts, release, version, Error, Fault, Job, Kind, Lines, Model};

const C17: &[u8] = b"INPUT(1)\nINPUT(2)\nINPUT(3)\nINPUT(6)\nINPUT(7)\nOUTPUT(22)\nOUTPUT(23)\n\
    10 = NAND(1, 3)\n11 = NAND(3, 6)\n16 = NAND(2, 11)\n19 = NAND(11, 7)\n\
    22 = NAND(10, 16)\n23 = NAND(16, 19)\n";

#[test]
fn one_test_detects_14_of_34() -> Result<(), Error> {
    let mut job = Job::read(Model::StuckAt, C17)?;
    job.set_text(b"11111\n")?;
    assert_eq!(job.faults()?.filter(|it| it.first == Some(0)).count(), 14);
    assert_eq!(job.faults()?.count(), 34);
    assert_eq!(job.coverage()?, (14, 34));
    // Under 11111 NAND(1, 3), signal 5, is 0.
    assert_eq!((job.word(0, 0)? & 1, job.word(0, 5)? & 1), (1, 0));
    assert_eq!((job.source_of(4), job.source_of(5)), (Some(4), None));
    assert!(job.stems_of().iter().all(|stem| *stem < 11));
    let all = firsts(Model::StuckAt, C17, b"11111\n")?;
    assert_eq!(all.iter().filter(|it| it.is_some()).count(), 14);
    assert_eq!(version(), 1);
    let package = env!("CARGO_PKG_VERSION");
    assert!([package, &format!("{package} (unproved)")].contains(&release()));
    assert_eq!(job.fault_name(0)?, "stem 1 sa0");
    assert_eq!(job.fault_name(34), Err(Error::OutOfRange));
    // Under 11111 NAND(10, 16) is 1, and NAND(16, 19) is 0.
    let shown: Vec<u64> = job.responses().iter().map(|it| it & 1).collect();
    assert_eq!(shown, [1, 0]);
    assert_eq!(job.observers().len(), 2);
    assert_eq!(job.report(Lines::None, false)?, "14 of 34 (41.17%)\n");
    assert_eq!(job.report(Lines::All, false)?.lines().count(), 35);
    // One test detects a class once, or not.
    let counts = job.detections(&[0, 1], 5)?;
    let found = job.simulate(&[0, 1])?;
    assert_eq!(
        counts,
        found
            .iter()
            .map(|it| it.is_some() as u32)
            .collect::<Vec<_>>()
    );
    assert_eq!(job.detections(&[1000], 5), Err(Error::OutOfRange));
    Ok(())
}

#[test]
fn words_are_the_same_tests() -> Result<(), Error> {
    let mut job = Job::read(Model::StuckAt, C17)?;
    job.set_words(1, &[1; 5])?;
    assert_eq!(job.faults()?.filter(|it| it.first.is_some()).count(), 14);
    let idle = Fault { kind: 14, place: 4 };
    assert_eq!(Kind::of(idle), Some(Kind::WordsIdle));
    assert_eq!(
        job.set_words(1, &[1, 1, 1, 1, 2]),
        Err(Error::Refused(idle))
    );
    Ok(())
}

#[test]
fn the_pair_over_the_edge_is_kept() -> Result<(), Error> {
    // A buffer: under 0 and then 1 the 1 detects that a line is slow to rise.
    let mut job = Job::read(Model::Transition, b"INPUT(a)\nOUTPUT(z)\nz = BUFF(a)\n")?;
    let rise = job.classes_of()[0];
    job.set_text(b"0\n")?;
    job.next_words(1, &[1])?;
    assert_eq!((job.sizes().tests, job.detecting(rise, 0)?), (2, 0b10));
    job.set_words(1, &[1])?;
    assert_eq!((job.sizes().tests, job.detecting(rise, 0)?), (1, 0));
    Ok(())
}

#[test]
fn two_threads_share_a_job() -> Result<(), Error> {
    let mut job = Job::read(Model::StuckAt, C17)?;
    job.set_text(b"11111\n")?;
    let classes: Vec<u32> = (0..job.sizes().classes).collect();
    let (front, back) = classes.split_at(classes.len() / 2);
    let mut second = job.share()?;
    assert_eq!(job.set_text(b"00000\n"), Err(Error::Shared));
    assert_eq!(second.set_words(1, &[1; 5]), Err(Error::Shared));
    let parts = std::thread::scope(|scope| {
        let other = scope.spawn(move || second.simulate(back));
        let mut all = job.simulate(front)?;
        all.extend(other.join().expect("joined")?);
        Ok::<_, Error>(all)
    })?;
    assert_eq!(parts, job.simulate(&classes)?);
    job.set_text(b"00000\n")
}

#[test]
fn errors_name_the_line() {
    let wrong = Job::read(Model::StuckAt, b"INPUT(a)\nz = AND(a, b)\n").err();
    assert_eq!(wrong, Some(Error::Refused(Fault { kind: 6, place: 2 })));
    let said = wrong.map(|it| it.to_string());
    assert_eq!(said.as_deref(), Some("bench line 2: name not defined"));
    let mut job = Job::read(Model::StuckAt, C17).expect("read");
    let idle = job
        .set_words(1, &[1, 1, 1, 1, 2])
        .expect_err("a bit is idle");
    assert_eq!(
        idle.to_string(),
        "words: source 4 has a bit past the last test"
    );
    assert_eq!(job.simulate(&[1000]), Err(Error::OutOfRange));
    assert_eq!(job.detecting(0, 0), Err(Error::OutOfRange));
    assert_eq!(job.name_of(5), Ok("10".to_string()));
    assert_eq!(job.name_of(11), Err(Error::OutOfRange));
}

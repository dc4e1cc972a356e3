//! Each call of the wrapper, rightly and wrongly.
use tkhost::{play, Alias, Fault, Host, Kind, Rect};

const LEFT: Rect = Rect { x: 0, y: 0, width: 100, height: 50 };
const RIGHT: Rect = Rect { x: 100, ..LEFT };
const GAUGE: &str = "app gauge running 997\nout 5 ready\ntree\nwin . Tk 0 0 100 50 1\ntimers\ndone\n";

#[test]
fn a_gauge_beside_a_runaway() -> Result<(), Fault> {
    let mut host = Host::new(64)?;
    host.add("runaway", LEFT, "while 1 {}", 1000, 0, &[])?;
    host.add("gauge", RIGHT, "after 5 {puts ready}", 1000, 0, &[])?;
    host.start()?;
    let turns = host.turns()?;
    assert_eq!(turns.iter().filter(|turn| turn.slot == 0).map(|turn| turn.steps).sum::<u64>(), 1000);
    host.advance(10)?;
    assert_eq!(String::from_utf8_lossy(&host.section(1)?), GAUGE);
    assert!(host.turns()?.iter().all(|turn| turn.slot == 1));
    assert_eq!(host.asker(), None);
    assert_eq!(host.section(2).unwrap_err().number, 37);
    Ok(())
}

#[test]
fn lines_of_each_kind() -> Result<(), Fault> {
    let mut host = Host::new(1)?;
    let greet = Alias { name: "greet", kind: Kind::Const, config: "hello" };
    host.add("one", LEFT, "button .b -text Go -command {puts [greet]}; pack .b; bind . <Key> {puts %K}", 1000, 5, &[greet])?;
    host.start()?;
    host.move_to(1, 50, 20)?;
    host.press(2, 1)?;
    host.release(3, 1)?;
    host.focus(4, Some(0))?;
    host.keydown(5, "x")?;
    host.keyup(6, "x")?;
    host.focus(7, None)?;
    host.rect(8, 0, RIGHT)?;
    host.line(b"9 focus one")?;
    host.end(10)?;
    let section = String::from_utf8_lossy(&host.section(0)?).into_owned();
    assert!(section.contains("out 3 hello\nout 5 x\n"), "{section}");
    assert_eq!(host.advance(10).unwrap_err().to_string(), "already ended (41)");
    Ok(())
}

#[test]
fn refusals() -> Result<(), Fault> {
    assert_eq!(Host::new(0).unwrap_err().number, 36);
    let mut host = Host::new(64)?;
    assert_eq!(host.advance(0).unwrap_err().to_string(), "not started (68)");
    host.add("one", LEFT, "", 0, 0, &[])?;
    assert_eq!(host.add("one", RIGHT, "", 0, 0, &[]).unwrap_err().number, 39);
    assert_eq!(host.add("two", LEFT, "", 0, 0, &[]).unwrap_err().number, 34);
    host.start()?;
    assert_eq!(host.start().unwrap_err().number, 40);
    assert_eq!(host.line(b"").unwrap_err().number, 36);
    assert_eq!(host.keydown(0, "nokey").unwrap_err().number, 36);
    Ok(())
}

#[test]
fn a_refused_application_leaves_no_alias() -> Result<(), Fault> {
    let mut host = Host::new(64)?;
    let (greet, bad) = (Alias { name: "greet", kind: Kind::Const, config: "hello" }, Alias { name: ".bad", kind: Kind::Const, config: "" });
    assert_eq!(host.add("one", LEFT, "", 9, 0, &[greet, bad]).unwrap_err().number, 36);
    assert_eq!(host.add("", LEFT, "", 9, 0, &[greet]).unwrap_err().number, 36);
    host.add("one", LEFT, "greet", 9, 0, &[])?;
    host.start()?;
    let section = String::from_utf8_lossy(&host.section(0)?).into_owned();
    assert!(section.contains("err 0 invalid command name \"greet\"\n"), "{section}");
    Ok(())
}

#[test]
fn whole_sessions() {
    let session = b"tkhost 1\napp gauge 0 0 100 50 1000\nscript 1\nafter 5 {puts ready}\nevents\n10 end\n";
    assert_eq!(String::from_utf8_lossy(&play(session, 64).unwrap()), GAUGE);
    assert_eq!(play(b"tkhost 1\nevents\n", 64), Err(Fault { number: 36, line: Some(3) }));
    assert_eq!(play(b"", 64).unwrap_err().to_string(), "bad line, or value outside its range (36) at line 1");
}

#[test]
fn a_host_goes_to_another_thread() {
    let mut host = Host::new(64).unwrap();
    host.add("gauge", LEFT, "after 5 {puts ready}", 1000, 0, &[]).unwrap();
    let section = std::thread::spawn(move || {
        host.start().unwrap();
        host.advance(10).unwrap();
        host.section(0).unwrap()
    });
    assert_eq!(String::from_utf8_lossy(&section.join().unwrap()), GAUGE);
}

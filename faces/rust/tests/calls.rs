//! Makes each call at least once, and as it shouldn't be made.

use fazhundel::{
    BadAddress, BadNumber, Block, Change, Error, Fault, Kind, Link, Name, Number, Options, Place,
    Refusal, Rule, Value, Workbook,
};

const TODAY: i32 = 45_292;

// A workbook with one sheet, number 0.
fn opened() -> Workbook {
    let mut book = Options::new().today(TODAY).open().unwrap();
    assert_eq!(book.add_sheet("Plan"), Ok(0));
    book
}

fn at(address: &str) -> Place {
    Place::read(0, address).unwrap()
}

fn over(address: &str) -> Block {
    Block::read(0, address).unwrap()
}

fn refused<T>(refusal: Refusal) -> Result<T, Error> {
    Err(Error::Refused(refusal))
}

fn number(text: &str) -> Value {
    Value::Number(text.parse().unwrap())
}

fn named(scope: Option<u32>, word: &str) -> Name {
    Name {
        scope,
        word: word.to_owned(),
    }
}

// A place and a block of a sheet that there isn't, and a block that there isn't.
const GONE: Place = Place::new(9, 0, 0);
const GONE_AREA: Block = Block::new(9, 0, 0, 5, 5);
const NO_AREA: Block = Block::new(0, 3, 0, 2, 0);

#[track_caller]
fn reads(book: &Workbook, address: &str, formula: &str) {
    assert_eq!(book.formula(at(address)).unwrap().as_deref(), Some(formula));
}

#[track_caller]
fn shows(book: &Workbook, address: &str, text: &str) {
    assert_eq!(book.value_text(at(address)).unwrap(), text);
    assert_eq!(book.value(at(address)).unwrap().to_string(), text);
}

#[test]
fn cells_and_values() {
    let mut book = opened();
    for (address, text) in [
        ("A1", "-1.5"),
        ("B1", "=A1<0"),
        ("C1", "=1/0"),
        ("D1", "h\u{fc}te"),
        ("E1", "=Z9"),
    ] {
        book.set(at(address), text).unwrap();
    }
    assert_eq!(book.value(at("A1")), Ok(number("-1.5")));
    assert_eq!(book.value(at("B1")), Ok(Value::Truth(true)));
    assert_eq!(book.value(at("C1")), Ok(Value::Fault(Fault::Div0)));
    assert_eq!(book.value(at("D1")), Ok(Value::Text("h\u{fc}te".into())));
    assert_eq!(book.value(at("J10")), Ok(Value::Empty));
    shows(&book, "A1", "-1.5");
    shows(&book, "B1", "TRUE");
    shows(&book, "C1", "#DIV/0!");
    shows(&book, "D1", "h\u{fc}te");
    reads(&book, "B1", "=A1<0");
    assert_eq!(book.formula(at("A1")), Ok(None));
    assert_eq!(book.content(at("C1")).as_deref(), Ok("=1/0"));
    book.clear(over("A1:D1")).unwrap();
    shows(&book, "D1", "");
}

#[test]
fn contents_are_given() {
    let mut book = opened();
    let given = |text: &str| text.parse::<Number>().unwrap();
    for text in ["-1.5", "999999999999.999999", "-999999999999.999999"] {
        book.set_number(at("A1"), given(text)).unwrap();
        shows(&book, "A1", text);
        assert_eq!(book.kind(at("A1")), Ok(Kind::Number));
    }
    book.undo().unwrap();
    shows(&book, "A1", "999999999999.999999");
    for truth in [true, false] {
        book.set_truth(at("A2"), truth).unwrap();
        assert_eq!(book.value(at("A2")), Ok(Value::Truth(truth)));
        assert_eq!(book.kind(at("A2")), Ok(Kind::Truth));
    }
    for (text, content) in [
        ("tax", "tax"),
        ("007", "'007"),
        ("true", "'true"),
        ("=A1", "'=A1"),
        ("'tis", "''tis"),
        ("", "'"),
    ] {
        book.set_text(at("A3"), text).unwrap();
        assert_eq!(book.value(at("A3")), Ok(Value::Text(text.into())));
        assert_eq!(book.content(at("A3")).as_deref(), Ok(content));
        assert_eq!(book.kind(at("A3")), Ok(Kind::Text));
    }
    let long = "=".repeat(8_192);
    assert_eq!(book.set_text(at("A3"), &long), refused(Refusal::TextLimit));
    book.set_text(at("A3"), &long[1..]).unwrap();
    assert_eq!(book.value_text(at("A3")).as_deref(), Ok(&long[1..]));
    let outside = Place::new(0, 1_048_576, 0);
    assert_eq!(book.set_number(GONE, given("1")), refused(Refusal::NoSheet));
    assert_eq!(book.set_truth(outside, true), refused(Refusal::Outside));
    assert_eq!(book.set_text(GONE, "x"), refused(Refusal::NoSheet));
}

#[test]
fn many_cells_are_written_at_once() {
    let mut book = opened();
    book.write_all(&[(at("B2"), "=A1*2"), (at("A1"), "7"), (at("A2"), "plain")])
        .unwrap();
    assert_eq!(book.value_text(at("B2")).as_deref(), Ok("14"));
    let twice = [(at("A1"), "1"), (at("A1"), "2")];
    assert_eq!(book.write_all(&twice), Err(Error::BadCells));
    let gone = [(at("A1"), "1"), (GONE, "2")];
    assert_eq!(book.write_all(&gone), refused(Refusal::NoSheet));
    assert_eq!(book.value_text(at("B2")).as_deref(), Ok("14"));
    book.undo().unwrap();
    assert_eq!(book.used_area(0), Ok(None));
    book.write_all::<String>(&[]).unwrap();
}

#[test]
fn causes_are_told_beforehand() {
    let mut book = opened();
    let area = Block::new(0, 0, 0, 1, 1);
    for (change, cause) in [
        (Change::Set(at("A1"), "=A1"), None),
        (Change::Set(GONE, ""), Some(Refusal::NoSheet)),
        (Change::Clear(area), None),
        (Change::InsertRows(0, 0, 0), Some(Refusal::BadSpan)),
        (Change::DeleteRows(0, 1_048_576, 1), Some(Refusal::Outside)),
        (Change::MoveRows(0, 0, 2, 1), Some(Refusal::BadSpan)),
        (Change::MoveRows(0, 0, 2, 3), None),
        (Change::InsertCols(0, 0, 1), None),
        (Change::DeleteCols(0, 0, 0), Some(Refusal::BadSpan)),
        (Change::MoveCols(0, 0, 2, 1), Some(Refusal::BadSpan)),
        (
            Change::MoveBlock(area, Place::new(0, 1_048_575, 0)),
            Some(Refusal::Outside),
        ),
        (Change::MoveBlock(area, Place::new(0, 5, 5)), None),
        (Change::DropSheet(9), Some(Refusal::NoSheet)),
        (Change::AddSheet(""), Some(Refusal::SheetNameInvalid)),
        (Change::RenameSheet(9, "x"), Some(Refusal::NoSheet)),
        (Change::ClearSheet(0), None),
        (
            Change::AddName("rate", None, "=A1"),
            Some(Refusal::RelativeAddress),
        ),
        (Change::AddName("rate", Some(0), "=$A$1"), None),
        (
            Change::ChangeName("rate", None, "=1"),
            Some(Refusal::NoSuchName),
        ),
        (
            Change::RemoveName("rate", Some(0)),
            Some(Refusal::NoSuchName),
        ),
        (Change::Copy(area), None),
        (
            Change::Cut(Block::new(0, 1, 0, 0, 0)),
            Some(Refusal::Outside),
        ),
        (Change::Paste(at("A1")), Some(Refusal::NothingToPaste)),
        (Change::Begin, None),
        (Change::Commit, Some(Refusal::NoBatch)),
        (Change::Undo, None),
        (Change::Redo, Some(Refusal::NothingToRedo)),
    ] {
        assert_eq!(book.cause(change), Ok(cause), "{change:?}");
    }
    book.undo().unwrap();
    assert_eq!(book.cause(Change::Redo), Ok(None));
}

#[test]
fn filled_cells_are_listed() {
    let mut book = opened();
    assert_eq!(book.used_area(0), Ok(None));
    assert_eq!(book.filled_in(0), Ok(vec![]));
    for (address, text) in [
        ("B2", "7"),
        ("A3", "=Z9"),
        ("C2", "x"),
        ("D2", "'=2"),
        ("A4", "=1/0"),
    ] {
        book.set(at(address), text).unwrap();
    }
    let shown = vec![
        (at("B2"), number("7")),
        (at("C2"), Value::Text("x".into())),
        (at("A3"), Value::Empty),
    ];
    assert_eq!(book.values(over("A1:C3")), Ok(shown));
    let contents = ["7", "x", "'=2", "=Z9", "=1/0"].map(str::to_owned);
    let places = ["B2", "C2", "D2", "A3", "A4"].map(at);
    let held = places.into_iter().zip(contents).collect();
    assert_eq!(book.contents(over("A1:D9")), Ok(held));
    assert_eq!(
        book.filled(over("A1:C3")).unwrap(),
        ["B2", "C2", "A3"].map(at)
    );
    assert_eq!(book.filled_in(0).unwrap(), places);
    assert_eq!(book.used_area(0), Ok(Some(over("A2:D4"))));
    assert_eq!(book.values(over("F1:G9")), Ok(vec![]));
    book.add_sheet("Two").unwrap();
    assert_eq!(
        (book.used_area(1), book.filled_in(1)),
        (Ok(None), Ok(vec![]))
    );
}

#[test]
fn areas_are_refused() {
    let mut book = opened();
    book.set(at("A1"), "=1").unwrap();
    assert_eq!(book.values(GONE_AREA), refused(Refusal::NoSheet));
    assert_eq!(book.contents(GONE_AREA), refused(Refusal::NoSheet));
    assert_eq!(book.filled(GONE_AREA), refused(Refusal::NoSheet));
    assert_eq!(book.filled_in(9), refused(Refusal::NoSheet));
    assert_eq!(book.used_area(9), refused(Refusal::NoSheet));
    assert_eq!(book.kind(GONE), refused(Refusal::NoSheet));
    assert_eq!(book.values(NO_AREA), refused(Refusal::Outside));
    assert_eq!(book.contents(NO_AREA), refused(Refusal::Outside));
    assert_eq!(book.filled(NO_AREA), refused(Refusal::Outside));
    assert_eq!(
        book.kind(Place::new(0, 0, 18_278)),
        refused(Refusal::Outside)
    );
    book.suspend().unwrap();
    assert_eq!(book.values(over("A1:C3")), refused(Refusal::Suspended));
    let held = vec![(at("A1"), "=1".to_owned())];
    assert_eq!(book.contents(over("A1:C3")), Ok(held));
}

#[test]
fn kinds_are_told() {
    let mut book = opened();
    for (text, kind) in [
        ("1", Kind::Number),
        ("x", Kind::Text),
        ("true", Kind::Truth),
        ("=1", Kind::Formula),
        ("=1+", Kind::Unreadable),
        ("", Kind::Empty),
    ] {
        book.set(at("A1"), text).unwrap();
        assert_eq!(book.kind(at("A1")), Ok(kind));
    }
}

#[test]
fn cycles_are_listed() {
    let mut book = opened();
    assert_eq!(book.on_cycle(0), Ok(vec![]));
    for (address, text) in [
        ("A1", "=B1+1"),
        ("B1", "=A1"),
        ("C1", "=A1"),
        ("B3", "=SUM(B3:B4)"),
    ] {
        book.set(at(address), text).unwrap();
    }
    assert_eq!(book.on_cycle(0).unwrap(), ["A1", "B1", "B3"].map(at));
    shows(&book, "C1", "#CYCLE!");
    book.suspend().unwrap();
    book.set(at("B1"), "1").unwrap();
    assert_eq!(book.on_cycle(0).unwrap(), [at("B3")]);
    assert_eq!(book.on_cycle(9), refused(Refusal::NoSheet));
}

// Answers that have no place in the room of a first try come whole.
#[test]
fn long_answers_come_whole() {
    let mut book = opened();
    let long = "long \u{fc} ".repeat(1_000);
    book.set(at("A1"), &long).unwrap();
    assert_eq!(book.value(at("A1")), Ok(Value::Text(long.clone())));
    assert_eq!(book.value_text(at("A1")), Ok(long.clone()));
    assert_eq!(book.content(at("A1")), Ok(long.clone()));
    for length in [255, 256, 257] {
        let text = "x".repeat(length);
        book.set(at("A2"), &text).unwrap();
        assert_eq!(book.value_text(at("A2")), Ok(text));
    }
    let sum = (1..=100).map(|row| format!("B{row}"));
    let sum = format!("={}", sum.collect::<Vec<_>>().join("&"));
    let nested = format!("=CONCATENATE({})", &sum[1..].replace('&', ","));
    book.set(at("C1"), &nested).unwrap();
    assert_eq!(book.precedents(at("C1")).unwrap().len(), 100);
    assert_eq!(book.formula(at("C1")), Ok(Some(nested)));
    for row in 2..=40 {
        let at = Place::new(0, row, 3);
        book.set(at, "=A1").unwrap();
        let word = format!("name_{}_{row}", "w".repeat(20));
        book.add_name(&word, None, "=Plan!$A$1").unwrap();
    }
    let links = book.dependents(at("A1")).unwrap();
    assert_eq!(links.len(), 78);
    let is_name = |name: &Name| name.scope.is_none() && name.word.starts_with("NAME_W");
    assert!(matches!(&links[77], Link::Name(name) if is_name(name)));
    let names = book.names().unwrap();
    assert!(names.len() == 39 && names.iter().all(is_name));
    assert_eq!(book.filled_in(0).unwrap().len(), 42);
    let listed = book.values(over("A1:D41")).unwrap();
    assert_eq!(listed[0], (at("A1"), Value::Text(long.clone())));
    assert_eq!(listed[41], (at("D41"), Value::Text(long.clone())));
    let listed = book.contents(over("A1:D41")).unwrap();
    assert_eq!((listed.len(), &listed[0].1), (42, &long));
    assert_eq!(listed[41], (at("D41"), "=A1".to_owned()));
    let sum = names.iter().map(|name| name.word.as_str());
    let sum = format!("={}", sum.collect::<Vec<_>>().join("+"));
    assert_eq!(book.names_in(0, &sum).unwrap().len(), 39);
    assert_eq!(book.normal_text(0, &sum), Ok(sum.clone()));
    book.add_name("total", None, &sum).unwrap();
    assert_eq!(book.name_text("TOTAL", None), Ok(sum));
    book.rename_sheet(0, &"n".repeat(100)).unwrap();
    assert_eq!(book.sheet_name(0).unwrap().len(), 100);
    assert_eq!(
        book.set(at("A1"), &"x".repeat(8_193)),
        refused(Refusal::TextLimit)
    );
    assert_eq!(book.value_text(at("A1")), Ok(long));
}

#[test]
fn formulas_follow() {
    let mut book = opened();
    book.set(at("A1"), "=B5+B9").unwrap();
    book.insert_rows(0, 2, 2).unwrap();
    reads(&book, "A1", "=B7+B11");
    book.delete_rows(0, 10, 1).unwrap();
    reads(&book, "A1", "=B7+#REF!");
    book.move_rows(0, 6, 1, 3).unwrap();
    reads(&book, "A1", "=B4+#REF!");
    book.insert_cols(0, 1, 1).unwrap();
    reads(&book, "A1", "=C4+#REF!");
    book.move_cols(0, 2, 1, 5).unwrap();
    reads(&book, "A1", "=E4+#REF!");
    book.delete_cols(0, 1, 1).unwrap();
    reads(&book, "A1", "=D4+#REF!");
    book.move_block(at("A1").into(), at("F6")).unwrap();
    reads(&book, "F6", "=D4+#REF!");
    assert_eq!(book.insert_rows(0, 0, 0), refused(Refusal::BadSpan));
    assert_eq!(book.insert_rows(3, 0, 1), refused(Refusal::NoSheet));
    assert_eq!(
        book.set(Place::new(0, 1_048_576, 0), "1"),
        refused(Refusal::Outside)
    );
    assert_eq!(
        book.clear(Block::new(0, 3, 0, 2, 0)),
        refused(Refusal::Outside)
    );
}

#[test]
fn sheets() {
    let mut book = opened();
    assert_eq!(book.add_sheet("plan"), refused(Refusal::SheetNameTaken));
    assert_eq!(book.add_sheet(""), refused(Refusal::SheetNameInvalid));
    assert_eq!(book.add_sheet("Two"), Ok(1));
    assert_eq!(
        (book.sheet_count(), book.sheet_at(1), book.sheet_at(2)),
        (2, Some(1), None)
    );
    book.rename_sheet(1, "Zwei").unwrap();
    assert_eq!(
        (book.sheet_id("ZWEI"), book.sheet_id("Two")),
        (Some(1), None)
    );
    assert_eq!(book.sheet_name(1).as_deref(), Ok("Zwei"));
    assert_eq!(book.sheet_name(5), refused(Refusal::NoSheet));
    book.set(at("A1"), "3").unwrap();
    book.clear_sheet(0).unwrap();
    shows(&book, "A1", "");
    book.drop_sheet(0).unwrap();
    assert_eq!(book.sheets(), [1]);
    assert_eq!(format!("{book:?}"), "Workbook { sheets: [1], .. }");
}

#[test]
fn names() {
    let mut book = opened();
    book.add_sheet("Two").unwrap();
    book.add_name("rate", None, "=Plan!$A$1").unwrap();
    book.add_name("rate", Some(1), "=2").unwrap();
    book.set(at("A1"), "3").unwrap();
    assert_eq!(book.name_value("RATE", 0), Ok(number("3")));
    assert_eq!(book.name_value("rate", 1), Ok(number("2")));
    book.change_name("rate", Some(1), "=4").unwrap();
    assert_eq!(book.name_value("rate", 1), Ok(number("4")));
    book.remove_name("rate", Some(1)).unwrap();
    assert_eq!(
        book.remove_name("rate", Some(1)),
        refused(Refusal::NoSuchName)
    );
    assert_eq!(book.try_formula(1, "=rate*2"), Ok(number("6")));
    assert_eq!(book.try_formula(1, "rate"), refused(Refusal::BadFormula));
    // The number that stands for the whole workbook in C is that of no sheet.
    assert_eq!(
        book.remove_name("rate", Some(u32::MAX)),
        refused(Refusal::NoSheet)
    );
    // A word and a text in the same memory.
    assert_eq!(
        book.add_name("=2", None, "=2"),
        refused(Refusal::NameInvalid)
    );
    assert_eq!(
        book.change_name("rate", None, "rate"),
        refused(Refusal::BadFormula)
    );
}

#[test]
fn names_are_listed() {
    let mut book = opened();
    assert_eq!(book.names(), Ok(vec![]));
    book.add_name("rate", Some(0), "=0.50*(2)").unwrap();
    book.add_name("to", None, "=2").unwrap();
    let names = vec![named(None, "TO"), named(Some(0), "RATE")];
    assert_eq!(book.names(), Ok(names));
    assert_eq!(book.name_text("RATE", Some(0)).as_deref(), Ok("=0.5*(2)"));
    assert_eq!(book.name_text("to", None).as_deref(), Ok("=2"));
    assert_eq!(book.name_text("to", Some(0)), refused(Refusal::NoSuchName));
    assert_eq!(book.name_text("to", Some(9)), refused(Refusal::NoSheet));
    assert_eq!(
        book.name_text("to", Some(u32::MAX)),
        refused(Refusal::NoSheet)
    );
}

#[test]
fn texts_of_formulas_are_read() {
    let book = opened();
    assert_eq!(
        book.normal_text(0, "= sum( a1 )").as_deref(),
        Ok("=SUM(A1)")
    );
    assert_eq!(book.names_in(0, "=ab+rate*AB").unwrap(), ["AB", "RATE"]);
    assert_eq!(book.names_in(0, "=1"), Ok(vec![]));
    assert_eq!(book.normal_text(0, "sum"), refused(Refusal::BadFormula));
    for (text, part) in [
        ("=1+", 3..3),
        ("=1 two", 3..6),
        ("=\"hüte", 1..7),
        ("sum", 0..3),
        ("=)", 1..2),
    ] {
        assert_eq!(book.parse_error(0, text), Ok(Some(part)), "{text}");
    }
    assert_eq!(book.parse_error(0, "=A1&\"hüte\""), Ok(None));
    assert_eq!(book.parse_error(9, "=1"), refused(Refusal::NoSheet));
    assert_eq!(book.names_in(0, "=ab+"), refused(Refusal::BadFormula));
    assert_eq!(book.normal_text(9, "=1"), refused(Refusal::NoSheet));
    assert_eq!(book.names_in(9, "=ab"), refused(Refusal::NoSheet));
}

#[test]
fn the_history_is_cleared() {
    let mut book = opened();
    book.set(at("A1"), "1").unwrap();
    book.set(at("A1"), "2").unwrap();
    book.undo().unwrap();
    assert!(book.can_undo() && book.can_redo());
    book.clear_history().unwrap();
    assert!(!book.can_undo() && !book.can_redo());
    assert_eq!(book.undo(), refused(Refusal::NothingToUndo));
    assert_eq!(book.redo(), refused(Refusal::NothingToRedo));
    book.begin().unwrap();
    book.set(at("A1"), "3").unwrap();
    book.clear_history().unwrap();
    book.commit().unwrap();
    shows(&book, "A1", "3");
    book.undo().unwrap();
    shows(&book, "A1", "1");
    assert!(!book.can_undo());
}

#[test]
fn idle_time_is_spent() {
    let mut book = opened();
    book.set(at("A10"), "=B9").unwrap();
    assert_eq!(book.settle_idle(0), Ok(true));
    book.insert_rows(0, 0, 1).unwrap();
    book.insert_rows(0, 0, 2).unwrap();
    assert_eq!(book.settle_idle(1), Ok(false));
    assert_eq!(book.settle_idle(u64::MAX), Ok(true));
    assert_eq!(book.settle_idle(0), Ok(true));
    reads(&book, "A13", "=B12");
}

#[test]
fn steps_and_batches() {
    let mut book = opened();
    book.begin().unwrap();
    assert!(book.has_batch());
    assert_eq!(book.begin(), refused(Refusal::BatchOpen));
    book.set(at("A1"), "1").unwrap();
    book.set(at("B1"), "2").unwrap();
    assert!(!book.can_undo());
    assert_eq!(book.value(at("A1")), refused(Refusal::Suspended));
    book.commit().unwrap();
    assert!(!book.has_batch());
    assert_eq!(book.commit(), refused(Refusal::NoBatch));
    assert!(book.can_undo() && !book.can_redo());
    book.undo().unwrap();
    shows(&book, "A1", "");
    shows(&book, "B1", "");
    assert!(book.can_redo());
    book.redo().unwrap();
    shows(&book, "B1", "2");
    assert_eq!(book.redo(), refused(Refusal::NothingToRedo));
    book.suspend().unwrap();
    assert!(book.is_suspended());
    assert_eq!(book.value(at("A1")), refused(Refusal::Suspended));
    book.resume().unwrap();
    assert!(!book.is_suspended());
    shows(&book, "A1", "1");
}

#[test]
fn batches_of_closures() {
    let mut book = opened();
    let two = book.batch(|book| {
        book.set(at("A1"), "1")?;
        book.set(at("B1"), "2")?;
        Ok::<_, Error>(2)
    });
    assert_eq!((two, book.has_batch()), (Ok(2), false));
    // What came before an error stays, as one step.
    let failed = book.batch(|book| {
        book.set(at("A1"), "3")?;
        book.insert_rows(0, 0, 0)
    });
    assert_eq!(
        (failed, book.has_batch()),
        (refused(Refusal::BadSpan), false)
    );
    shows(&book, "A1", "3");
    book.undo().unwrap();
    shows(&book, "A1", "1");
    let inner = book.batch(|book| book.batch(|_| Ok::<_, Error>(())));
    assert_eq!(
        (inner, book.has_batch()),
        (refused(Refusal::BatchOpen), false)
    );
    let committed = book.batch(Workbook::commit);
    assert_eq!(committed, refused(Refusal::NoBatch));
    let seen = book.suspended(|book| Ok::<_, Error>(book.is_suspended()));
    assert_eq!((seen, book.is_suspended()), (Ok(true), false));
}

#[test]
fn a_batch_ends_where_its_closure_unwinds() {
    let mut book = opened();
    let unwound = std::panic::catch_unwind(std::panic::AssertUnwindSafe(|| {
        book.batch(|book| -> Result<(), Error> {
            book.set(at("A1"), "1")?;
            std::panic::resume_unwind(Box::new("meant"))
        })
    }));
    assert!(unwound.is_err() && !book.has_batch());
    shows(&book, "A1", "1");
}

#[test]
fn blocks_are_pasted() {
    let mut book = opened();
    book.set(at("A1"), "=B1").unwrap();
    assert!(book.is_clipboard_empty());
    book.copy(at("A1").into()).unwrap();
    assert!(!book.is_clipboard_empty());
    book.paste(at("B2")).unwrap();
    reads(&book, "B2", "=C2");
    book.cut(over("A1:A1")).unwrap();
    book.paste(at("A3")).unwrap();
    reads(&book, "A3", "=B1");
    assert_eq!(book.formula(at("A1")), Ok(None));
    assert_eq!(book.paste(at("A5")), refused(Refusal::NothingToPaste));
    book.copy(over("A3:B3")).unwrap();
    book.clear_clipboard().unwrap();
    assert!(book.is_clipboard_empty());
    assert_eq!(book.paste(at("A5")), refused(Refusal::NothingToPaste));
    book.clear_clipboard().unwrap();
}

#[test]
fn links_are_listed() {
    let mut book = opened();
    let rate = Link::Name(named(None, "RATE"));
    book.add_name("rate", None, "=Plan!$A$1").unwrap();
    book.set(at("A3"), "=SUM(A1:B1)+A1+rate").unwrap();
    let needed = vec![
        Link::Block(over("A1:B1")),
        Link::Cell(at("A1")),
        rate.clone(),
    ];
    assert_eq!(book.precedents(at("A3")), Ok(needed));
    assert_eq!(
        book.dependents(at("A1")),
        Ok(vec![Link::Cell(at("A3")), rate])
    );
    assert_eq!(book.dependents(at("J10")), Ok(vec![]));
    book.add_name("own", Some(0), "=$A$1").unwrap();
    let own = Link::Name(named(Some(0), "OWN"));
    assert_eq!(book.dependents(at("A1")).unwrap()[2], own);
    assert_eq!(
        book.precedents(Place::new(0, 0, 18_278)),
        refused(Refusal::Outside)
    );
}

fn pairs(pairs: [(&str, &str); 2]) -> Vec<(Number, Number)> {
    pairs
        .map(|(from, gives)| (from.parse().unwrap(), gives.parse().unwrap()))
        .to_vec()
}

#[test]
fn rules_are_called() {
    let post = Rule::Bands(pairs([("0", "1.5"), ("0.5", "2.75")]));
    let tax = Rule::Tiers(pairs([("0", "0.1"), ("1000", "0.2")]));
    let options = Options::new().rule("POST", post.clone()).rule("TAX", tax);
    let mut book = options.open().unwrap();
    book.add_sheet("Plan").unwrap();
    for (text, shown) in [
        ("=Post(0.5)", "2.75"),
        ("=POST(-1)", "#N/A"),
        ("=tax(2000)", "300"),
    ] {
        book.set(at("A1"), text).unwrap();
        shows(&book, "A1", shown);
    }
    let bad = |options: Options| assert_eq!(options.open().err(), Some(Error::BadTable));
    bad(options.rule("post", post.clone()));
    bad(Options::new().rule("SUM", post.clone()));
    bad(Options::new().rule("", post));
    bad(Options::new().rule("TAX", Rule::Bands(vec![])));
    bad(Options::new().rule("TAX", Rule::Tiers(pairs([("1", "1"), ("2", "1")]))));
    bad(Options::new().rule("TAX", Rule::Bands(pairs([("2", "1"), ("2", "1")]))));
}

#[test]
fn books_are_opened_and_closed() {
    assert_eq!(
        Options::default().undo_limit(1_001).open().err(),
        Some(Error::BadLimit)
    );
    let mut book = Options::new().undo_limit(0).open().unwrap();
    book.add_sheet("Plan").unwrap();
    assert_eq!(book.undo(), refused(Refusal::NothingToUndo));
    book.set(at("A1"), "=TODAY()").unwrap();
    let other = opened();
    let mut moved = Box::new(book);
    moved.set(at("A2"), "1").unwrap();
    other.close();
    let today = moved.value(at("A1")).unwrap();
    assert!(matches!(today, Value::Number(day) if day > Number::from(46_000)));
    moved.close();
}

#[test]
fn threads_have_workbooks_of_their_own() {
    let threads = (0..3).map(|i| {
        std::thread::spawn(move || {
            let mut book = opened();
            book.set(at("A1"), &format!("=2*{i}")).unwrap();
            book.value_text(at("A1")).unwrap()
        })
    });
    let threads: Vec<_> = threads.collect();
    let shown: Vec<_> = threads
        .into_iter()
        .map(|thread| thread.join().unwrap())
        .collect();
    assert_eq!(shown, ["0", "2", "4"]);
}

#[test]
fn errors_say_what_they_are() {
    for (index, refusal) in Refusal::ALL.into_iter().enumerate() {
        assert_eq!(usize::from(refusal.number()), index + 1);
        assert_eq!(Refusal::numbered(refusal.number()), Some(refusal));
        assert_eq!(refusal.name(), format!("{refusal:?}"));
        assert_eq!(Error::from(refusal).status(), refusal.number());
        assert_eq!(Error::from(refusal).refusal(), Some(refusal));
    }
    assert_eq!((Refusal::numbered(0), Refusal::numbered(21)), (None, None));
    let error: Box<dyn std::error::Error> = Box::new(Error::from(Refusal::NoBatch));
    assert_eq!(error.to_string(), "NoBatch (16): no batch is open");
    assert_eq!(
        (Error::BadLimit.status(), Error::NoMemory.refusal()),
        (68, None)
    );
}

#[test]
fn numbers_are_read_and_printed() {
    for (text, millionths) in [
        ("0", 0),
        ("-3", -3_000_000),
        (".5", 500_000),
        ("7.", 7_000_000),
        ("+0001.250", 1_250_000),
        ("0.0000005", 1),
        ("-0.0000005", -1),
        ("0.00000049", 0),
        ("0.9999999", 1_000_000),
        ("999999999999.999999", 999_999_999_999_999_999),
    ] {
        assert_eq!(
            text.parse::<Number>().map(Number::millionths),
            Ok(millionths),
            "{text}"
        );
    }
    for text in [
        "",
        ".",
        "-",
        "+-1",
        "1e3",
        "1 ",
        "1.2.3",
        "1_0",
        "1000000000000",
        "999999999999.9999995",
    ] {
        assert_eq!(text.parse::<Number>(), Err(BadNumber), "{text}");
    }
    for (millionths, text) in [
        (0, "0"),
        (-500_000, "-0.5"),
        (1_250_000, "1.25"),
        (100_000_000, "100"),
        (-1, "-0.000001"),
    ] {
        assert_eq!(
            Number::from_millionths(millionths).unwrap().to_string(),
            text
        );
    }
    assert_eq!(
        format!("{:>6}|{:<6}|", Number::from(-3), Value::Truth(true)),
        "    -3|TRUE  |"
    );
    assert_eq!(i64::try_from(Number::from(381_u32)), Ok(381));
    assert_eq!(
        i64::try_from(Number::from_millionths(1).unwrap()),
        Err(BadNumber)
    );
    assert_eq!(
        Number::try_from(-999_999_999_999_i64).unwrap().to_string(),
        "-999999999999"
    );
    for whole in [1_000_000_000_000, i64::MAX, i64::MIN] {
        assert_eq!(Number::try_from(whole), Err(BadNumber));
    }
    assert_eq!(Number::from_millionths(i64::MIN), Err(BadNumber));
    assert!(Number::from(-1) < Number::default());
}

#[test]
fn addresses_are_read_and_printed() {
    for (address, row, col) in [
        ("A1", 0, 0),
        ("Z9", 8, 25),
        ("AA10", 9, 26),
        ("ZZZ1048576", 1_048_575, 18_277),
    ] {
        let at = Place::new(3, row, col);
        assert_eq!(Place::read(3, address), Ok(at));
        assert_eq!(at.address(), address);
    }
    assert_eq!(Place::read(0, "ab12"), Ok(Place::new(0, 11, 27)));
    for text in [
        "",
        "A",
        "1",
        "A0",
        "A01",
        "AAAA1",
        "A12345678",
        "$A$1",
        "A1 ",
        "\u{c4}1",
        "A1:B2",
        "Plan!A1",
    ] {
        assert_eq!(Place::read(0, text), Err(BadAddress), "{text}");
    }
    assert_eq!(Block::read(0, "B5:A1"), Block::read(0, "A1:B5"));
    assert_eq!(Block::read(0, "A5:B1"), Ok(Block::new(0, 0, 0, 4, 1)));
    assert_eq!(Block::read(0, "C3"), Ok(Place::new(0, 2, 2).into()));
    assert_eq!(over("A1:B5").address(), "A1:B5");
    for text in ["", ":", "A1:", ":A1", "A1:B2:C3"] {
        assert_eq!(Block::read(0, text), Err(BadAddress), "{text}");
    }
    assert_eq!(
        Place::new(0, u32::MAX, u32::MAX).address(),
        "MWLQKWV4294967296"
    );
}

//! Answers a script on standard input through the crate, as `sheetrun` does: `faces/scripts.py` compares the two.

use fazhundel::{
    Block, Error, Fault, Kind, Link, Name, Number, Options, Place, Rule, Value, Workbook,
};
use std::error;
use std::io::{self, BufWriter, Read, Write};

// The number of a sheet that is gone: no sheet has it.
const GONE: u32 = 1_024;

type Answer<T> = Result<T, Box<dyn error::Error>>;

fn main() -> Answer<()> {
    let mut script = String::new();
    io::stdin().read_to_string(&mut script)?;
    let mut out = BufWriter::new(io::stdout().lock());
    let mut book = opened()?;
    for record in records(&script) {
        let fields: Vec<&str> = record.iter().map(String::as_str).collect();
        writeln!(out, "{}", reply(&mut book, &fields)?)?;
    }
    left(&mut book)?;
    Ok(out.flush()?)
}

// A workbook with the custom functions of sheetrun and its first sheet.
fn opened() -> Answer<Workbook> {
    let pairs = |text: &str| -> Answer<Vec<_>> {
        let halves = text.split(' ').filter_map(|pair| pair.split_once('='));
        halves
            .map(|(from, gives)| Ok((from.parse()?, gives.parse()?)))
            .collect()
    };
    let mut book = Options::new()
        .rule(
            "POSTAGE",
            Rule::Bands(pairs("0=1.5 0.5=2.75 2=5.4 10=9.9")?),
        )
        .rule("LEVY", Rule::Tiers(pairs("0=0.1 1000=0.2 5000=0.25")?))
        .open()?;
    book.add_sheet("Sheet1")?;
    Ok(book)
}

// The records of a script, as fields.
fn records(script: &str) -> Vec<Vec<String>> {
    let (mut records, mut fields, mut field) = (Vec::new(), Vec::new(), String::new());
    let mut is_quoted = false;
    let mut letters = script.chars().peekable();
    while let Some(letter) = letters.next() {
        match letter {
            '"' if is_quoted && letters.peek() == Some(&'"') => field.extend(letters.next()),
            '"' if is_quoted || field.is_empty() => is_quoted = !is_quoted,
            ',' if !is_quoted => fields.push(std::mem::take(&mut field)),
            '\n' if !is_quoted => {
                fields.push(std::mem::take(&mut field));
                records.push(std::mem::take(&mut fields));
            }
            _ => field.push(letter),
        }
    }
    records
}

// The line that answers a record.
fn reply(book: &mut Workbook, record: &[&str]) -> Answer<String> {
    let answered = match record[0] {
        "value" | "formula" | "content" | "precedents" | "dependents" | "name-value" | "try" => {
            asked(book, record)
        }
        "add-sheet" => book
            .add_sheet(record[1])
            .map(|number| format!("ok {number}"))
            .map_err(Into::into),
        _ => done(book, record).map(|()| "ok".to_owned()),
    };
    match answered {
        Ok(text) => Ok(text
            .replace('\\', "\\\\")
            .replace('\n', "\\n")
            .replace('\r', "\\r")),
        Err(error) => match error
            .downcast_ref()
            .and_then(|error: &Error| error.refusal())
        {
            Some(refusal) => Ok(format!("refused {} {}", refusal.number(), refusal.name())),
            None => Err(error),
        },
    }
}

// Answers a question.
fn asked(book: &Workbook, record: &[&str]) -> Answer<String> {
    Ok(match *record {
        ["value", of] => shown(book, place(book, of)?)?,
        ["formula", of] => formula(book, place(book, of)?)?,
        ["content", of] => content(book, place(book, of)?)?,
        ["precedents", of] => links(book, &book.precedents(place(book, of)?)?)?,
        ["dependents", of] => links(book, &book.dependents(place(book, of)?)?)?,
        ["name-value", word, on] => book.name_value(word, sheet(book, on))?.to_string(),
        ["try", on, text] => book.try_formula(sheet(book, on), text)?.to_string(),
        _ => return Err("no such question".into()),
    })
}

// Makes a call that answers nothing.
fn done(book: &mut Workbook, record: &[&str]) -> Answer<()> {
    match *record {
        ["set", to, text] => give(book, place(book, to)?, text)?,
        ["clear", area] => book.clear(block(book, area)?)?,
        ["move-block", area, to] => book.move_block(block(book, area)?, place(book, to)?)?,
        ["drop-sheet", on] => book.drop_sheet(sheet(book, on))?,
        ["rename-sheet", on, name] => book.rename_sheet(sheet(book, on), name)?,
        ["clear-sheet", on] => book.clear_sheet(sheet(book, on))?,
        ["add-name", word, of, text] => add_name(book, word, scope(book, of), text)?,
        ["change-name", word, of, text] => book.change_name(word, scope(book, of), text)?,
        ["remove-name", word, of] => book.remove_name(word, scope(book, of))?,
        ["copy", area] => book.copy(block(book, area)?)?,
        ["cut", area] => book.cut(block(book, area)?)?,
        ["paste", to] => book.paste(place(book, to)?)?,
        ["undo"] => book.undo()?,
        ["redo"] => book.redo()?,
        ["begin"] => book.begin()?,
        ["commit"] => book.commit()?,
        ["suspend"] => book.suspend()?,
        ["resume"] => {
            book.resume()?;
            book.settle_idle(3)?;
        }
        [word, on, first, count] => lines(book, word, (on, first, count), None)?,
        [word, on, first, count, before] => lines(book, word, (on, first, count), Some(before))?,
        _ => return Err("no such command".into()),
    }
    Ok(())
}

// Gives a cell what a text says: in every other row by the call for its kind, where it is no formula.
fn give(book: &mut Workbook, to: Place, text: &str) -> Answer<()> {
    let is_apart = to.row % 2 == 1 && !text.is_empty() && !text.starts_with('=');
    if !is_apart {
        book.set(to, text)?;
    } else if let Ok(number) = text.parse::<Number>() {
        book.set_number(to, number)?;
    } else if text == "TRUE" {
        book.set_truth(to, true)?;
    } else {
        book.set_text(to, text.strip_prefix('\'').unwrap_or(text))?;
    }
    Ok(())
}

// Adds a name, which is listed then, and whose text uses names or not.
fn add_name(book: &mut Workbook, word: &str, scope: Option<u32>, text: &str) -> Answer<()> {
    book.add_name(word, scope, text)?;
    let name = Name {
        scope,
        word: word.to_uppercase(),
    };
    expect(book.names()?.contains(&name), "a name isn't listed")?;
    let used = if text == "=Total" {
        vec!["TOTAL"]
    } else {
        vec![]
    };
    let formula = book.name_text(word, scope)?;
    for sheet in book.sheets().into_iter().take(1) {
        expect(
            book.names_in(sheet, &formula)? == used,
            "other names are used",
        )?;
    }
    Ok(())
}

// Makes a call on rows or columns.
fn lines(
    book: &mut Workbook,
    word: &str,
    told: (&str, &str, &str),
    before: Option<&str>,
) -> Answer<()> {
    let on = sheet(book, told.0);
    let line = |text: &str| -> Answer<u32> {
        if word.ends_with("cols") {
            Ok(Place::read(0, &format!("{text}1"))?.col)
        } else {
            Ok(text.parse::<u32>()? - 1)
        }
    };
    let (first, count) = (line(told.1)?, told.2.parse()?);
    match (word, before) {
        ("insert-rows", None) => book.insert_rows(on, first, count)?,
        ("insert-cols", None) => book.insert_cols(on, first, count)?,
        ("delete-rows", None) => book.delete_rows(on, first, count)?,
        ("delete-cols", None) => book.delete_cols(on, first, count)?,
        ("move-rows", Some(before)) => book.move_rows(on, first, count, line(before)?)?,
        ("move-cols", Some(before)) => book.move_cols(on, first, count, line(before)?)?,
        _ => return Err("no such command".into()),
    }
    Ok(())
}

// The number of a sheet by its name, or one that no sheet has.
fn sheet(book: &Workbook, name: &str) -> u32 {
    book.sheet_id(name).unwrap_or(GONE)
}

fn scope(book: &Workbook, name: &str) -> Option<u32> {
    (!name.is_empty()).then(|| sheet(book, name))
}

// The sheet in front of an address, whose name stands between apostrophes, and the address.
fn parted<'a>(book: &Workbook, text: &'a str) -> Answer<(u32, &'a str)> {
    let (name, address) = text.rsplit_once('!').ok_or("no sheet")?;
    let name = name.trim_matches('\'').replace("''", "'");
    Ok((sheet(book, &name), address))
}

fn place(book: &Workbook, text: &str) -> Answer<Place> {
    let (on, address) = parted(book, text)?;
    Ok(Place::read(on, address)?)
}

fn block(book: &Workbook, text: &str) -> Answer<Block> {
    let (on, address) = parted(book, text)?;
    Ok(Block::read(on, address)?)
}

// What calls say that have to agree.
fn expect(holds: bool, otherwise: &str) -> Answer<()> {
    if holds {
        Ok(())
    } else {
        Err(otherwise.into())
    }
}

// What a cell shows, by the three calls that tell it.
fn shown(book: &Workbook, of: Place) -> Answer<String> {
    let (value, text) = (book.value(of)?, book.value_text(of)?);
    expect(value.to_string() == text, "a value is shown as another")?;
    let listed = book.values(of.into())?;
    let places: Vec<Place> = listed.iter().map(|cell| cell.0).collect();
    expect(places == book.filled(of.into())?, "other cells are filled")?;
    let other = listed.into_iter().next().map(|cell| cell.1);
    expect(
        other.unwrap_or_default() == value,
        "another value is listed",
    )?;
    Ok(text)
}

// The text of a cell's formula, which is canonical where it could be read.
fn formula(book: &Workbook, of: Place) -> Answer<String> {
    let (text, kind) = (book.formula(of)?, book.kind(of)?);
    let is_formula = matches!(kind, Kind::Formula | Kind::Unreadable);
    expect(text.is_some() == is_formula, "the kind is another")?;
    let text = text.unwrap_or("none".to_owned());
    if kind == Kind::Formula {
        let normal = book.normal_text(of.sheet, &text)?;
        expect(normal == text, "the text isn't canonical")?;
    }
    Ok(text)
}

// The text of a cell's content, by both calls that tell it.
fn content(book: &Workbook, of: Place) -> Answer<String> {
    let text = book.content(of)?;
    let listed = book.contents(of.into())?;
    let other = listed.into_iter().next().map(|cell| cell.1);
    expect(
        other.unwrap_or_default() == text,
        "another content is listed",
    )?;
    Ok(text)
}

// Looks over the workbook at the end: each sheet is used as far as its cells are filled, and those on a cycle show it; the
// clipboard is emptied and the history forgotten.
fn left(book: &mut Workbook) -> Answer<()> {
    book.clear_clipboard()?;
    book.clear_history()?;
    let is_bare = book.is_clipboard_empty() && !book.can_undo() && !book.can_redo();
    expect(is_bare, "something waits")?;
    for sheet in book.sheets() {
        let places = book.filled_in(sheet)?;
        let used = book.used_area(sheet)?;
        expect(used == least(sheet, &places), "another area is used")?;
        if let Some(area) = used {
            let held = book.contents(area)?.into_iter().map(|cell| cell.0);
            expect(held.eq(places), "other cells have contents")?;
        }
        let is_shown = !book.is_suspended() && !book.has_batch();
        for at in book.on_cycle(sheet)?.into_iter().filter(|_| is_shown) {
            let is_cycle = book.value(at)? == Value::Fault(Fault::Cycle);
            expect(is_cycle, "a cell on a cycle shows something else")?;
        }
    }
    Ok(())
}

// The least block over places.
fn least(sheet: u32, places: &[Place]) -> Option<Block> {
    let (rows, cols) = (
        places.iter().map(|at| at.row),
        places.iter().map(|at| at.col),
    );
    let (top, left) = (rows.clone().min()?, cols.clone().min()?);
    Some(Block::new(sheet, top, left, rows.max()?, cols.max()?))
}

fn links(book: &Workbook, links: &[Link]) -> Answer<String> {
    let printed = links.iter().map(|link| match link {
        Link::Cell(at) => Ok(format!("{}!{}", book.sheet_name(at.sheet)?, at.address())),
        Link::Block(area) => Ok(format!(
            "{}!{}",
            book.sheet_name(area.sheet)?,
            area.address()
        )),
        Link::Name(Name { scope: None, word }) => Ok(word.clone()),
        Link::Name(Name {
            scope: Some(of),
            word,
        }) => Ok(format!("{}!{word}", book.sheet_name(*of)?)),
    });
    Ok(printed.collect::<Result<Vec<_>, Error>>()?.join(" "))
}

//! Reads the answers to an audit, and a history. It is strict: a row of an unknown form is an error, and nothing is guessed or left out.

use crate::types::LAST_MOMENT;
use crate::{Answered, Answers, Cause, Error, Fate, Gone, History, OpenHandle, Removal};
use crate::{Hold, Mark, NameStory, Story, VersionSpan, VersionStory};
use std::str::Split;

// That something has not just the form that it has.
const OTHER: Error = Error::UnknownAnswer;

/// Returns the error of an answer that is a refusal or a stop.
pub(crate) fn refused(answer: &str) -> Result<(), Error> {
    let mut words = Words::of(answer.trim_end_matches('\n'));
    if !matches!(words.next()?, "no" | "bad" | "stop") {
        return Ok(());
    }
    let code = i32::try_from(words.number()?).map_err(|_| OTHER)?;
    Err(Error::from_code(code, || None))
}

// Returns what follows a word in the first line of an answer, and the other lines.
fn lines<'a>(answer: &'a str, word: &str) -> Result<(Words<'a>, Vec<&'a str>), Error> {
    let mut lines = answer.strip_suffix('\n').ok_or(OTHER)?.split('\n');
    let first = lines.next().and_then(|it| it.strip_prefix(word)).ok_or(OTHER)?;
    Ok((Words::of(first), lines.collect()))
}

// Reads the lines of so many rows.
fn rows<T>(lines: &[&str], count: u64, read: impl Fn(&str) -> Result<T, Error>) -> Result<Vec<T>, Error> {
    if lines.len() as u64 != count {
        return Err(OTHER);
    }
    lines.iter().map(|row| read(row.strip_prefix("- ").ok_or(OTHER)?)).collect()
}

pub(crate) fn read_history(answer: &str) -> Result<History, Error> {
    let (mut words, others) = lines(answer, "ok history ")?;
    let (folded, count) = words.two()?;
    let lines = rows(&others, count, |line| Some(line.to_owned()).filter(|it| !it.is_empty()).ok_or(OTHER))?;
    Ok(History { folded, lines })
}

pub(crate) fn read_gone(answer: &str) -> Result<Gone, Error> {
    let (mut words, others) = lines(answer, "ok gone ")?;
    let (folded, count) = words.two()?;
    let removals = rows(&others, count, |row| {
        let mut words = Words::of(row);
        let (moment, file, number) = (words.moment()?, words.number()?, words.number()?);
        let path = words.path()?;
        let (held, since, cause) = words.due()?;
        Ok(Removal { moment, file, number, path, held, since, cause })
    })?;
    Ok(Gone { folded, removals })
}

pub(crate) fn read_handles(answer: &str) -> Result<Vec<OpenHandle>, Error> {
    let (mut words, others) = lines(answer, "ok handles ")?;
    let count = words.number()?;
    words.end()?;
    rows(&others, count, |row| {
        let mut words = Words::of(row);
        let (handle, file) = (words.number()?, words.number()?);
        let version = words.unless("draft", number_of)?;
        let since = words.unless("-", moment_of)?;
        let path = words.path()?;
        words.end()?;
        Ok(OpenHandle { handle, file, version, since, path })
    })
}

pub(crate) fn read_story(answer: &str) -> Result<Story, Error> {
    let (mut words, others) = lines(answer, "ok story ")?;
    let (file, count) = words.two()?;
    let of_versions = others.iter().take_while(|row| row.starts_with("- version ")).count();
    let (versions, names) = others.split_at(of_versions);
    if others.len() as u64 != count {
        return Err(OTHER);
    }
    let versions = rows(versions, versions.len() as u64, read_version_story)?;
    let names = rows(names, names.len() as u64, |row| {
        let mut words = Words::of(row.strip_prefix("name ").ok_or(OTHER)?);
        let (birth, death, path) = (words.moment()?, words.unless("-", moment_of)?, words.path()?);
        words.end()?;
        Ok(NameStory { birth, death, path })
    })?;
    Ok(Story { file, versions, names })
}

fn read_version_story(row: &str) -> Result<VersionStory, Error> {
    let mut words = Words::of(row.strip_prefix("version ").ok_or(OTHER)?);
    let number = words.number()?;
    let info = match words.unless("-", moment_of)? {
        Some(closed) => Some(VersionSpan { closed, ended: words.unless("-", moment_of)?, length: words.number()? }),
        None if (words.next()?, words.next()?) == ("-", "-") => None,
        None => return Err(OTHER),
    };
    let rest: Vec<&str> = words.0.collect();
    let (removed, rest) = match &rest[..] {
        ["removed", moment, rest @ ..] => (Some(moment_of(moment)?), rest),
        rest => (None, rest),
    };
    let fate = fate_of(rest)?;
    let held = if let Some(Fate::Due { held, .. }) = &fate { held.clone() } else { None };
    Ok(VersionStory { number, info, removed, held, fate })
}

// The mark that held a version, if one did, and the words after it.
fn held_of<'r, 'w>(words: &'r [&'w str]) -> Result<(Option<Hold>, &'r [&'w str]), Error> {
    Ok(match words {
        ["held", group, mark, rest @ ..] => (Some(Hold { group: group_of(group)?, mark: mark_of(mark)? }), rest),
        rest => (None, rest),
    })
}

// A fate by its words, or None for a dash.
fn fate_of(words: &[&str]) -> Result<Option<Fate>, Error> {
    let level = |word: &str| number_of(word).map(Some);
    Ok(Some(match words {
        ["-"] => return Ok(None),
        ["current"] => Fate::Current,
        ["open"] => Fate::Open,
        ["marked", group, mark] => Fate::Marked { group: group_of(group)?, mark: mark_of(mark)? },
        ["kept"] => Fate::Kept { until: None, level: None },
        ["kept", "level", at] => Fate::Kept { until: None, level: level(at)? },
        ["kept", "until", until] => Fate::Kept { until: Some(moment_of(until)?), level: None },
        ["kept", "until", until, "level", at] => Fate::Kept { until: Some(moment_of(until)?), level: level(at)? },
        words => {
            let (held, since, cause) = due_of(words)?;
            Fate::Due { held, since, cause }
        }
    }))
}

// The mark that held a version, since when it was due and for what cause, by all of the words.
fn due_of(words: &[&str]) -> Result<(Option<Hold>, u64, Cause), Error> {
    match held_of(words)? {
        (held, ["due", since, cause @ ..]) => Ok((held, moment_of(since)?, cause_of(cause)?)),
        _ => Err(OTHER),
    }
}

fn mark_of(word: &str) -> Result<Mark, Error> {
    let (at, until) = word.split_once('/').map_or((word, None), |(at, until)| (at, Some(until)));
    Ok(Mark { at: moment_of(at)?, until: until.map(moment_of).transpose()? })
}

fn group_of(word: &str) -> Result<String, Error> {
    Some(word.to_owned()).filter(|it| is_name(it)).ok_or(OTHER)
}

fn cause_of(words: &[&str]) -> Result<Cause, Error> {
    Ok(match words {
        ["at", "once"] => Cause::AtOnce,
        ["by", "age", seconds] => Cause::ByAge { seconds: number_of(seconds)? },
        ["by", by, "level", level] => Cause::Displaced { level: number_of(level)?, by: number_of(by)? },
        _ => return Err(OTHER),
    })
}

pub(crate) fn read_removed(answer: &str) -> Result<Fate, Error> {
    let (mut words, others) = lines(answer, "ok why removed ")?;
    let moment = words.moment()?;
    let (held, since, cause) = words.due()?;
    others.is_empty().then_some(Fate::Removed { moment, held, since, cause }).ok_or(OTHER)
}

// The rows of a stored answer begin as those of events do, so they are counted.
pub(crate) fn read_answers(answer: &str) -> Result<Answers, Error> {
    let (mut words, others) = lines(answer, "ok answers ")?;
    let (folded, count) = words.two()?;
    let (mut left, mut answered) = (others.into_iter(), Vec::new());
    while let Some(row) = left.next() {
        let line = row.strip_prefix("- ").ok_or(OTHER)?.to_owned();
        answered.push(Answered { line, answer: stored_answer(&mut left)? });
    }
    if answered.len() as u64 == count {
        Ok(Answers { folded, answered })
    } else {
        Err(OTHER)
    }
}

// Takes the answer of one event off the lines that are left.
fn stored_answer<'a>(left: &mut impl Iterator<Item = &'a str>) -> Result<String, Error> {
    let first = left.next().ok_or(OTHER)?;
    if !first.starts_with("ok ") && !first.starts_with("no ") {
        return Err(OTHER);
    }
    let mut answer = format!("{first}\n");
    for _ in 0..rows_after(first)? {
        let row = left.next().filter(|it| it.starts_with("- ")).ok_or(OTHER)?;
        answer.push_str(row);
        answer.push('\n');
    }
    Ok(answer)
}

// How many rows follow the first line of an event's answer.
fn rows_after(first: &str) -> Result<u64, Error> {
    let mut words = Words::of(first);
    match (words.next()?, words.next()?) {
        ("ok", "versions" | "names" | "restorable" | "due" | "usage" | "groups") => {
            let count = words.number()?;
            words.end().map(|()| count)
        }
        _ => Ok(0),
    }
}

// The words of a line, with one space between two.
struct Words<'a>(Split<'a, char>);

impl<'a> Words<'a> {
    fn of(line: &'a str) -> Words<'a> {
        Words(line.split(' '))
    }

    fn next(&mut self) -> Result<&'a str, Error> {
        self.0.next().ok_or(OTHER)
    }

    fn end(&mut self) -> Result<(), Error> {
        self.0.next().map_or(Ok(()), |_| Err(OTHER))
    }

    fn number(&mut self) -> Result<u64, Error> {
        self.next().and_then(number_of)
    }

    fn moment(&mut self) -> Result<u64, Error> {
        self.next().and_then(moment_of)
    }

    // Two numbers, and nothing after them.
    fn two(&mut self) -> Result<(u64, u64), Error> {
        let found = (self.number()?, self.number()?);
        self.end().map(|()| found)
    }

    // None for the word that stands for none.
    fn unless(&mut self, none: &str, read: fn(&str) -> Result<u64, Error>) -> Result<Option<u64>, Error> {
        match self.next()? {
            word if word == none => Ok(None),
            word => read(word).map(Some),
        }
    }

    // A path, or None for none.
    fn path(&mut self) -> Result<Option<String>, Error> {
        match self.next()? {
            "-" => Ok(None),
            word if is_path(word) => Ok(Some(word.to_owned())),
            _ => Err(OTHER),
        }
    }

    // The mark that held a version, since when it was due and for what cause, and nothing after it.
    fn due(&mut self) -> Result<(Option<Hold>, u64, Cause), Error> {
        let rest: Vec<&str> = self.0.by_ref().collect();
        due_of(&rest)
    }
}

// A number as the store prints it: digits without a leading zero.
fn number_of(word: &str) -> Result<u64, Error> {
    let is_plain = word.bytes().all(|it| it.is_ascii_digit()) && (word == "0" || !word.starts_with('0'));
    word.parse().ok().filter(|_| is_plain).ok_or(OTHER)
}

fn moment_of(word: &str) -> Result<u64, Error> {
    number_of(word).and_then(|it| if it <= LAST_MOMENT { Ok(it) } else { Err(OTHER) })
}

fn is_name(word: &str) -> bool {
    let is_of_name = |it: u8| it.is_ascii_graphic() && !matches!(it, b'/' | b'@' | b'#');
    (1..=64).contains(&word.len()) && word.bytes().all(is_of_name)
}

// Whether each name of a path is one.
fn is_path(word: &str) -> bool {
    word.strip_prefix('/').map_or(false, |names| names.split('/').all(is_name))
}

#[cfg(test)]
mod tests {
    use super::{read_answers, read_gone, read_handles, read_history, read_removed, read_story, refused};
    use crate::{Answered, Answers, Cause, Error, Fate, Gone, History, OpenHandle, Removal};
    use crate::{Hold, Mark, NameStory, Story, VersionSpan, VersionStory};

    const GONE: &str = "ok gone 7 5\n- 5 1 1 /f due 5 at once\n- 9 1 2 - due 5 by age 3\n\
                        - 30 2 2 /d/a%20b due 28 by 3 level 1\n- 31 9 1 - due 4 at once\n\
                        - 40 2 4 /h held g 6/35 due 35 at once\n";

    // Each is no row of `gone`.
    const OTHER_ROWS: [&str; 31] = [
        "",
        "-",
        "- 5 1 1 /f",
        "- 5 1 1 /f due",
        "- 5 1 1 /f due 5",
        "- 5 1 1 /f due 5 at  once",
        "- 5 1 1 /f due 5 at once ",
        "- 5 1 1 /f due 5 by age",
        "- 5 1 1 /f due 5 by age -",
        "- 5 1 1 /f due 5 by 3 level",
        "- 5 1 1 /f due 5 later",
        "- 5 1 1 /f kept",
        "- 5 1 1 f due 5 at once",
        "- 5 1 1 / due 5 at once",
        "- 5 1 1 /f/ due 5 at once",
        "- 5 1 1 /a@b due 5 at once",
        "- 5 1 1  due 5 at once",
        "- 05 1 1 /f due 5 at once",
        "- 5 -1 1 /f due 5 at once",
        "- 5 +1 1 /f due 5 at once",
        "- 5 1 x /f due 5 at once",
        "- 253402300800 1 1 /f due 5 at once",
        "- 5 1 1 /f due 253402300800 at once",
        "- 5 18446744073709551616 1 /f due 5 at once",
        "5 1 1 /f due 5 at once",
        " - 5 1 1 /f due 5 at once",
        "- - 1 1 /f due 5 at once",
        "- 5 1 1 /f held g due 5 at once",
        "- 5 1 1 /f held due 5 at once",
        "- 5 1 1 /f held g/h 2 due 5 at once",
        "- 5 1 1 /f held g 2 kept",
    ];

    fn removal(moment: u64, version: (u64, u64), path: Option<&str>, since: u64, cause: Cause) -> Removal {
        let (file, number) = version;
        Removal { moment, file, number, path: path.map(str::to_owned), held: None, since, cause }
    }

    #[test]
    fn each_cause_of_a_removal_is_read() {
        let held = Some(Hold { group: "g".to_owned(), mark: Mark { at: 6, until: Some(35) } });
        let removals = vec![
            removal(5, (1, 1), Some("/f"), 5, Cause::AtOnce),
            removal(9, (1, 2), None, 5, Cause::ByAge { seconds: 3 }),
            removal(30, (2, 2), Some("/d/a%20b"), 28, Cause::Displaced { level: 1, by: 3 }),
            removal(31, (9, 1), None, 4, Cause::AtOnce),
            Removal { held: held.clone(), ..removal(40, (2, 4), Some("/h"), 35, Cause::AtOnce) },
        ];
        assert_eq!(read_gone(GONE), Ok(Gone { folded: 7, removals }));
        assert_eq!(read_gone("ok gone 0 0\n"), Ok(Gone { folded: 0, removals: vec![] }));
        let removed = |held, since| Fate::Removed { moment: 40, held, since, cause: Cause::AtOnce };
        assert_eq!(read_removed("ok why removed 40 due 18 at once\n"), Ok(removed(None, 18)));
        assert_eq!(read_removed("ok why removed 40 held g 6/35 due 35 at once\n"), Ok(removed(held, 35)));
    }

    #[test]
    fn a_row_of_another_form_is_no_row() {
        for row in OTHER_ROWS {
            assert_eq!(read_gone(&format!("ok gone 0 1\n{row}\n")), Err(Error::UnknownAnswer), "{row:?}");
        }
        for answer in
            ["", "\n", "ok gone 0 0", "ok gone 0 1\n", "ok gone 0\n", "ok gone 0 0 0\n", "ok gone 0 0\n\n", "ok gone x 0\n"]
        {
            assert_eq!(read_gone(answer), Err(Error::UnknownAnswer), "{answer:?}");
        }
        for answer in [
            "ok why removed 30\n",
            "ok why removed 30 due 18\n",
            "ok why removed - due 18 at once\n",
            "ok why removed 30 due 18 at once\n- 1\n",
            "ok why current\n",
        ] {
            assert_eq!(read_removed(answer), Err(Error::UnknownAnswer), "{answer:?}");
        }
    }

    #[test]
    fn a_handle_is_read_with_what_it_has_and_has_not() {
        let handle = |handle, version, since, path: Option<&str>| {
            let path = path.map(str::to_owned);
            OpenHandle { handle, file: 4, version, since, path }
        };
        let answer = "ok handles 3\n- 1 4 draft 0 /f\n- 2 4 11 262 -\n- 3 4 1 - /d/f\n";
        let wanted = vec![
            handle(1, None, Some(0), Some("/f")),
            handle(2, Some(11), Some(262), None),
            handle(3, Some(1), None, Some("/d/f")),
        ];
        assert_eq!(read_handles(answer), Ok(wanted));
        for row in ["- 1 4 drafts 0 /f", "- 1 4 - 0 /f", "- 1 4 1 draft /f", "- 1 4 1 0", "- 1 4 1 0 /f -", "- - 4 1 0 /f"] {
            assert_eq!(read_handles(&format!("ok handles 1\n{row}\n")), Err(Error::UnknownAnswer), "{row:?}");
        }
        for answer in ["ok handles 0 0\n", "ok handles\n", "ok handles 1\n", "ok handle 1\n- 1 4 draft 0 /f\n"] {
            assert_eq!(read_handles(answer), Err(Error::UnknownAnswer), "{answer:?}");
        }
    }

    #[test]
    fn the_rows_of_a_stored_answer_are_counted() {
        let stored = [
            ("create /g", "ok file 2\n"),
            ("list /", "ok names 2\n- f file 1\n- g file 2\n"),
            ("read /h", "no 5 NoEntry\n"),
            ("due", "ok due 0\n"),
            ("due", "ok due 1\n- 5 1 1\n"),
            ("versions /f", "ok versions 1\n- 1 0 0 - 0\n"),
            ("restorable", "ok restorable 1\n- 0 d directory 1\n"),
            ("usage", "ok usage 4\n- one 0 0 0 0\n- all 0 0 0 0\n- safe 0 0 0 0\n- landmarks 0 0 0 0\n"),
            ("groups", "ok groups 1\n- g members - marks -\n"),
            ("undelete /f", "ok version 2\n"),
        ];
        let rows: Vec<String> = stored.iter().map(|(line, answer)| format!("- {line}\n{answer}")).collect();
        let answered = stored.map(|(line, answer)| Answered { line: line.to_owned(), answer: answer.to_owned() }).to_vec();
        assert_eq!(read_answers(&format!("ok answers 10 10\n{}", rows.concat())), Ok(Answers { folded: 10, answered }));
    }

    #[test]
    fn answers_that_do_not_come_out_even_are_none() {
        let wrong = [
            "ok answers 0 1\n- list /\nok names 2\n- f file 1\n",
            "ok answers 0 1\n- list /\nok names x\n",
            "ok answers 0 1\n- list /\n",
            "ok answers 0 1\n- list /\nok names 0\n- create /f\n",
            "ok answers 0 1\n- list /\nok names 1\nf file 1\n",
            "ok answers 0 2\n- list /\nok names 0\n",
            "ok answers 0 1\ncreate /f\nok file 1\n",
            "ok answers 0 1\n- create /f\nfile 1\n",
            "ok answers 0 0\n- create /f\nok file 1\n",
        ];
        for answer in wrong {
            assert_eq!(read_answers(answer), Err(Error::UnknownAnswer), "{answer:?}");
        }
    }

    #[test]
    fn a_history_has_as_many_lines_as_it_says() {
        let lines = vec!["create /f".to_owned(), "read /g".to_owned()];
        assert_eq!(read_history("ok history 3 2\n- create /f\n- read /g\n"), Ok(History { folded: 3, lines }));
        for answer in ["ok history 3 1\n- create /f\n- read /g\n", "ok history 3 1\ncreate /f\n", "ok history 3\n"] {
            assert_eq!(read_history(answer), Err(Error::UnknownAnswer), "{answer:?}");
        }
    }

    fn version_story(
        number: u64,
        info: Option<(u64, Option<u64>, u64)>,
        removed: Option<u64>,
        fate: Option<Fate>,
    ) -> VersionStory {
        let info = info.map(|(closed, ended, length)| VersionSpan { closed, ended, length });
        VersionStory { number, info, removed, held: None, fate }
    }

    #[test]
    fn each_fate_of_a_story_is_read() {
        let mark = |at, until| Mark { at, until };
        let group = "g".to_owned();
        let held = Some(Hold { group: group.clone(), mark: mark(2, Some(30)) });
        let due = Some(Fate::Due { held: held.clone(), since: 30, cause: Cause::ByAge { seconds: 3 } });
        let versions = vec![
            version_story(1, None, Some(20), None),
            VersionStory { held, ..version_story(2, Some((5, Some(9), 2)), Some(40), due) },
            version_story(3, Some((9, Some(12), 0)), None, Some(Fate::Marked { group, mark: mark(9, None) })),
            version_story(4, Some((12, Some(13), 1)), None, Some(Fate::Open)),
            version_story(5, Some((13, Some(14), 1)), None, Some(Fate::Kept { until: Some(60), level: Some(1) })),
            version_story(6, Some((14, Some(15), 1)), None, Some(Fate::Kept { until: Some(60), level: None })),
            version_story(7, Some((15, Some(16), 1)), None, Some(Fate::Kept { until: None, level: Some(2) })),
            version_story(8, Some((16, Some(17), 1)), None, Some(Fate::Kept { until: None, level: None })),
            version_story(9, Some((17, Some(18), 1)), None, Some(Fate::Due { held: None, since: 18, cause: Cause::AtOnce })),
            version_story(10, Some((18, None, 1)), None, Some(Fate::Current)),
        ];
        let name = |birth, death, path: Option<&str>| NameStory { birth, death, path: path.map(str::to_owned) };
        let names = vec![name(0, Some(20), Some("/a")), name(20, None, Some("/d/b%20c")), name(20, Some(30), None)];
        let answer = "ok story 7 13\n- version 1 - - - removed 20 -\n- version 2 5 9 2 removed 40 held g 2/30 due 30 by age 3\n\
                      - version 3 9 12 0 marked g 9\n- version 4 12 13 1 open\n- version 5 13 14 1 kept until 60 level 1\n\
                      - version 6 14 15 1 kept until 60\n- version 7 15 16 1 kept level 2\n- version 8 16 17 1 kept\n\
                      - version 9 17 18 1 due 18 at once\n- version 10 18 - 1 current\n\
                      - name 0 20 /a\n- name 20 - /d/b%20c\n- name 20 30 -\n";
        assert_eq!(read_story(answer), Ok(Story { file: 7, versions, names }));
    }

    #[test]
    fn a_row_of_another_form_is_none_of_a_story() {
        for row in [
            "- version 1 5 9 2",
            "- version 1 5 9 due 5 at once",
            "- version 1 5 9 2 due",
            "- version 1 5 9 2 due 5",
            "- version 1 5 9 2 later",
            "- version 1 - 9 2 current",
            "- version 1 5 9 2 removed due 5 at once",
            "- version 1 5 9 2 held g 5 current",
            "- version 1 5 9 2 held g/h 5 due 5 at once",
            "- version 1 5 9 2 marked g x",
            "- version 1 5 9 2 kept until",
            "- version 1 5 9 2 kept until 4 level",
            "- version 1 5 9 2  current",
            "- name 5 9",
            "- name - 9 /f",
            "- name 5 9 f",
            "- name 5 9 /f -",
            "- names 5 9 /f",
            "name 5 9 /f",
        ] {
            assert_eq!(read_story(&format!("ok story 1 1\n{row}\n")), Err(Error::UnknownAnswer), "{row:?}");
        }
        for answer in
            ["ok story 1 1\n", "ok story 1\n", "ok story 1 0 0\n", "ok story 1 1\n- name 0 - /f\n- version 1 0 - 0 current\n"]
        {
            assert_eq!(read_story(answer), Err(Error::UnknownAnswer), "{answer:?}");
        }
    }

    #[test]
    fn a_refusal_or_a_stop_is_its_error() {
        assert_eq!(refused("stop 1 NoMemory\n"), Err(Error::NoMemory));
        assert_eq!(refused("bad 32 Syntax\n"), Err(Error::Syntax));
        assert_eq!(refused("no 5 NoEntry\n"), Err(Error::NoEntry));
        assert_eq!(refused("no\n"), Err(Error::UnknownAnswer));
        assert_eq!(refused("ok gone 0 0\n"), Ok(()));
    }
}

//! A plain divider of insolvent estates. It reads a case file from standard input and prints what comes of each line.
//!
//! Written from the pages in docs/ alone (RULES, OPERATORS, NORMAL-FORM, CASES, CASE-FILE, REFUSALS), without sight of
//! the program `divide_file`, so that the two can be held against each other.
//!
//! Where it differs on purpose: a case here keeps the whole string of letters pressed and applies them one by one, as
//! OPERATORS.md defines them. The normal form is worked only for `compare`, for a string above `LETTER_CUTOFF`, and
//! under the switch `--form`, which always goes by the form and is the fast variant.
//!
//!     plain [--form] < FILE

use std::io::{self, Read, Write};
use std::process::ExitCode;
use std::thread;

const FILE_LIMIT: usize = 32_768;
const LINE_LIMIT: usize = 80;
const MONEY_LIMIT: u32 = 2_000_000_000;
const ROWS: usize = 64;
const CLASSES: usize = 8;

/// Up to this many letters a case is divided letter by letter, above it by the letters of the normal form.
const LETTER_CUTOFF: usize = 16_384;

/// The recursion is as deep as the string is long, and a layer holds at most two lists of 64 amounts. Eight KiB for each
/// letter are plenty; the memory is only taken when it is used.
const STACK_BYTES: usize = 128 << 20;

/// The number of a refusal, as in REFUSALS.md.
type Refusal = u8;

// ---------------------------------------------------------------------------------------------------------------------
// The four rules
// ---------------------------------------------------------------------------------------------------------------------

#[derive(Clone, Copy)]
enum Rule {
    Priority,
    Equal,
    Proportion,
    Talmud,
}

impl Rule {
    fn named(name: &[u8]) -> Option<Rule> {
        match name {
            b"priority" => Some(Rule::Priority),
            b"equal" => Some(Rule::Equal),
            b"proportion" => Some(Rule::Proportion),
            b"talmud" => Some(Rule::Talmud),
            _ => None,
        }
    }

    /// Divides a sound problem. Every sum of claims is at most 2,000,000,000 here and so fits 32 bits.
    fn divide(self, claims: &[u32], estate: u32, awards: &mut [u32]) {
        match self {
            Rule::Priority => priority(claims, estate, awards),
            Rule::Equal => equal_awards(claims, estate, awards),
            Rule::Proportion => proportion(claims, estate, awards),
            Rule::Talmud => talmud(claims, estate, awards),
        }
    }
}

fn priority(claims: &[u32], estate: u32, awards: &mut [u32]) {
    let mut left = estate;
    for (award, &claim) in awards.iter_mut().zip(claims) {
        *award = claim.min(left);
        left -= *award;
    }
}

/// Finds the level on the sorted claims: the smallest claims are paid in full as long as everybody who is left could
/// have as much; the first claim for which that no longer fits lies above the level, and so do all behind it.
fn equal_awards(claims: &[u32], estate: u32, awards: &mut [u32]) {
    let mut storage = [0; ROWS];
    let sorted = &mut storage[..claims.len()];
    sorted.copy_from_slice(claims);
    sorted.sort_unstable();

    let mut level = sorted.last().copied().unwrap_or(0);
    let mut rest = 0;
    let mut left = u64::from(estate);
    for (paid, &claim) in sorted.iter().enumerate() {
        let sharers = (sorted.len() - paid) as u64;
        if u64::from(claim) * sharers > left {
            level = (left / sharers) as u32;
            rest = (left % sharers) as u32;
            break;
        }
        left -= u64::from(claim);
    }

    for (award, &claim) in awards.iter_mut().zip(claims) {
        *award = claim.min(level);
        if claim > level && rest > 0 {
            *award += 1;
            rest -= 1;
        }
    }
}

fn proportion(claims: &[u32], estate: u32, awards: &mut [u32]) {
    let total = u64::from(sum(claims));
    if total == 0 {
        awards.fill(0);
        return;
    }
    let product = |claim: u32| u64::from(claim) * u64::from(estate);

    let mut missing = estate;
    for (award, &claim) in awards.iter_mut().zip(claims) {
        *award = (product(claim) / total) as u32;
        missing -= *award;
    }
    for (award, &claim) in awards.iter_mut().zip(claims) {
        if missing == 0 {
            break;
        }
        if product(claim) % total != 0 {
            *award += 1;
            missing -= 1;
        }
    }
}

fn talmud(claims: &[u32], estate: u32, awards: &mut [u32]) {
    let mut storage = [0; ROWS];
    let halves = &mut storage[..claims.len()];
    for (half, &claim) in halves.iter_mut().zip(claims) {
        *half = claim / 2;
    }
    let total = sum(claims);
    let half_total = sum(halves);
    let odd_claims = total - 2 * half_total;

    if estate <= half_total {
        equal_awards(halves, estate, awards);
    } else if estate >= half_total + odd_claims {
        equal_awards(halves, total - estate, awards);
        take_from_claims(claims, awards);
    } else {
        let mut units = estate - half_total;
        for (award, &claim) in awards.iter_mut().zip(claims) {
            *award = claim / 2;
            if claim % 2 == 1 && units > 0 {
                *award += 1;
                units -= 1;
            }
        }
    }
}

fn sum(amounts: &[u32]) -> u32 {
    amounts.iter().sum()
}

/// Turns losses into awards.
fn take_from_claims(claims: &[u32], awards: &mut [u32]) {
    for (award, &claim) in awards.iter_mut().zip(claims) {
        *award = claim - *award;
    }
}

// ---------------------------------------------------------------------------------------------------------------------
// The operators, one letter at a time
// ---------------------------------------------------------------------------------------------------------------------

/// A rule under letters: the first letter lies next to the rule, the last is outermost. All letters are known ones.
#[derive(Clone, Copy)]
struct Layers<'a> {
    rule: Rule,
    letters: &'a [u8],
    classes: &'a [u8],
}

impl Layers<'_> {
    /// Takes off the outermost letter and does what it says with what lies below.
    fn divide(self, claims: &[u32], estate: u32, awards: &mut [u32]) {
        let Some((&letter, letters)) = self.letters.split_last() else {
            return self.rule.divide(claims, estate, awards);
        };
        let below = Layers { letters, ..self };
        match letter {
            b'd' => {
                below.divide(claims, sum(claims) - estate, awards);
                take_from_claims(claims, awards);
            }
            b't' => truncated(below, claims, estate, awards),
            b'm' => with_minimal_rights(below, claims, estate, awards),
            b's' => by_class(below, 0..CLASSES, claims, estate, awards),
            b'r' => by_class(below, (0..CLASSES).rev(), claims, estate, awards),
            _ => unreachable!("letters are tested when they are pressed"),
        }
    }
}

fn truncated(below: Layers, claims: &[u32], estate: u32, awards: &mut [u32]) {
    let mut storage = [0; ROWS];
    let cut = &mut storage[..claims.len()];
    for (cut, &claim) in cut.iter_mut().zip(claims) {
        *cut = claim.min(estate);
    }
    // The cut claims still add up to at least the estate and to no more than before, so the problem stays sound.
    below.divide(cut, estate, awards);
}

fn with_minimal_rights(below: Layers, claims: &[u32], estate: u32, awards: &mut [u32]) {
    let loss = sum(claims) - estate;
    let mut storage = [0; ROWS];
    let open = &mut storage[..claims.len()];
    let mut left = estate;
    for (open, &claim) in open.iter_mut().zip(claims) {
        // A claim less its right (claim less loss, or 0) is the smaller of the claim and the loss.
        *open = claim.min(loss);
        left -= claim - *open;
    }
    below.divide(open, left, awards);
    for ((award, &open), &claim) in awards.iter_mut().zip(open.iter()).zip(claims) {
        *award += claim - open;
    }
}

/// Serves the classes in the order given (class 1 is at 0 here). A class with nothing to share is passed over: a lawful
/// rule awards nothing there. That also keeps long strings cheap, for an inner seniority letter sees one class only.
fn by_class(
    below: Layers,
    order: impl Iterator<Item = usize>,
    claims: &[u32],
    estate: u32,
    awards: &mut [u32],
) {
    let class_at = |place: usize| usize::from(below.classes[place]) - 1;
    let mut totals = [0; CLASSES];
    for (place, &claim) in claims.iter().enumerate() {
        totals[class_at(place)] += claim;
    }

    let mut own = [0; ROWS];
    let mut part = [0; ROWS];
    let own = &mut own[..claims.len()];
    let part = &mut part[..claims.len()];
    let mut left = estate;
    awards.fill(0);
    for class in order {
        let share = totals[class].min(left);
        if share == 0 {
            continue;
        }
        left -= share;
        for (place, own) in own.iter_mut().enumerate() {
            *own = if class_at(place) == class { claims[place] } else { 0 };
        }
        below.divide(own, share, part);
        for (award, &more) in awards.iter_mut().zip(part.iter()) {
            *award += more;
        }
    }
}

// ---------------------------------------------------------------------------------------------------------------------
// The normal form
// ---------------------------------------------------------------------------------------------------------------------

#[derive(Clone, Copy, PartialEq, Eq)]
enum Place {
    Absent,
    Inner,
    Outer,
}

#[derive(Clone, Copy, PartialEq, Eq)]
struct Form {
    dual: bool,
    seniority: Option<u8>,
    truncation: Place,
    rights: Place,
}

impl Form {
    const EMPTY: Form = Form { dual: false, seniority: None, truncation: Place::Absent, rights: Place::Absent };

    fn of(letters: &[u8]) -> Form {
        let mut form = Form::EMPTY;
        form.press(letters);
        form
    }

    fn press(&mut self, letters: &[u8]) {
        for &letter in letters {
            match letter {
                b't' if self.truncation == Place::Absent => self.truncation = self.newest_place(),
                b'm' if self.rights == Place::Absent => self.rights = self.newest_place(),
                b't' | b'm' => {}
                b's' | b'r' => {
                    self.seniority = Some(letter);
                    for place in [&mut self.truncation, &mut self.rights] {
                        if *place == Place::Outer {
                            *place = Place::Inner;
                        }
                    }
                }
                b'd' => {
                    self.dual = !self.dual;
                    std::mem::swap(&mut self.truncation, &mut self.rights);
                    self.seniority = self.seniority.map(|s| if s == b's' { b'r' } else { b's' });
                }
                _ => unreachable!("letters are tested when they are pressed"),
            }
        }
    }

    /// Where a letter comes to lie that is pressed now.
    fn newest_place(&self) -> Place {
        if self.seniority.is_some() { Place::Outer } else { Place::Inner }
    }

    /// The letters of the form: how many there are, and a list with them in front. No form has more than four.
    fn letters(&self) -> (usize, [u8; 4]) {
        let mut letters = [0; 4];
        let mut count = 0;
        let mut put = |present: bool, letter: u8| {
            if present {
                letters[count] = letter;
                count += 1;
            }
        };
        put(self.dual, b'd');
        put(self.truncation == Place::Inner, b't');
        put(self.rights == Place::Inner, b'm');
        put(self.seniority.is_some(), self.seniority.unwrap_or(0));
        put(self.truncation == Place::Outer, b't');
        put(self.rights == Place::Outer, b'm');
        (count, letters)
    }
}

/// What a case keeps of the letters pressed.
enum Pile {
    Whole(Vec<u8>),
    Reduced(Form),
}

impl Pile {
    fn press(&mut self, letters: &[u8]) {
        match self {
            Pile::Whole(string) => {
                string.extend_from_slice(letters);
                if string.len() > LETTER_CUTOFF {
                    *self = Pile::Reduced(Form::of(string));
                }
            }
            Pile::Reduced(form) => form.press(letters),
        }
    }
}

// ---------------------------------------------------------------------------------------------------------------------
// The case
// ---------------------------------------------------------------------------------------------------------------------

struct Row {
    number: u16,
    amount: u32,
    class: u8,
    paid: u32,
    award: u32,
}

struct Case {
    rows: Vec<Row>,
    total: u32,
    fund: u32,
    pile: Pile,
    marked: bool,
    /// A file has one case and at most one sheet, so the sheet in hand and the sheet that is out are the same.
    sheet_out: bool,
}

/// Answers the first refusal whose test holds. The tests are listed smallest number first.
fn check(tests: &[(bool, Refusal)]) -> Result<(), Refusal> {
    match tests.iter().find(|(applies, _)| *applies) {
        Some(&(_, refusal)) => Err(refusal),
        None => Ok(()),
    }
}

fn passes_limit(total: u32, more: u32) -> bool {
    u64::from(total) + u64::from(more) > u64::from(MONEY_LIMIT)
}

fn is_reserved(number: u16) -> bool {
    number == 0 || number == u16::MAX
}

impl Case {
    fn new(pile: Pile) -> Case {
        Case { rows: Vec::with_capacity(ROWS), total: 0, fund: 0, pile, marked: false, sheet_out: false }
    }

    fn find(&self, number: u16) -> Option<usize> {
        self.rows.iter().position(|row| row.number == number)
    }

    fn admit(&mut self, number: u16, amount: u32, class: u8) -> Result<(), Refusal> {
        check(&[
            (passes_limit(self.total, amount), 3),
            (!(1..=CLASSES).contains(&usize::from(class)), 5),
            (self.sheet_out, 8),
            (is_reserved(number), 9),
            (self.find(number).is_some(), 10),
            (self.rows.len() == ROWS, 12),
        ])?;
        self.rows.push(Row { number, amount, class, paid: 0, award: 0 });
        self.total += amount;
        self.marked = false;
        Ok(())
    }

    fn amend(&mut self, number: u16, amount: u32) -> Result<(), Refusal> {
        let place = self.find(number);
        let others = place.map_or(0, |place| self.total - self.rows[place].amount);
        check(&[
            (place.is_some() && passes_limit(others, amount), 3),
            (self.sheet_out, 8),
            (is_reserved(number), 9),
        ])?;
        let place = place.ok_or(11)?;
        self.rows[place].amount = amount;
        self.total = others + amount;
        self.marked = false;
        Ok(())
    }

    fn set_fund(&mut self, amount: u32) -> Result<(), Refusal> {
        check(&[(amount > MONEY_LIMIT, 3), (self.sheet_out, 8)])?;
        self.fund = amount;
        self.marked = false;
        Ok(())
    }

    fn press(&mut self, field: &[u8]) -> Result<(), Refusal> {
        let letters = letters_of(field)?;
        check(&[(self.sheet_out, 8)])?;
        self.pile.press(letters);
        self.marked = false;
        Ok(())
    }

    fn divide(&mut self, rule: Rule) -> Result<(), Refusal> {
        check(&[(self.fund > self.total, 4), (self.sheet_out, 8)])?;
        let count = self.rows.len();
        let mut claims = [0; ROWS];
        let mut classes = [0; ROWS];
        let mut awards = [0; ROWS];
        for (place, row) in self.rows.iter().enumerate() {
            claims[place] = row.amount;
            classes[place] = row.class;
        }
        let short;
        let letters = match &self.pile {
            Pile::Whole(string) => string.as_slice(),
            Pile::Reduced(form) => {
                short = form.letters();
                &short.1[..short.0]
            }
        };
        let layers = Layers { rule, letters, classes: &classes[..count] };
        layers.divide(&claims[..count], self.fund, &mut awards[..count]);
        for (row, &award) in self.rows.iter_mut().zip(&awards) {
            row.award = award;
        }
        self.marked = true;
        Ok(())
    }

    fn draw(&mut self) -> Result<(), Refusal> {
        check(&[(self.sheet_out, 8), (!self.marked, 13)])?;
        self.sheet_out = true;
        Ok(())
    }

    /// Prints the postings while it pays: the estate's first, then one for each row.
    fn sign(&mut self, out: &mut Vec<u8>) -> Result<(), Refusal> {
        check(&[(!self.sheet_out, 14)])?;
        let posting = |row: &Row| i64::from(row.award) - i64::from(row.paid);
        let posted: i64 = self.rows.iter().map(posting).sum();
        put_entry(out, b"post", 0, -posted);
        for row in &mut self.rows {
            put_entry(out, b"post", row.number, posting(row));
            row.paid = row.award;
        }
        out.extend_from_slice(b"signed\n");
        self.sheet_out = false;
        self.marked = false;
        Ok(())
    }

    fn take_back(&mut self) -> Result<(), Refusal> {
        check(&[(!self.sheet_out, 14)])?;
        self.sheet_out = false;
        Ok(())
    }
}

// ---------------------------------------------------------------------------------------------------------------------
// The case file
// ---------------------------------------------------------------------------------------------------------------------

/// The letters that a field stands for: a hyphen alone is the empty string, an empty field is none at all.
fn letters_of(field: &[u8]) -> Result<&[u8], Refusal> {
    match field {
        b"" => Err(7),
        b"-" => Ok(b""),
        _ if field.iter().all(|letter| b"dtmsr".contains(letter)) => Ok(field),
        _ => Err(7),
    }
}

fn number(field: &[u8], limit: u32) -> Result<u32, Refusal> {
    // No number up to 32 bits has more than ten digits, and ten digits fit 64 bits.
    let needless_zero = field.len() > 1 && field[0] == b'0';
    if field.is_empty() || field.len() > 10 || needless_zero || !field.iter().all(u8::is_ascii_digit) {
        return Err(18);
    }
    let value = field.iter().fold(0, |value: u64, digit| value * 10 + u64::from(digit - b'0'));
    if value > u64::from(limit) { Err(18) } else { Ok(value as u32) }
}

fn claimant(field: &[u8]) -> Result<u16, Refusal> {
    number(field, u32::from(u16::MAX)).map(|value| value as u16)
}

fn class(field: &[u8]) -> Result<u8, Refusal> {
    number(field, u32::from(u8::MAX)).map(|value| value as u8)
}

fn amount(field: &[u8]) -> Result<u32, Refusal> {
    number(field, u32::MAX)
}

fn put_number(out: &mut Vec<u8>, value: i64) {
    let mut digits = [0; 20];
    let mut start = digits.len();
    let mut left = value.unsigned_abs();
    loop {
        start -= 1;
        digits[start] = b'0' + (left % 10) as u8;
        left /= 10;
        if left == 0 {
            break;
        }
    }
    if value < 0 {
        out.push(b'-');
    }
    out.extend_from_slice(&digits[start..]);
}

fn put_entry(out: &mut Vec<u8>, word: &[u8], number: u16, amount: i64) {
    out.extend_from_slice(word);
    out.push(b',');
    put_number(out, i64::from(number));
    out.push(b',');
    put_number(out, amount);
    out.push(b'\n');
}

fn put_form(out: &mut Vec<u8>, form: Form) {
    let (count, letters) = form.letters();
    out.extend_from_slice(if count == 0 { b"-" } else { &letters[..count] });
}

/// Runs one line. A line that is refused has printed nothing and changed nothing.
fn run_line(case: &mut Case, line: &[u8], out: &mut Vec<u8>) -> Result<(), Refusal> {
    if line.len() > LINE_LIMIT {
        return Err(16);
    }
    if line.first() == Some(&b'#') {
        return Ok(());
    }

    // No line that asks for something has more than four fields; a fifth is kept as the sign of too many.
    let mut fields: [&[u8]; 5] = [b""; 5];
    let mut count = 0;
    for (place, field) in fields.iter_mut().zip(line.split(|&byte| byte == b',')) {
        *place = field;
        count += 1;
    }

    match fields[..count] {
        [b"claim", who, value, rank] => {
            case.admit(claimant(who)?, amount(value)?, class(rank)?)?;
            out.extend_from_slice(b"ok\n");
        }
        [b"amend", who, value] => {
            case.amend(claimant(who)?, amount(value)?)?;
            out.extend_from_slice(b"ok\n");
        }
        [b"fund", value] => {
            case.set_fund(amount(value)?)?;
            out.extend_from_slice(b"ok\n");
        }
        [b"press", letters] => {
            case.press(letters)?;
            out.extend_from_slice(b"ok\n");
        }
        [b"divide", name] => {
            case.divide(Rule::named(name).ok_or(19)?)?;
            for row in &case.rows {
                put_entry(out, b"award", row.number, i64::from(row.award));
            }
            out.extend_from_slice(b"total,");
            put_number(out, i64::from(case.fund));
            out.push(b'\n');
        }
        [b"draw"] => {
            case.draw()?;
            let awarded = case.rows.iter().map(|row| i64::from(row.award)).sum();
            put_entry(out, b"sheet", case.rows.len() as u16, awarded);
        }
        [b"sign"] => case.sign(out)?,
        [b"return"] => {
            case.take_back()?;
            out.extend_from_slice(b"returned\n");
        }
        [b"compare", left, right] => {
            let left = Form::of(letters_of(left)?);
            let right = Form::of(letters_of(right)?);
            if left == right {
                out.extend_from_slice(b"same,");
            } else {
                out.extend_from_slice(b"differ,");
                put_form(out, left);
                out.push(b',');
            }
            put_form(out, right);
            out.push(b'\n');
        }
        _ => return Err(17),
    }
    Ok(())
}

fn put_refusal(out: &mut Vec<u8>, line: usize, refusal: Refusal) {
    out.extend_from_slice(b"refused,");
    put_number(out, line as i64);
    out.push(b',');
    put_number(out, i64::from(refusal));
    out.push(b'\n');
}

fn transcribe(file: &[u8], pile: Pile) -> Vec<u8> {
    let mut out = Vec::with_capacity(4 * FILE_LIMIT);
    if file.len() > FILE_LIMIT {
        put_refusal(&mut out, 0, 21);
        return out;
    }
    let mut case = Case::new(pile);
    // A last line end ends the last line and begins none; an empty file has no line at all.
    let body = file.strip_suffix(b"\n").unwrap_or(file);
    if !file.is_empty() {
        for (index, line) in body.split(|&byte| byte == b'\n').enumerate() {
            if let Err(refusal) = run_line(&mut case, line, &mut out) {
                put_refusal(&mut out, index + 1, refusal);
            }
        }
    }
    if case.sheet_out {
        out.extend_from_slice(b"returned\n");
    }
    out
}

fn main() -> ExitCode {
    let mut by_form = false;
    for argument in std::env::args_os().skip(1) {
        if argument != "--form" {
            eprintln!("usage: plain [--form] < FILE");
            return ExitCode::from(2);
        }
        by_form = true;
    }

    let mut file = Vec::with_capacity(FILE_LIMIT + 2);
    if let Err(error) = io::stdin().lock().take(FILE_LIMIT as u64 + 1).read_to_end(&mut file) {
        eprintln!("plain: cannot read standard input: {error}");
        return ExitCode::FAILURE;
    }

    let text = if by_form {
        transcribe(&file, Pile::Reduced(Form::EMPTY))
    } else {
        let worker = thread::Builder::new()
            .stack_size(STACK_BYTES)
            .spawn(move || transcribe(&file, Pile::Whole(Vec::new())))
            .expect("a thread can be started");
        worker.join().expect("no file makes the transcript panic")
    };

    if let Err(error) = io::stdout().lock().write_all(&text) {
        eprintln!("plain: cannot write standard output: {error}");
        return ExitCode::FAILURE;
    }
    ExitCode::SUCCESS
}

//! Writes a book, and notes for each number where it stands and what it may hold, so that a
//! damaged copy knows the refusal it must meet.

use crate::book::*;

/// What a number of a book is.
#[derive(Debug, Clone, Copy, PartialEq, Eq)]
pub enum Kind {
    /// Any number will do.
    Signed,
    /// From the first to the second number.
    Range(u64, u64),
    /// An index below this count.
    Index(u64),
    Count(u64, u64),
    /// A date after this one in its list.
    Rising(u64),
    /// The mark of a budget's activity.
    BudgetMark,
}

/// A number of a book: its own place, that of its field (the mark's, behind a mark), its end.
#[derive(Debug, Clone, Copy, PartialEq, Eq)]
pub struct Field {
    pub at: usize,
    pub place: usize,
    pub end: usize,
    pub kind: Kind,
}

/// The bytes of a book.
pub fn encode(book: &Book) -> Vec<u8> {
    encode_noting(book).0
}

/// The bytes of a book, and its numbers in order.
pub fn encode_noting(book: &Book) -> (Vec<u8>, Vec<Field>) {
    let mut writer = Writer::default();
    writer.book(book);
    (writer.bytes, writer.fields)
}

/// The shortest form of a number.
pub fn groups(mut value: u64) -> Vec<u8> {
    let mut bytes = Vec::new();
    while value >= 0x80 {
        bytes.push(value as u8 | 0x80);
        value >>= 7;
    }
    bytes.push(value as u8);
    bytes
}

/// The number that stands for a signed value.
pub fn sent(value: i64) -> u64 {
    if value >= 0 { (value as u64) << 1 } else { !((value as u64) << 1) }
}

#[derive(Default)]
struct Writer {
    bytes: Vec<u8>,
    fields: Vec<Field>,
}

const DAY: Kind = Kind::Range(FIRST_DAY, LAST_DAY);
const MINUTES: Kind = Kind::Range(0, MOST_MINUTES);

/// The kinds of field.
impl Writer {
    fn number_at(&mut self, value: u64, kind: Kind, place: usize) {
        let at = self.bytes.len();
        self.bytes.extend(groups(value));
        let end = self.bytes.len();
        self.fields.push(Field { at, place, end, kind });
    }

    fn number(&mut self, value: u64, kind: Kind) {
        self.number_at(value, kind, self.bytes.len());
    }

    fn up_to(&mut self, value: u64, high: u64) {
        self.number(value, Kind::Range(0, high));
    }

    fn signed(&mut self, value: i64) {
        self.number(sent(value), Kind::Signed);
    }

    fn count(&mut self, count: usize, (low, high): (u64, u64)) {
        self.number(count as u64, Kind::Count(low, high));
    }

    fn optional(&mut self, value: Option<u64>, kind: Kind) {
        self.marked(value, Kind::Range(0, 1), kind);
    }

    fn marked(&mut self, value: Option<u64>, mark: Kind, kind: Kind) {
        let place = self.bytes.len();
        self.number(u64::from(value.is_some()), mark);
        if let Some(value) = value {
            self.number_at(value, kind, place);
        }
    }

    fn rising(&mut self, day: u64, previous: Option<u64>) {
        self.number(day, previous.map_or(DAY, Kind::Rising));
    }

    fn rising_days(&mut self, days: &[u64]) {
        self.count(days.len(), limits::DAYS);
        let mut previous = None;
        for day in days {
            self.rising(*day, previous);
            previous = Some(*day);
        }
    }
}

/// The sections and their records.
impl Writer {
    fn book(&mut self, book: &Book) {
        self.number(1, Kind::Range(1, 1));
        self.optional(book.data_date, DAY);
        self.up_to(book.technique, 5);
        if book.technique == 5 {
            self.signed(book.share);
        }
        self.up_to(book.forecast, 3);
        self.count(book.calendars.len(), limits::CALENDARS);
        book.calendars.iter().for_each(|c| self.calendar(c));
        self.count(book.activities.len(), limits::ACTIVITIES);
        book.activities.iter().for_each(|a| self.activity(a, book));
        self.count(book.resources.len(), limits::RESOURCES);
        book.resources.iter().for_each(|r| self.resource(r));
        self.count(book.assignments.len(), limits::ASSIGNMENTS);
        book.assignments.iter().for_each(|a| self.assignment(a, book));
        self.count(book.expenses.len(), limits::EXPENSES);
        book.expenses.iter().for_each(|e| self.expense(e, book));
        self.baseline(book);
        self.count(book.budgets.len(), limits::BUDGETS);
        book.budgets.iter().for_each(|b| self.budget(b, book));
        self.count(book.log.len(), limits::LOG);
        book.log.iter().for_each(|c| self.change(c, book));
        self.count(book.funds.len(), limits::FUNDS);
        book.funds.iter().for_each(|f| self.signed(*f));
        self.count(book.periods.len(), limits::PERIODS);
        book.periods.iter().for_each(|p| self.number(*p, DAY));
        self.count(book.records.len(), limits::RECORDS);
        book.records.iter().for_each(|r| self.record(r, book));
    }

    fn calendar(&mut self, calendar: &Calendar) {
        self.up_to(calendar.week, 127);
        self.up_to(calendar.region, 1);
        self.rising_days(&calendar.holidays);
        self.rising_days(&calendar.extra_days);
        self.count(calendar.exceptions.len(), limits::DAYS);
        let mut previous = None;
        for (day, working) in &calendar.exceptions {
            self.rising(*day, previous);
            self.up_to(*working, 1);
            previous = Some(*day);
        }
    }

    fn activity(&mut self, activity: &Activity, book: &Book) {
        self.optional(activity.parent, activities(book));
        self.optional(activity.calendar, Kind::Index(book.calendars.len() as u64));
        self.up_to(activity.status, 2);
        self.number(activity.early_start, DAY);
        self.number(activity.early_finish, DAY);
        self.optional(activity.actual_start, DAY);
        self.optional(activity.actual_finish, DAY);
        self.number(activity.working_minutes, MINUTES);
        self.number(activity.remaining_minutes, MINUTES);
        self.optional(activity.percent.map(sent), Kind::Signed);
    }

    fn resource(&mut self, resource: &Resource) {
        self.up_to(resource.kind, 2);
        self.count(resource.prices.len(), limits::PRICES);
        for (from, price) in &resource.prices {
            self.optional(*from, DAY);
            self.signed(*price);
        }
    }

    fn assignment(&mut self, assignment: &Assignment, book: &Book) {
        self.number(assignment.activity, activities(book));
        self.optional(assignment.resource, Kind::Index(book.resources.len() as u64));
        self.signed(assignment.planned);
        self.signed(assignment.actual);
        self.signed(assignment.remaining);
    }

    fn expense(&mut self, expense: &Expense, book: &Book) {
        self.number(expense.activity, activities(book));
        self.up_to(expense.accrual, 2);
        self.signed(expense.planned);
        self.signed(expense.actual);
        self.signed(expense.remaining);
    }

    fn baseline(&mut self, book: &Book) {
        self.up_to(u64::from(book.baseline.is_some()), 1);
        let Some(lines) = &book.baseline else { return };
        self.count(lines.len(), limits::LINES);
        for line in lines {
            self.number(line.activity, activities(book));
            self.number(line.start, DAY);
            self.number(line.finish, DAY);
            self.number(line.minutes, MINUTES);
            self.signed(line.cost);
        }
    }

    fn budget(&mut self, budget: &Budget, book: &Book) {
        self.marked(budget.activity, Kind::BudgetMark, activities(book));
        self.signed(budget.original);
        self.count(budget.plan.len(), limits::PLAN);
        budget.plan.iter().for_each(|amount| self.signed(*amount));
    }

    fn change(&mut self, change: &Change, book: &Book) {
        self.optional(change.activity, activities(book));
        self.signed(change.amount);
        self.up_to(change.status, 2);
    }

    fn record(&mut self, record: &Record, book: &Book) {
        self.number(record.period, Kind::Index(book.periods.len() as u64));
        self.number(record.activity, activities(book));
        self.signed(record.earned);
        self.signed(record.labor);
        self.signed(record.nonlabor);
        self.signed(record.material);
        self.signed(record.expense);
    }
}

fn activities(book: &Book) -> Kind {
    Kind::Index(book.activities.len() as u64)
}

//! The book as document 01 describes it: its decoded lists, and the reading of its bytes.
//! Numbers that name a case (technique, status, accrual) stay numbers here.

/// The most bytes a book may have.
pub const LONGEST: usize = 60_000;
/// The first and the last day of D: 1 January 2000 and 31 December 2099.
pub const FIRST_DAY: u64 = 10_957;
pub const LAST_DAY: u64 = 47_481;
/// The most minutes of an activity or a baseline line.
pub const MOST_MINUTES: u64 = 1_000_000_000;

/// The least and the greatest count of each list.
pub mod limits {
    pub const CALENDARS: (u64, u64) = (1, 16);
    pub const DAYS: (u64, u64) = (0, 366);
    pub const ACTIVITIES: (u64, u64) = (0, 500);
    pub const RESOURCES: (u64, u64) = (0, 200);
    pub const PRICES: (u64, u64) = (0, 40);
    pub const ASSIGNMENTS: (u64, u64) = (0, 2_000);
    pub const EXPENSES: (u64, u64) = (0, 1_000);
    pub const LINES: (u64, u64) = (0, 1_000);
    pub const BUDGETS: (u64, u64) = (0, 501);
    pub const PLAN: (u64, u64) = (0, 120);
    pub const LOG: (u64, u64) = (0, 500);
    pub const FUNDS: (u64, u64) = (0, 100);
    pub const PERIODS: (u64, u64) = (0, 240);
    pub const RECORDS: (u64, u64) = (0, 2_000);
}

#[derive(Debug, Clone, PartialEq, Eq, Default)]
pub struct Book {
    pub data_date: Option<u64>,
    pub technique: u64,
    /// The custom share, sent with technique 5 only.
    pub share: i64,
    pub forecast: u64,
    pub calendars: Vec<Calendar>,
    pub activities: Vec<Activity>,
    pub resources: Vec<Resource>,
    pub assignments: Vec<Assignment>,
    pub expenses: Vec<Expense>,
    pub baseline: Option<Vec<BaselineLine>>,
    pub budgets: Vec<Budget>,
    pub log: Vec<Change>,
    pub funds: Vec<i64>,
    /// The periods' finishes.
    pub periods: Vec<u64>,
    pub records: Vec<Record>,
}

#[derive(Debug, Clone, PartialEq, Eq, Default)]
pub struct Calendar {
    pub week: u64,
    pub region: u64,
    pub holidays: Vec<u64>,
    pub extra_days: Vec<u64>,
    /// Each day, and 1 if it is worked.
    pub exceptions: Vec<(u64, u64)>,
}

#[derive(Debug, Clone, PartialEq, Eq, Default)]
pub struct Activity {
    pub parent: Option<u64>,
    pub calendar: Option<u64>,
    pub status: u64,
    pub early_start: u64,
    pub early_finish: u64,
    pub actual_start: Option<u64>,
    pub actual_finish: Option<u64>,
    pub working_minutes: u64,
    pub remaining_minutes: u64,
    pub percent: Option<i64>,
}

#[derive(Debug, Clone, PartialEq, Eq, Default)]
pub struct Resource {
    pub kind: u64,
    /// Each price, and the day from which it holds.
    pub prices: Vec<(Option<u64>, i64)>,
}

#[derive(Debug, Clone, PartialEq, Eq, Default)]
pub struct Assignment {
    pub activity: u64,
    pub resource: Option<u64>,
    pub planned: i64,
    pub actual: i64,
    pub remaining: i64,
}

#[derive(Debug, Clone, PartialEq, Eq, Default)]
pub struct Expense {
    pub activity: u64,
    pub accrual: u64,
    pub planned: i64,
    pub actual: i64,
    pub remaining: i64,
}

#[derive(Debug, Clone, PartialEq, Eq, Default)]
pub struct BaselineLine {
    pub activity: u64,
    pub start: u64,
    pub finish: u64,
    pub minutes: u64,
    pub cost: i64,
}

#[derive(Debug, Clone, PartialEq, Eq, Default)]
pub struct Budget {
    /// None is the project.
    pub activity: Option<u64>,
    pub original: i64,
    pub plan: Vec<i64>,
}

#[derive(Debug, Clone, PartialEq, Eq, Default)]
pub struct Change {
    pub activity: Option<u64>,
    pub amount: i64,
    pub status: u64,
}

#[derive(Debug, Clone, PartialEq, Eq, Default)]
pub struct Record {
    pub period: u64,
    pub activity: u64,
    pub earned: i64,
    pub labor: i64,
    pub nonlabor: i64,
    pub material: i64,
    pub expense: i64,
}

/// Why a book is refused: the number of the table, and the place.
#[derive(Debug, Clone, Copy, PartialEq, Eq)]
pub struct Refusal {
    pub number: u64,
    pub place: usize,
}

type Read<T> = Result<T, Refusal>;

/// Reads a book, or says why it is refused.
pub fn decode(bytes: &[u8]) -> Read<Book> {
    if bytes.len() > LONGEST {
        return refuse(1, 0);
    }
    let mut reader = Reader { bytes, at: 0 };
    let book = reader.book()?;
    if reader.at < bytes.len() {
        return refuse(7, reader.at);
    }
    Ok(book)
}

fn refuse<T>(number: u64, place: usize) -> Read<T> {
    Err(Refusal { number, place })
}

struct Reader<'a> {
    bytes: &'a [u8],
    at: usize,
}

/// The kinds of field.
impl Reader<'_> {
    /// A number in groups of seven bits, in its shortest form and below 2^64.
    fn number(&mut self) -> Read<u64> {
        let place = self.at;
        let mut value = 0;
        for group in 0.. {
            let Some(&byte) = self.bytes.get(self.at) else {
                return refuse(2, self.bytes.len());
            };
            let ends = byte < 0x80;
            if (group == 9 && byte > 1) || (group > 0 && byte == 0) {
                return refuse(3, place);
            }
            self.at += 1;
            value |= u64::from(byte & 0x7f) << (7 * group);
            if ends {
                break;
            }
        }
        Ok(value)
    }

    /// A number from `low` to `high`, else `refusal` at `place`.
    fn bounded(&mut self, (low, high): (u64, u64), refusal: u64, place: usize) -> Read<u64> {
        let value = self.number()?;
        if value < low || value > high {
            return refuse(refusal, place);
        }
        Ok(value)
    }

    fn up_to(&mut self, high: u64) -> Read<u64> {
        self.bounded((0, high), 4, self.at)
    }

    fn signed(&mut self) -> Read<i64> {
        let sent = self.number()?;
        let half = (sent >> 1) as i64;
        Ok(if sent & 1 == 0 { half } else { -half - 1 })
    }

    fn day(&mut self) -> Read<u64> {
        self.day_at(self.at)
    }

    fn day_at(&mut self, place: usize) -> Read<u64> {
        self.bounded((FIRST_DAY, LAST_DAY), 4, place)
    }

    /// A day after `previous`, the one before it in its list.
    fn rising_day(&mut self, previous: Option<u64>) -> Read<u64> {
        let place = self.at;
        let day = self.day()?;
        if previous.is_some_and(|p| day <= p) {
            return refuse(6, place);
        }
        Ok(day)
    }

    fn index(&mut self, count: usize) -> Read<u64> {
        self.index_at(count, self.at)
    }

    fn index_at(&mut self, count: usize, place: usize) -> Read<u64> {
        let index = self.number()?;
        if index >= count as u64 {
            return refuse(4, place);
        }
        Ok(index)
    }

    /// An O field; `value` is given the place of the mark.
    fn optional<T>(&mut self, value: impl Fn(&mut Self, usize) -> Read<T>) -> Read<Option<T>> {
        let place = self.at;
        match self.up_to(1)? {
            0 => Ok(None),
            _ => value(self, place).map(Some),
        }
    }

    fn optional_day(&mut self) -> Read<Option<u64>> {
        self.optional(|r, place| r.day_at(place))
    }

    fn optional_index(&mut self, count: usize) -> Read<Option<u64>> {
        self.optional(|r, place| r.index_at(count, place))
    }

    fn optional_signed(&mut self) -> Read<Option<i64>> {
        self.optional(|r, _| r.signed())
    }

    fn count(&mut self, limits: (u64, u64)) -> Read<usize> {
        self.bounded(limits, 5, self.at).map(|count| count as usize)
    }

    fn list<T>(&mut self, limits: (u64, u64), item: impl Fn(&mut Self) -> Read<T>) -> Read<Vec<T>> {
        (0..self.count(limits)?).map(|_| item(self)).collect()
    }

    fn rising_days(&mut self) -> Read<Vec<u64>> {
        let count = self.count(limits::DAYS)?;
        let mut days = Vec::new();
        for _ in 0..count {
            days.push(self.rising_day(days.last().copied())?);
        }
        Ok(days)
    }
}

/// The sections and their records.
impl Reader<'_> {
    fn book(&mut self) -> Read<Book> {
        self.bounded((1, 1), 4, self.at)?;
        let data_date = self.optional_day()?;
        let technique = self.up_to(5)?;
        let share = if technique == 5 { self.signed()? } else { 0 };
        let forecast = self.up_to(3)?;
        let calendars = self.list(limits::CALENDARS, Self::calendar)?;
        let activities = self.activities(calendars.len())?;
        let resources = self.list(limits::RESOURCES, Self::resource)?;
        let (named, staff) = (activities.len(), resources.len());
        let assignments = self.list(limits::ASSIGNMENTS, |r| r.assignment(named, staff))?;
        let expenses = self.list(limits::EXPENSES, |r| r.expense(named))?;
        let baseline = self.baseline(named)?;
        let budgets = self.budgets(named)?;
        let log = self.list(limits::LOG, |r| r.change(named))?;
        let funds = self.list(limits::FUNDS, Self::signed)?;
        let periods = self.list(limits::PERIODS, Self::day)?;
        let records = self.list(limits::RECORDS, |r| r.record(periods.len(), named))?;
        Ok(Book {
            data_date,
            technique,
            share,
            forecast,
            calendars,
            activities,
            resources,
            assignments,
            expenses,
            baseline,
            budgets,
            log,
            funds,
            periods,
            records,
        })
    }

    fn calendar(&mut self) -> Read<Calendar> {
        Ok(Calendar {
            week: self.up_to(127)?,
            region: self.up_to(1)?,
            holidays: self.rising_days()?,
            extra_days: self.rising_days()?,
            exceptions: self.exceptions()?,
        })
    }

    fn exceptions(&mut self) -> Read<Vec<(u64, u64)>> {
        let count = self.count(limits::DAYS)?;
        let mut exceptions: Vec<(u64, u64)> = Vec::new();
        for _ in 0..count {
            let day = self.rising_day(exceptions.last().map(|(day, _)| *day))?;
            exceptions.push((day, self.up_to(1)?));
        }
        Ok(exceptions)
    }

    fn activities(&mut self, calendars: usize) -> Read<Vec<Activity>> {
        let count = self.count(limits::ACTIVITIES)?;
        (0..count).map(|_| self.activity(count, calendars)).collect()
    }

    fn activity(&mut self, activities: usize, calendars: usize) -> Read<Activity> {
        Ok(Activity {
            parent: self.optional_index(activities)?,
            calendar: self.optional_index(calendars)?,
            status: self.up_to(2)?,
            early_start: self.day()?,
            early_finish: self.day()?,
            actual_start: self.optional_day()?,
            actual_finish: self.optional_day()?,
            working_minutes: self.up_to(MOST_MINUTES)?,
            remaining_minutes: self.up_to(MOST_MINUTES)?,
            percent: self.optional_signed()?,
        })
    }

    fn resource(&mut self) -> Read<Resource> {
        Ok(Resource {
            kind: self.up_to(2)?,
            prices: self.list(limits::PRICES, |r| Ok((r.optional_day()?, r.signed()?)))?,
        })
    }

    fn assignment(&mut self, activities: usize, resources: usize) -> Read<Assignment> {
        Ok(Assignment {
            activity: self.index(activities)?,
            resource: self.optional_index(resources)?,
            planned: self.signed()?,
            actual: self.signed()?,
            remaining: self.signed()?,
        })
    }

    fn expense(&mut self, activities: usize) -> Read<Expense> {
        Ok(Expense {
            activity: self.index(activities)?,
            accrual: self.up_to(2)?,
            planned: self.signed()?,
            actual: self.signed()?,
            remaining: self.signed()?,
        })
    }

    fn baseline(&mut self, activities: usize) -> Read<Option<Vec<BaselineLine>>> {
        match self.up_to(1)? {
            0 => Ok(None),
            _ => self.list(limits::LINES, |r| r.baseline_line(activities)).map(Some),
        }
    }

    fn baseline_line(&mut self, activities: usize) -> Read<BaselineLine> {
        Ok(BaselineLine {
            activity: self.index(activities)?,
            start: self.day()?,
            finish: self.day()?,
            minutes: self.up_to(MOST_MINUTES)?,
            cost: self.signed()?,
        })
    }

    fn budgets(&mut self, activities: usize) -> Read<Vec<Budget>> {
        let count = self.count(limits::BUDGETS)?;
        let mut budgets = Vec::new();
        // The project stands behind the activities.
        let mut named = vec![false; activities + 1];
        for _ in 0..count {
            let place = self.at;
            let activity = self.optional_index(activities)?;
            let owner = activity.map_or(activities, |index| index as usize);
            if std::mem::replace(&mut named[owner], true) {
                return refuse(6, place);
            }
            let original = self.signed()?;
            let plan = self.list(limits::PLAN, Self::signed)?;
            budgets.push(Budget { activity, original, plan });
        }
        Ok(budgets)
    }

    fn change(&mut self, activities: usize) -> Read<Change> {
        Ok(Change {
            activity: self.optional_index(activities)?,
            amount: self.signed()?,
            status: self.up_to(2)?,
        })
    }

    fn record(&mut self, periods: usize, activities: usize) -> Read<Record> {
        Ok(Record {
            period: self.index(periods)?,
            activity: self.index(activities)?,
            earned: self.signed()?,
            labor: self.signed()?,
            nonlabor: self.signed()?,
            material: self.signed()?,
            expense: self.signed()?,
        })
    }
}

"""The model plan of the textbook (Winklevoss, Pension Mathematics, second edition), held to the tables that it prints.

    python3 tests/textbook.py --check     builds and runs crates/value and crates/test_annuity_factors, and compares cell by
                                          cell
    python3 tests/textbook.py --oracle    compares what tests/value_oracle.py prints, and the factors of tests/oracle.py
    python3 tests/textbook.py --write     writes examples/textbook.case and its lines

The plan pays 1.5 percent of the final five-year average for each year, interest is 8 percent, pay rises by the merit
scale and 5 percent a year, the member enters at 30 and retires at 65. For each age, N over V is the part of the benefit
that a method allots to that year, and L over V the part allotted before it. Pensions are paid yearly but in table 5-1,
which has them monthly.
"""
import sys
from collections import Counter
from fractions import Fraction
from typing import NamedTuple

import annuity_factors
import value_oracle
from member_figures import dollars
from oracle import (AB, BD, BP, CD, CP, FINAL, FIRST, METHOD_NAMES, METHODS, MILLION, MONTHLY, MOST_ASSETS, S, YEARLY,
                    Figures, Member, Plan, nearest, table)
from textbook_tables import (CERTAIN, DISABILITY, FROM_65, LIFE, MERIT, MORTALITY, TABLE_3_5, TABLE_5_1, TABLE_6_2,
                             TABLE_6_3, TERMINATION)
from value_files import EXAMPLES, answer, case_file

ENTRY, RETIRE, LAST_RETIRE = 30, 65, 75
MODEL = Plan(interest=800, retire=RETIRE, pay=YEARLY, formula=FINAL, unit=150, average=5, method=CP, assets=0, years=15)
# The weight of merit 1: the largest hundred that keeps age 64's weight within 100000.
SCALE = 4200


# ---- the model plan

def within(printed, age):
    """A table's number for an age. Beyond its ends stand its first and its last, and no member here needs them."""
    return Fraction(printed[min(max(age, min(printed)), max(printed))])


def model_rates(age):
    """The book's own rates, each for one cause alone, as it prints them: with four or five places, so whole millionths. From
    65 on it prints no termination and no disability."""
    causes = (MORTALITY, TERMINATION, DISABILITY) if age < RETIRE else (MORTALITY, {age: '0'}, {age: '0'})
    rates = [within(printed, age) * MILLION for printed in causes]
    assert all(rate.denominator == 1 for rate in rates)
    return tuple(map(int, rates))


def model_weight(age):
    age = min(max(age, min(MERIT)), max(MERIT))
    weight = SCALE * within(MERIT, age) * Fraction(105, 100)**(age - min(MERIT))
    return nearest(weight.numerator, weight.denominator)


def model_rows():
    return table(model_rates, model_weight)


def one_career():
    """One career at each age: dollars of pay are ten times the weights, so that the benefit is the same at all. Each age is
    a person of its own here, since all of them together are over a person's ceiling."""
    return [Member(age, age, ENTRY, age, 1000 * model_weight(age)) for age in range(ENTRY, RETIRE + 1)]


def example():
    """Six who entered at 30, with the assets of a plan that is three quarters funded or so."""
    pay = {31: '28400.00', 36: '36250.00', 43: '52800.50', 50: '61975.25', 58: '88000.00', 64: '104310.75'}
    members = [Member(100 + place, place, ENTRY, age, dollars(salary))
               for place, (age, salary) in enumerate(pay.items(), 1)]
    return case_file(MODEL._replace(assets=dollars('450000.00')), model_rows(), members)


# ---- cells

class Cell(NamedTuple):
    table: str
    column: str
    row: int
    printed: str
    worked: str

    def agrees(self):
        return self.printed == self.worked

    def text(self):
        return self.printed if self.agrees() else f'{self.printed} not {self.worked}'


# Cells that don't follow from the book's rates: by these they lie just above the half, also where nothing at all is
# rounded (69.6051, 53.6052, 60.4751 and 36.8451), and the book prints the hundredth below.
NOT_BY_ITS_RATES = {
    Cell('6-3', 'CD L/V', 38, '69.60', '69.61'),
    Cell('6-3', 'CP L/V', 40, '53.60', '53.61'),
    Cell('5-1', 'from 65', 80, '60.47', '60.48'),
    Cell('5-1', 'from 65', 92, '36.84', '36.85'),
}
# Cells of which we have the accrued part no nearer than table 6-3 prints it: a part that rounds to that gives the cell.
BY_A_ROUNDED_PART = {
    Cell('5-1', 'PTL', 62, '58.69', '58.70'),
    Cell('5-1', 'PCL', 60, '37.64', '37.63'),
}
KNOWN = NOT_BY_ITS_RATES | BY_A_ROUNDED_PART


def hundredths(fraction):
    return value_oracle.amount(nearest(100 * fraction.numerator, fraction.denominator))


def percent(part, whole):
    return hundredths(Fraction(100 * part, whole))


def career_figures(valued, plan, rows):
    """The figures of each age by the plan's method, from what is printed for the career's file."""
    said = valued(case_file(plan, rows, one_career())).decode().split('\n')
    fields = [line.removeprefix('member=').split(',') for line in said if line.startswith('member=')]
    return {int(age): Figures(*map(dollars, figures)) for age, *figures in fields}


# The AB columns of tables 6-2 and 6-3 rest on another average of pay: at 32 they have 0.37 where table 3-5 has 0.38. It
# is the unmodified column of table 3-5 that this plan's AB gives.
COLUMNS = [
    ('3-5', TABLE_3_5, 0, AB, 'cost'), ('3-5', TABLE_3_5, 1, AB, 'liability'),
    ('3-5', TABLE_3_5, 2, BP, 'cost'), ('3-5', TABLE_3_5, 3, BP, 'liability'),
    ('3-5', TABLE_3_5, 4, BD, 'cost'), ('3-5', TABLE_3_5, 5, BD, 'liability'),
    *(('6-2', TABLE_6_2, column, method, 'cost') for column, method in enumerate((BP, BD, CP, CD), 1)),
    *(('6-3', TABLE_6_3, column, method, 'liability') for column, method in enumerate((BP, BD, CP, CD), 1)),
]


def career_cells(valued, rows):
    """Tables 3-5, 6-2 and 6-3. The book prints no accrual at 65."""
    figures = {method: career_figures(valued, MODEL._replace(method=method), rows) for method in METHODS}
    for name, printed, column, method, figure in COLUMNS:
        for age, cells in printed.items():
            if cells[column]:
                at_age = figures[method][age]
                yield Cell(name, METHOD_NAMES[method] + {'cost': ' N/V', 'liability': ' L/V'}[figure], age,
                           cells[column], percent(getattr(at_age, figure), at_age.value))


def at_retirement(valued, plan, rows):
    """V over B(r) of one who retires now: G(r)."""
    said = valued(case_file(plan, rows, [Member(1, 1, ENTRY, plan.retire, dollars('500000.00'))]))
    benefit, value, *_ = map(dollars, said.decode().split('\n')[0].split(',')[1:])
    return Fraction(value, benefit)


def annuity_cells(valued, rows):
    """Table 3-6, since A and C don't show in the others: V over B(r) at retirement, unfunded over supplemental."""
    for rate, printed in LIFE.items():
        for age, cell in printed.items():
            worth = at_retirement(valued, MODEL._replace(interest=100 * rate, retire=age), rows)
            yield Cell('3-6', f'life, {rate} percent', age, cell, hundredths(worth))
    for rate, printed in CERTAIN.items():
        for years, cell in printed.items():
            plan = MODEL._replace(interest=100 * rate, years=years, assets=MOST_ASSETS)
            said = valued(case_file(plan, rows, []))
            unfunded, supplemental = (dollars(line.split('=')[1]) for line in said.decode().split('\n')[1:3])
            yield Cell('3-6', f'certain, {rate} percent', years, cell, hundredths(Fraction(unfunded, supplemental)))


def retired_cells(valued, factors, rows, pay):
    """Table 5-1 from 65 on. Nobody retires later than at 75 in a file, so that later ages have the annuities alone."""
    plan = MODEL._replace(pay=pay)
    worth = {age: at_retirement(valued, plan._replace(retire=age), rows) for age in FROM_65 if age <= LAST_RETIRE}
    later = [age for age in FROM_65 if age > LAST_RETIRE]
    asked = [annuity_factors.Case(plan.interest, age, plan.pay, FIRST, 0, rows) for age in later]
    for age, (_, deferred, *_) in zip(later, factors(asked)):
        worth[age] = Fraction(int(deferred.split()[-1]), S)
    for age, cell in FROM_65.items():
        yield Cell('5-1', 'from 65', age, cell, percent(worth[age], worth[RETIRE]))


def accrued_cells(valued, rows):
    """Table 5-1 up to 65: the value of what is accrued, where death alone removes and where all causes do. The accrued
    part is that of table 6-3's AB, as printed, since both rest on the same average of the salaries."""
    plan = MODEL._replace(pay=MONTHLY)
    deaths = {age: (death, 0, 0, weight) for age, (death, *_, weight) in rows.items()}
    for column, name, removed in ((0, 'PTL', deaths), (1, 'PCL', rows)):
        figures = career_figures(valued, plan, removed)
        for age, cells in TABLE_5_1.items():
            accrued = Fraction(TABLE_6_3[age][0]) * figures[age].value / figures[RETIRE].value
            yield Cell('5-1', name, age, cells[column], hundredths(accrued))


# ---- comparing

def show(cells):
    """A table for each of the book's: what it prints, and what is worked where that differs."""
    for name in sorted({cell.table for cell in cells}):
        here = [cell for cell in cells if cell.table == name]
        columns = list(dict.fromkeys(cell.column for cell in here))
        print(f'table {name}'.ljust(10), *(column.rjust(19) for column in columns))
        for row in sorted({cell.row for cell in here}):
            texts = {cell.column: cell.text() for cell in here if cell.row == row}
            print(str(row).ljust(10), *(texts.get(column, '').rjust(19) for column in columns))


def check(valued, factors):
    """Holds the cells to what a case file's lines, and the lines of annuities, give."""
    rows = model_rows()
    cells = [*career_cells(valued, rows), *annuity_cells(valued, rows), *accrued_cells(valued, rows),
             *retired_cells(valued, factors, rows, MONTHLY)]
    show(cells)
    differing = {cell for cell in cells if not cell.agrees()}
    if differing != KNOWN:
        sys.exit(f'textbook: other cells differ than the known ones: {differing ^ KNOWN}')
    yearly = [cell.row for cell in retired_cells(valued, factors, rows, YEARLY) if cell.agrees()]
    if yearly != [RETIRE]:
        sys.exit(f'textbook: paid yearly, table 5-1 agrees at {yearly}')
    tables = Counter(cell.table for cell in cells)
    print(f'textbook: of {len(cells)} cells ({", ".join(f"table {name} {tables[name]}" for name in sorted(tables))}), '
          f'{len(cells) - len(differing)} agree to the printed hundredth, and {len(differing)} are off by 0.01 as known; '
          f'paid yearly, of the last column of table 5-1 only the cell of {RETIRE} would agree')


def main():
    case = example()
    if sys.argv[1:] == ['--check']:
        if (EXAMPLES / 'textbook.case').read_bytes() != case:
            sys.exit('textbook: examples/textbook.case differs from what this program makes')
        check(answer, annuity_factors.answers)
    elif sys.argv[1:] == ['--oracle']:
        check(value_oracle.lines, lambda cases: [case.lines() for case in cases])
    elif sys.argv[1:] == ['--write']:
        (EXAMPLES / 'textbook.case').write_bytes(case)
        (EXAMPLES / 'textbook.lines').write_bytes(value_oracle.lines(case))
    else:
        sys.exit(__doc__)


if __name__ == '__main__':
    main()

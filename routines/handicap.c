// The handicap formula, written once: both scoring routines below call it.
// A boat's row: its elapsed time in seconds, its allowance in seconds a mile, its corrected time.
unsigned dinghies checked[3][3];
unsigned keelboats checked[2][3];

unsigned handicap(unsigned elapsed, unsigned allowance, unsigned miles)
{
    unsigned credit, corrected;

    credit = allowance * miles;
    corrected = 0;
    if (credit < elapsed) {
        corrected = elapsed - credit;
    }
    return corrected;
}

// A whole class, row by row; the result is its best corrected time.
unsigned score_class(array_ptr<unsigned checked[3]> row : count(rows), unsigned rows, unsigned miles)
{
    unsigned i, elapsed, allowance, corrected, best;

    best = 4294967295;
    while (i < rows) {
        elapsed = row[i][0];
        allowance = row[i][1];
        corrected = handicap(elapsed, allowance, miles);
        row[i][2] = corrected;
        if (corrected < best) {
            best = corrected;
        }
        i = i + 1;
    }
    return best;
}

// The day: both classes, and a guest who is in neither.
void score_day(unsigned miles, unsigned guest_elapsed, unsigned guest_allowance, unsigned best_dinghy, unsigned best_keelboat, unsigned guest)
{
    array_ptr<unsigned checked[3]> row : count(rows);
    unsigned rows;

    bundled {
        row = dinghies;
        rows = 3;
    }
    best_dinghy = score_class(row, rows, miles);
    bundled {
        row = keelboats;
        rows = 2;
    }
    best_keelboat = score_class(row, rows, miles);
    guest = handicap(guest_elapsed, guest_allowance, miles);
}

// The sum of the elapsed times of a block of rows: entry number, boat, elapsed time in seconds. `i != rows` alone does not say that i lies below
// rows; with the loop fact no access can stop a run.
unsigned finishers checked[4][3];

void elapsed_times(array_ptr<unsigned checked[3]> row : count(rows), unsigned rows, unsigned i, unsigned time, unsigned total)
{
    dynamic_check(row != NULL);
    total = 0;
    i = 0;
    while (i != rows) where i <= rows {
        time = row[i][2];
        total = total + time;
        i = i + 1;
    }
}

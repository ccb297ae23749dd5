// The first club's routine for late entries: row pointer and count of rows are stepped together, in one bundle.
unsigned first checked[4];
unsigned second checked[4];
unsigned third checked[4];

void late(array_ptr<unsigned> row : count(rows), unsigned rows, unsigned boat)
{
    dynamic_check(rows > 0);
    row[0] = boat;
    bundled {
        row = row + 1;
        rows = rows - 1;
    }
}

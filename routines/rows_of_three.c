// The first club's routine with entry rows of three cells: entry number, boat, time. One step of row is a whole row.
unsigned first checked[4][3];
unsigned second checked[4][3];
unsigned third checked[4][3];

void late(array_ptr<unsigned checked[3]> row : count(rows), unsigned rows, unsigned entry, unsigned boat, unsigned time)
{
    dynamic_check(rows > 0);
    row[0][0] = entry;
    row[0][1] = boat;
    row[0][2] = time;
    bundled {
        row = row + 1;
        rows = rows - 1;
    }
}

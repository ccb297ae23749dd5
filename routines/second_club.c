// The second club's routine for late entries: the count of rows is raised before anything allows it.
unsigned first checked[4];
unsigned second checked[4];
unsigned third checked[4];

void late(array_ptr<unsigned> row : count(rows), unsigned rows, unsigned boat)
{
    rows = rows + 1;
    row[rows - 1] = boat;
}

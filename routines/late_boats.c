// One laptop's routine for late entries: the boats that wait, numbered from `boat` on, get the next rows of this laptop's block. Both laptops' routines
// run in turn over one memory, in which the blocks touch. Neither knows of the other's block, and none of its rows is ever written by the other.
unsigned block checked[4];

void late_boats(array_ptr<unsigned> row : count(rows), unsigned rows, unsigned boat, unsigned waiting)
{
    while (waiting > 0) {
        dynamic_check(rows > 0);
        row[0] = boat;
        bundled {
            row = row + 1;
            rows = rows - 1;
        }
        boat = boat + 1;
        waiting = waiting - 1;
    }
}

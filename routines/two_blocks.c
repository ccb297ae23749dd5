// Late entries of two classes: the routine chooses the block of the boat's class, and the bounds of row follow it. Both sides declare the same
// bound, count(rows), so behind the if one row is in force; count(3) on one side and count(4) on the other would be refused with 13.
unsigned dinghies checked[3];
unsigned keelboats checked[4];

void late(array_ptr<unsigned> dinghy : count(dinghy_rows), unsigned dinghy_rows,
          array_ptr<unsigned> keelboat : count(keelboat_rows), unsigned keelboat_rows, unsigned is_keelboat, unsigned boat)
{
    array_ptr<unsigned> row : count(0);    // until a block is chosen, no cell is in bounds
    unsigned rows;

    if (is_keelboat == 0) {
        rows = dinghy_rows;
        row = dinghy where row : count(rows);
    } else {
        rows = keelboat_rows;
        row = keelboat where row : count(rows);
    }
    dynamic_check(rows > 0);
    row[0] = boat;
    bundled {
        row = row + 1;
        rows = rows - 1;
    }
}

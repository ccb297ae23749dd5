// Copies a boat's name into the list, letter by letter up to its 0. A name that is too long stops the run at the last cell of its place in the list:
// the 0 there stays, and so does the name behind it.
unsigned entered nt_checked[12];
unsigned listed nt_checked[8];
unsigned next nt_checked[8];

void copy_name(nt_array_ptr<unsigned> from : count(from_letters), unsigned from_letters,
               nt_array_ptr<unsigned> to : count(to_letters), unsigned to_letters)
{
    unsigned i;
    unsigned letter;

    i = 0;
    letter = from[i];
    while (letter != 0) {
        to[i] = letter;
        i = i + 1;
        letter = from[i];    // if from_letters reaches the 0, the loop ends there; if not, check 3 stops the run
    }
    to[i] = letter;
}

"""Three late entries in a block of two rows: the third stops, and the neighbour's row is not touched. Then the routine is edited."""

import mizzengrape

# The routine of examples/c/main.c: check rows > 0, row[0] := boat, and a bundle that steps both.
ROUTINE = (
    [6, 2, 8, 24, 32, 35, 2, 2, 1, 0, 0, -1, 0, 0, 1, 0] + [0] * 16 + [10, 1, 2, 1, 0, 0, 0, 9, 0, -1, 0, 2, 0, 0]
    + [13, 2, 0, 0, 0, 0, 0, 6, 0, 0, 1, 0, 0, 0, 2, 1, 1, -1, 0, 0, 0]
)
print("safe", mizzengrape.check(ROUTINE))
cells, values = [0, 0, 0, 201, 0], [1, 2, 0]
for boat in (101, 102, 103):
    values[2] = boat
    run = mizzengrape.run(ROUTINE, [1, 2, 3, 2], cells, values, [1, 0, 0])
    cells, values = run.cells, run.values
    print("boat", boat, run.outcome, run.steps, run.check, cells)
try:
    mizzengrape.run(ROUTINE, [1, 2, 3, 2], cells, values, [1, 0, 0], raise_stop=True)
except mizzengrape.Stopped as stop:
    print(stop)
try:
    mizzengrape.run(ROUTINE, [1, 2, 3, 2], cells, [1, 3, 0], [1, 0, 0])
except mizzengrape.Refused as refused:
    print(refused, refused.number, refused.place)
try:
    mizzengrape.check(ROUTINE[:-7] + [2, 1, 1, 1, 0, 0, 0])
except mizzengrape.Refused as refused:
    print(refused, refused.pointer)
for wrong in ([1 << 31], ["a"]):
    try:
        mizzengrape.check(wrong)
    except (ValueError, TypeError) as error:
        print(type(error).__name__)

editor = mizzengrape.Editor(ROUTINE, places=2, keep=[0, 2])
print("taken", editor.verdict, editor.kept)
print("the count raised at the end", editor.insert(5, [2, 1, 1, 1, 0, 0, 0]))
print("and taken back", editor.remove(5), editor.table == ROUTINE)
for position, text in ((3, [1, 2, 0, 0, 0, 0, 0]), (0, [2, 3, 3, 1, 0, 0, 0])):
    try:
        editor.replace(position, text)
    except mizzengrape.Refused as refused:
        print(refused, editor.kept)

# The handicap formula, and a routine that calls it for a row of its block, as in examples/c/main.c.
FORMULA = [6, 1, 7, 24, 31, 7, 2] + [0] * 24 + [3, 2, 0, 1, 2, 0, 0]
SCORE = [6, 0, 6, 24, 30, 21, 1, 0, 0, -1, 0, 0, -1, 2] + [0] * 16 + [8, 2, 0, -1, 0, 0, 0, 15, 0, 2, 2, 1, -1, -1, 9, 0, -1, 1, 2, 0, 0]
mizzengrape.check_set([FORMULA, SCORE])
for limit in (100, 2):
    run = mizzengrape.run_set([FORMULA, SCORE], [1, 2], [0, 700, 0], [1, 3, 0], [1, 0, 0], limit)
    print("score", run.outcome, run.steps, run.routine, run.statement, run.cells)
for wrong in ([SCORE, FORMULA], []):
    try:
        mizzengrape.check_set(wrong)
    except mizzengrape.Refused as refused:
        print(refused, refused.routine)

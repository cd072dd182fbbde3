"""Two worked examinations with bands of abilities. All values were worked out by hand from docs/FORMATS.md.

ONE is bank A with another response to item 5, and a plan with the point 2. Session 0 stays in band 0 with the items 2, 1 and 3.
In session 1 the first response moves the estimate to point 2, in band 1, where no item was shown yet.

TWO has three items and the point 1. The response 1 to item 0 or 1 moves the estimate there. In session 2 no form of two items is
left in band 0, and at its second step none in band 1.
"""
BANK_ONE = """item,stimulus,categories,i0,i1,i2,l0_0,l0_1,l0_2,l1_0,l1_1,l1_2
0,0,2,9,5,1,-7,-7,-7,-7,-7,-7
1,0,2,7,8,2,-7,-7,-7,-7,-7,-7
2,0,2,4,9,3,-7,-7,-7,-30,-15,-1
3,0,2,2,6,8,-7,-7,-7,-7,-7,-7
4,0,2,1,4,9,0,-1,-20,-7,-7,-7
5,0,2,3,7,5,-7,-7,-7,-30,-15,-1
"""
PLAN_ONE = f"""length 3
prior -10 0 -10
rate 1 65535
key {"0" * 64}
bands 2
count 1 1 0-1
enemies 2 5
"""
SCRIPT_ONE = """begin 70
answer 0 0 0
answer 0 1 0
answer 0 2 0
begin 71
answer 1 0 1
answer 1 1 1
close 1
"""
ITEMS_ONE = [[2, 1, 3], [5, 4, 1]]
# Without the line `bands` item 0 is the last one; so it is where the last response is 0, and the estimate goes back to point 1.
LAST_WITHOUT_BANDS = LAST_AFTER_ANOTHER = 0


def counts(front, shown, eligible):
    return [f"{front}item {i} shown {A} eligible {E}" for i, (A, E) in enumerate(zip(shown, eligible))]


SUMMARY_ONE = "entries 14 sessions 2 finished 2 proved 6 unproved 0 aside 0"
LINES_ONE = ["exposure finished 2", *counts("", [0, 2, 1, 1, 1, 1], [2] * 6),
             "band 0 visited 2", *counts("band 0 ", [0, 1, 1, 1, 0, 1], [2, 1, 1, 1, 2, 2]),
             "band 1 visited 1", *counts("band 1 ", [0, 1, 0, 0, 1, 0], [1] * 6)]

BANK_TWO = """item,stimulus,categories,i0,i1,l0_0,l0_1,l1_0,l1_1
0,0,2,9,1,-1,-1,-9,-1
1,0,2,8,5,-1,-1,-9,-1
2,0,2,7,4,-1,-1,-1,-1
"""
PLAN_TWO = f"length 2\nprior 0 -1\nrate 1 65535\nkey {'0' * 64}\nbands 1\n"
SCRIPT_TWO = "".join(f"begin {70 + s}\nanswer {s} 0 1\nanswer {s} 1 0\n" for s in range(3))
ITEMS_TWO = [[0, 1], [1, 2], [0, 1]]
SUMMARY_TWO = "entries 17 sessions 3 finished 3 proved 6 unproved 0 aside 2"
LINES_TWO = ["exposure finished 3", *counts("", [2, 3, 1], [3] * 3),
             "band 0 visited 3", *counts("band 0 ", [2, 1, 0], [2, 3, 3]),
             "band 1 visited 3", *counts("band 1 ", [0, 2, 1], [3, 2, 3])]
REPLIES_TWO = """session 0 step 0 item 0 proved
session 0 step 1 item 1 proved
session 0 complete
session 1 step 0 item 1 proved
session 1 step 1 item 2 proved
session 1 complete
session 2 step 0 item 0 proved
session 2 step 1 item 1 proved
session 2 complete
"""

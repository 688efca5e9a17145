sig sticks.

kind nat type.
type z nat.
type s nat -> nat.

% A move leads from a heap to a smaller one; a position wins if some move leads to one that does not.
type move nat -> nat -> o.
type wins nat -> o.
type loses nat -> o.

sig prenex.

kind thing, formula type.

type a, b              thing.
type f                 thing -> thing.
type path, adjacent    thing -> thing -> formula.
type conj, disj, imp   formula -> formula -> formula.
type all, some         (thing -> formula) -> formula.
infixr conj 144.
infixr disj 143.
infixr imp  142.

% `prenex A B`: B is a prenex form of A.
type prenex            formula -> formula -> o.

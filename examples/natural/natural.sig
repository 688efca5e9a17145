sig natural.

kind prop type.
kind proof type.

type falsum       prop.
type p, q, r      prop.
type imp, conj, disj  prop -> prop -> prop.

% Right of 130, where => stands, so that the arrow of the object language binds tighter than that of the clauses.
infixr imp  141.
infixr disj 142.
infixr conj 143.

% Proofs of natural deduction. An assumption is a bound variable of the proof.
type pair             proof -> proof -> proof.
type first, second    proof -> proof.
type left, right      proof -> proof.
type cases            proof -> (proof -> proof) -> (proof -> proof) -> proof.
type lambda           (proof -> proof) -> proof.
type apply            proof -> proof -> proof.
type explode          proof -> proof.

% `shows P A`: the proof P shows A.
type shows     proof -> prop -> o.

% `provable A`: the formula has a proof. It always ends.
type provable  prop -> o.

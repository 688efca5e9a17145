sig checker.

kind thing, formula, proof type.

type zero              thing.
type succ              thing -> thing.
type equal, less       thing -> thing -> formula.
type imp, conj         formula -> formula -> formula.
type all, some         (thing -> formula) -> formula.
infix  equal 150.
infix  less  150.
infixr conj  144.
infixr imp   143.

% One constructor for each rule of natural deduction.
type imp_i    formula -> (proof -> proof) -> proof.
type imp_e    proof -> proof -> proof.
type conj_i   proof -> proof -> proof.
type conj_l, conj_r  proof -> proof.
type all_i    (thing -> proof) -> proof.
type all_e    thing -> proof -> proof.
type some_i   thing -> (thing -> formula) -> proof -> proof.
type some_e   proof -> (thing -> proof -> proof) -> proof.

% Axioms of the theory.
type less_succ  thing -> proof.
type less_trans proof -> proof -> proof.

% `checks P A`: the proof P is one of A.
type checks   proof -> formula -> o.

% Named theorems with their proofs.
type theorem  string -> formula -> proof -> o.
type holds    string -> o.

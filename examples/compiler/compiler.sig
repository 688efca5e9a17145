sig compiler.

kind expr, code type.

type num        int -> expr.
type plus, times, minus  expr -> expr -> expr.
type let        expr -> (expr -> expr) -> expr.
infixl plus  150.
infixl minus 150.
infixl times 160.

% Instructions of a stack machine.
type push           int -> code.
type add, mul, sub  code.
type load           int -> code.
type store, drop    code.

% `compile E C`: the code of a closed expression.
type compile    expr -> list code -> o.

% `runs C V`: the code leaves V.
type runs       list code -> int -> o.

% `value E V`: what the expression means.
type value      expr -> int -> o.

% The simply typed lambda calculus: type inference, evaluation and normal forms. Variables of the object language are variables of the
% language itself, so no clause speaks of names, substitution or contexts.
%
% ? of (abs x\ abs y\ x) T
% answer 1
%   T = _1 arr _2 arr _1
% no more answers
%
% ? of (abs x\ app x x) T
% no more answers
%
% ? eval (app (abs x\ app x tt) (abs y\ if y ff tt)) V
% answer 1
%   V = ff
% no more answers
%
% ? norm (abs x\ app (abs y\ y) x) N
% answer 1
%   N = abs (x1\ x1)
% no more answers
module stlc.

of tt bool.
of ff bool.
of (if L M N) T :- of L bool, of M T, of N T.
of (app M N) T :- of M (S arr T), of N S.
of (abs M) (S arr T) :- pi x\ of x S => of (M x) T.

eval tt tt.
eval ff ff.
eval (abs M) (abs M).
eval (if L M N) V :- eval L tt, eval M V.
eval (if L M N) V :- eval L ff, eval N V.
eval (app M N) V :- eval M (abs R), eval N U, eval (R U) V.

% `head M N`: N is M, with an abstraction at its head applied as often as that can be.
type head  tm -> tm -> o.
type spine tm -> tm -> o.

norm tt tt.
norm ff ff.
norm (abs M) (abs N) :- pi x\ spine x x => norm (M x) (N x).
norm (app M N) P :- head M (abs R), norm (R N) P.
norm (app M N) P :- spine (app M N) P.
norm X Y :- spine X Y.

head (abs M) (abs M).
head (app M N) P :- head M (abs R), head (R N) P.

spine (app M N) (app P Q) :- spine M P, norm N Q.

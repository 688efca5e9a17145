% Prenex forms of first-order formulas (after Miller and Nadathur): quantifiers move to the front, by unification under binders.
%
% ? prenex ((all x\ path x a) conj (some y\ path a y)) B
% answer 1
%   B = all (x1\ some (x2\ path x1 a conj path a x2))
% answer 2
%   B = some (x1\ all (x2\ path x2 a conj path a x1))
% no more answers
%
% Two quantifiers of one kind may become one where that is right.
%
% ? prenex ((all x\ path x a) conj (all y\ path a y)) (all C)
% answer 1
%   C = x1\ path x1 a conj path a x1
% answer 2
%   C = x1\ all (x2\ path x1 a conj path a x2)
% answer 3
%   C = x1\ all (x2\ path x2 a conj path a x1)
% no more answers
%
% ? prenex ((some x\ path x a) imp path a b) B
% answer 1
%   B = all (x1\ path x1 a imp path a b)
% no more answers
module prenex.

type plain  formula -> o.
type merge  formula -> formula -> o.

plain (path X Y).
plain (adjacent X Y).
plain (A conj B) :- plain A, plain B.
plain (A disj B) :- plain A, plain B.
plain (A imp B) :- plain A, plain B.

prenex (path X Y) (path X Y).
prenex (adjacent X Y) (adjacent X Y).
prenex (A conj B) D :- prenex A U, prenex B V, merge (U conj V) D.
prenex (A disj B) D :- prenex A U, prenex B V, merge (U disj V) D.
prenex (A imp B) D :- prenex A U, prenex B V, merge (U imp V) D.
prenex (all A) (all D) :- pi x\ prenex (A x) (D x).
prenex (some A) (some D) :- pi x\ prenex (A x) (D x).

% `merge A B`: A has prenex forms on both sides of its connective.
merge (all A conj all B) (all D) :- pi x\ merge (A x conj B x) (D x).
merge (all A conj B) (all D) :- pi x\ merge (A x conj B) (D x).
merge (A conj all B) (all D) :- pi x\ merge (A conj B x) (D x).
merge (some A conj B) (some D) :- pi x\ merge (A x conj B) (D x).
merge (A conj some B) (some D) :- pi x\ merge (A conj B x) (D x).
merge (some A disj some B) (some D) :- pi x\ merge (A x disj B x) (D x).
merge (all A disj B) (all D) :- pi x\ merge (A x disj B) (D x).
merge (A disj all B) (all D) :- pi x\ merge (A disj B x) (D x).
merge (some A disj B) (some D) :- pi x\ merge (A x disj B) (D x).
merge (A disj some B) (some D) :- pi x\ merge (A disj B x) (D x).
merge (all A imp some B) (some D) :- pi x\ merge (A x imp B x) (D x).
merge (all A imp B) (some D) :- pi x\ merge (A x imp B) (D x).
merge (some A imp B) (all D) :- pi x\ merge (A x imp B) (D x).
merge (A imp all B) (all D) :- pi x\ merge (A imp B x) (D x).
merge (A imp some B) (some D) :- pi x\ merge (A imp B x) (D x).
merge A A :- plain A.

% Mini-ML: a let gives its name every type that its definition has. No type scheme is needed: the definition is typed anew at each use.
%
% ? of (let (fn x\ x) id\ pair (app id (int 1)) (app id id)) T
% answer 1
%   T = num prod (_1 arr _1)
% no more answers
%
% Bound by a function, one name has one type.
%
% ? of (app (fn id\ pair (app id (int 1)) (app id id)) (fn x\ x)) T
% no more answers
%
% The sum of the numbers up to four.
%
% ? eval (app (fix sum\ fn n\ zero n (int 0) (plus n (app sum (plus n (int (~ 1)))))) (int 4)) V
% answer 1
%   V = int 10
% no more answers; some were cut away
module miniml.

of (int N) num.
of (plus M N) num :- of M num, of N num.
of (fn M) (A arr B) :- pi x\ of x A => of (M x) B.
of (app M N) B :- of M (A arr B), of N A.
of (let M N) B :- of M A, of (N M) B.
of (fix M) A :- pi x\ of x A => of (M x) A.
of (pair M N) (A prod B) :- of M A, of N B.
of (zero L M N) A :- of L num, of M A, of N A.

eval (int N) (int K) :- K is N.
eval (plus M N) (int K) :- eval M (int I), eval N (int J), K is I + J.
eval (fn M) (fn M).
eval (app M N) V :- eval M (fn R), eval N U, eval (R U) V.
eval (let M N) V :- eval M U, eval (N U) V.
eval (fix M) V :- eval (M (fix M)) V.
eval (pair M N) (pair U V) :- eval M U, eval N V.
eval (zero L M N) V :- eval L (int K), branch K M N P, eval P V.

type branch int -> tm -> tm -> tm -> o.

branch 0 M N M :- !.
branch K M N N.

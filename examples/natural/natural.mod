% Natural deduction for intuitionistic propositional logic: `shows` reads a proof and gives what it shows, `provable` decides
% whether there is one, by the sequent calculus in which no assumption is used twice (Dyckhoff 1992).
%
% ? shows (lambda x\ x) A
% answer 1
%   A = _1 imp _1
% no more answers
%
% ? shows (lambda x\ pair (second x) (first x)) (p conj q imp q conj p)
% answer 1
% no more answers
%
% ? provable ((p imp q imp r) imp (p imp q) imp p imp r)
% answer 1
% no more answers; some were cut away
%
% Peirce's law is not intuitionistic, and the law of the excluded middle is not refutable.
%
% ? provable (((p imp q) imp p) imp p)
% no more answers; some were cut away
%
% ? provable ((p disj (p imp falsum) imp falsum) imp falsum)
% answer 1
% no more answers; some were cut away
module natural.

shows (pair P Q) (A conj B) :- shows P A, shows Q B.
shows (first P) A :- shows P (A conj B).
shows (second P) B :- shows P (A conj B).
shows (left P) (A disj B) :- shows P A.
shows (right P) (A disj B) :- shows P B.
shows (cases P Q R) C :- shows P (A disj B), (pi x\ shows x A => shows (Q x) C), (pi x\ shows x B => shows (R x) C).
shows (lambda P) (A imp B) :- pi x\ shows x A => shows (P x) B.
shows (apply P Q) B :- shows P (A imp B), shows Q A.
shows (explode P) A :- shows P falsum.

% `follows L A`: A follows from the assumptions L. What is invertible is done at once and for good.
type follows   list prop -> prop -> o.
type reduce    list prop -> list prop -> prop -> o.
type choose    list prop -> prop -> o.
type atomic    prop -> o.
type pick      prop -> list prop -> list prop -> o.

provable A :- follows nil A, !.

atomic p.
atomic q.
atomic r.

% On the right.
follows L (A imp B) :- !, follows (A :: L) B.
follows L (A conj B) :- !, follows L A, follows L B.
follows L A :- reduce L nil A.

% On the left: `reduce L K A` has still to look at L; nothing of K can be taken apart without a choice.
reduce (falsum :: L) K A :- !.
reduce ((A conj B) :: L) K C :- !, reduce (A :: B :: L) K C.
reduce ((A disj B) :: L) K C :- !, reduce (A :: L) K C, reduce (B :: L) K C.
reduce ((falsum imp B) :: L) K C :- !, reduce L K C.
reduce (((A conj B) imp D) :: L) K C :- !, reduce ((A imp B imp D) :: L) K C.
reduce (((A disj B) imp D) :: L) K C :- !, reduce ((A imp D) :: (B imp D) :: L) K C.
reduce (A :: L) K C :- reduce L (A :: K) C.
reduce nil K C :- choose K C.

% An assumption is the goal, an implication has its premise, a side of a disjunction, or an implication to the left of one.
choose K A :- pick A K M.
choose K C :- pick (A imp B) K M, atomic A, pick A M N, !, reduce (B :: nil) M C.
choose K (A disj B) :- follows K A.
choose K (A disj B) :- follows K B.
choose K C :- pick ((A imp B) imp D) K M, follows ((B imp D) :: M) (A imp B), reduce (D :: nil) M C.

pick A (A :: L) L.
pick A (B :: L) (B :: M) :- pick A L M.

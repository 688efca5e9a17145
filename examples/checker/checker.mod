% A proof checker for first-order logic with a small theory of numbers. Eigenvariable conditions are `pi`: nothing is said about names.
%
% ? theorem "two" A P, checks P A
% answer 1
%   A = zero less succ (succ zero)
%   P = less_trans (less_succ zero) (less_succ (succ zero))
% no more answers
%
% ? checks (all_i x\ less_succ x) A
% answer 1
%   A = all (x1\ x1 less succ x1)
% no more answers
%
% ? holds N
% answer 1
%   N = "two"
% answer 2
%   N = "swap"
% answer 3
%   N = "above"
% no more answers
%
% An eigenvariable may not leave its scope: what is larger than each number does not exist by this proof.
%
% ? checks (all_i x\ some_i (succ x) (y\ x less y) (less_succ x)) (some y\ all x\ x less y)
% no more answers
module checker.

checks (imp_i A P) (A imp B) :- pi x\ checks x A => checks (P x) B.
checks (imp_e P Q) B :- checks P (A imp B), checks Q A.
checks (conj_i P Q) (A conj B) :- checks P A, checks Q B.
checks (conj_l P) A :- checks P (A conj B).
checks (conj_r P) B :- checks P (A conj B).
checks (all_i P) (all A) :- pi x\ checks (P x) (A x).
checks (all_e T P) (A T) :- checks P (all A).
checks (some_i T A P) (some A) :- checks P (A T).
checks (some_e P Q) B :- checks P (some A), (pi x\ pi p\ checks p (A x) => checks (Q x p) B).

checks (less_succ X) (X less succ X).
checks (less_trans P Q) (X less Z) :- checks P (X less Y), checks Q (Y less Z).

theorem "two" (zero less succ (succ zero)) (less_trans (less_succ zero) (less_succ (succ zero))).
theorem "swap" (all x\ all y\ x less y conj y equal x imp y equal x conj x less y)
  (all_i x\ all_i y\ imp_i (x less y conj y equal x) p\ conj_i (conj_r p) (conj_l p)).
theorem "above" (all x\ some y\ x less y) (all_i x\ some_i (succ x) (y\ x less y) (less_succ x)).

holds N :- theorem N A P, checks P A.

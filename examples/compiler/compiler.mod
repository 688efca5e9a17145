% A compiler of expressions with local names for a stack machine, and the machine. A local name is an index into the names in scope; the
% compiler assumes its number while it reads the body.
%
% ? compile (let (num 2) x\ x times x plus num 1) C, runs C V
% answer 1
%   C = push 2 :: store :: load 0 :: load 0 :: mul :: push 1 :: add :: drop :: nil
%   V = 5
% no more answers
%
% ? value (let (num 2) x\ let (x plus num 1) y\ x times y minus num 4) V
% answer 1
%   V = 2
% no more answers
%
% ? compile (let (num 2) x\ let (x plus num 1) y\ x times y minus num 4) C, runs C V
% answer 1
%   C = push 2 :: store :: load 0 :: push 1 :: add :: store :: load 1 :: load 0 :: mul :: push 4 :: sub :: drop :: drop :: nil
%   V = 2
% no more answers
module compiler.

% `codes E N C K`: the code C computes E where N names are in scope, and then does K. `at X N` says that the name X was the N-th.
type codes  expr -> int -> list code -> list code -> o.
type at     expr -> int -> o.

compile E C :- codes E 0 C nil.

codes (num I) N (push I :: K) K.
codes (A plus B) N C K :- codes A N C D, codes B N D (add :: K).
codes (A minus B) N C K :- codes A N C D, codes B N D (sub :: K).
codes (A times B) N C K :- codes A N C D, codes B N D (mul :: K).
codes (let A B) N C K :-
  M is N + 1, codes A N C (store :: D), (pi x\ at x N => codes (B x) M D (drop :: K)).
codes X N (load I :: K) K :- at X M, I is N - M - 1.

% `steps C S E V`: the code with the stack S and the local values E leaves V.
type steps  list code -> list int -> list int -> int -> o.
type nth    int -> list int -> int -> o.

runs C V :- steps C nil nil V.

steps nil (V :: nil) nil V.
steps (push I :: C) S E V :- steps C (I :: S) E V.
steps (add :: C) (J :: I :: S) E V :- K is I + J, steps C (K :: S) E V.
steps (sub :: C) (J :: I :: S) E V :- K is I - J, steps C (K :: S) E V.
steps (mul :: C) (J :: I :: S) E V :- K is I * J, steps C (K :: S) E V.
steps (store :: C) (I :: S) E V :- steps C S (I :: E) V.
steps (load N :: C) S E V :- nth N E I, steps C (I :: S) E V.
steps (drop :: C) S (I :: E) V :- steps C S E V.

nth 0 (I :: E) I.
nth N (J :: E) I :- 0 < N, M is N - 1, nth M E I.

value (num I) I.
value (A plus B) K :- value A I, value B J, K is I + J.
value (A minus B) K :- value A I, value B J, K is I - J.
value (A times B) K :- value A I, value B J, K is I * J.
value (let A B) K :- value A I, value (B (num I)) K.

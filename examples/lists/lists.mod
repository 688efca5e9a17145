% Lists: the usual relations, and three that take functions and relations as arguments.
%
% ? append X Y (1 :: 2 :: nil)
% answer 1
%   X = nil
%   Y = 1 :: 2 :: nil
% answer 2
%   X = 1 :: nil
%   Y = 2 :: nil
% answer 3
%   X = 1 :: 2 :: nil
%   Y = nil
% no more answers
%
% ? reverse [1, 2, 3] X
% answer 1
%   X = 3 :: 2 :: 1 :: nil
% no more answers
%
% A function of the language is applied by conversion: nothing is evaluated.
%
% ? each (x\ x + 1) [1, 2] X
% answer 1
%   X = 1 + 1 :: 2 + 1 :: nil
% no more answers
%
% A relation may be named, or written where it is used.
%
% ? map (x\ y\ y is x * x) [1, 2, 3] X
% answer 1
%   X = 1 :: 4 :: 9 :: nil
% no more answers
%
% ? fold (x\ y\ x + y) 0 [1, 2, 3] S, T is S
% answer 1
%   S = 1 + (2 + (3 + 0))
%   T = 6
% no more answers
%
% ? sorted [3, 1, 2] X
% answer 1
%   X = 1 :: 2 :: 3 :: nil
% no more answers; some were cut away
module lists.

append nil L L.
append (X :: L) K (X :: M) :- append L K M.

type onto list A -> list A -> list A -> o.

reverse L K :- onto L nil K.
onto nil K K.
onto (X :: L) A K :- onto L (X :: A) K.

member X (X :: L).
member X (Y :: L) :- member X L.

map R nil nil.
map R (X :: L) (Y :: M) :- R X Y, map R L M.

each F nil nil.
each F (X :: L) (F X :: M) :- each F L M.

fold F Z nil Z.
fold F Z (X :: L) (F X Y) :- fold F Z L Y.

% Insertion; the cut says that a place once found is the place.
type insert int -> list int -> list int -> o.

sorted nil nil.
sorted (X :: L) M :- sorted L K, insert X K M.

insert X nil (X :: nil).
insert X (Y :: L) (X :: Y :: L) :- X =< Y, !.
insert X (Y :: L) (Y :: M) :- insert X L M.

% A game: two players take one or two sticks from a heap in turn, and who finds none has lost.
%
% `not G` holds where the search for G ends without an answer. A heap of three loses, and one of four wins by the move to three.
%
% ? wins (s (s (s z)))
% no more answers
%
% ? wins (s (s (s (s z))))
% answer 1
% no more answers
%
% ? move (s (s (s (s z)))) M, loses M
% answer 1
%   M = s (s (s z))
% no more answers
%
% What is denied has to be closed when its turn comes.
%
% ? loses X
% stopped: open negation
%
% ? not (sigma X\ (move z X))
% answer 1
% no more answers

module sticks.

move (s N) N.
move (s (s N)) N.

wins N :- move N M, not (wins M).

loses N :- not (wins N).

% Transitions of the pi calculus, late (Milner, Parrow and Walker 1992; in this form Miller and Tiu 2005). A fresh name is a `pi`, and scope
% extrusion is what unification under binders does.
%
% ? one (sent a b null par taken a (x\ sent x c null)) tau Q
% answer 1
%   Q = null par sent b c null
% no more answers
%
% ? one (taken a x\ null) A Q
% no more answers
%
% ? bound (taken a x\ sent x b null) A Q
% answer 1
%   A = down a
%   Q = x1\ sent x1 b null
% no more answers
%
% A name that is new goes out, and is then known to both.
%
% ? one ((new n\ sent a n (sent n b null)) par taken a (x\ taken x (y\ null))) tau Q
% answer 1
%   Q = new (x1\ sent x1 b null par taken x1 (x2\ null))
% no more answers
%
% On a new name nobody else can answer.
%
% ? one (new n\ sent n a null) A Q
% no more answers
module processes.

one (silent P) tau P.
one (match X X P) A Q :- one P A Q.
one (sent X Y P) (up X Y) P.
one (P plus Q) A R :- one P A R.
one (P plus Q) A R :- one Q A R.
one (P par Q) A (R par Q) :- one P A R.
one (P par Q) A (P par R) :- one Q A R.
one (new P) A (new Q) :- pi x\ one (P x) A (Q x).
one (P par Q) tau (R par S Y) :- one P (up X Y) R, bound Q (down X) S.
one (P par Q) tau (R Y par S) :- bound P (down X) R, one Q (up X Y) S.
one (P par Q) tau (new x\ R x par S x) :- bound P (up X) R, bound Q (down X) S.
one (P par Q) tau (new x\ R x par S x) :- bound P (down X) R, bound Q (up X) S.

bound (taken X P) (down X) P.
bound (match X X P) A Q :- bound P A Q.
bound (P plus Q) A R :- bound P A R.
bound (P plus Q) A R :- bound Q A R.
bound (P par Q) A (x\ R x par Q) :- bound P A R.
bound (P par Q) A (x\ P par R x) :- bound Q A R.
bound (new P) A (y\ new x\ Q x y) :- pi x\ bound (P x) A (Q x).
bound (new P) (up X) Q :- pi x\ one (P x) (up X x) (Q x).

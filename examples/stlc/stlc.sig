sig stlc.

kind tm, ty type.

type abs   (tm -> tm) -> tm.
type app   tm -> tm -> tm.

type i, bool ty.
type arr     ty -> ty -> ty.
infixr arr 145.

type tt, ff  tm.
type if      tm -> tm -> tm -> tm.

% `of M T`: the term M has the type T.
type of      tm -> ty -> o.

% `eval M V`: M comes to the value V, arguments first.
type eval    tm -> tm -> o.

% `norm M N`: N is the normal form of M, also below abstractions.
type norm    tm -> tm -> o.

sig miniml.

kind tm, ty type.

type int      int -> tm.
type plus     tm -> tm -> tm.
type fn       (tm -> tm) -> tm.
type app      tm -> tm -> tm.
type let      tm -> (tm -> tm) -> tm.
type fix      (tm -> tm) -> tm.
type pair     tm -> tm -> tm.
type zero     tm -> tm -> tm -> tm.

type num      ty.
type arr      ty -> ty -> ty.
type prod     ty -> ty -> ty.
infixr arr  145.
infixr prod 146.

type of       tm -> ty -> o.
type eval     tm -> tm -> o.

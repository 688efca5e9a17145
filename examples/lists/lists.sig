sig lists.

type append    list A -> list A -> list A -> o.
type reverse   list A -> list A -> o.
type member    A -> list A -> o.
type map       (A -> B -> o) -> list A -> list B -> o.
type each      (A -> B) -> list A -> list B -> o.
type fold      (A -> B -> B) -> B -> list A -> B -> o.
type sorted    list int -> list int -> o.

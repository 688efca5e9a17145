sig processes.

kind name, process, action type.

type a, b, c      name.
type tau          action.
type up, down     name -> name -> action.

type null         process.
type silent       process -> process.
type match        name -> name -> process -> process.
type taken        name -> (name -> process) -> process.
type sent         name -> name -> process -> process.
type plus, par    process -> process -> process.
type new          (name -> process) -> process.
infixr par  145.
infixr plus 146.

% `one P A Q`: P does A and becomes Q. `bound P A Q`: P does the action A of a name that is bound in Q.
type one          process -> action -> process -> o.
type bound        process -> (name -> action) -> (name -> process) -> o.

% Simply typed terms. `elab E T A` fills in the types that `E` leaves out: `T` is `E` with them, and `A` its type.
kind exp, term, tp type.
type fn (exp -> exp) -> exp.
type lam tp -> (term -> term) -> term.
type arr tp -> tp -> tp.

pred elab i:exp, o:term, o:tp.
elab z z nat.
elab s s (arr nat nat).
elab (app M N) (app M' N') B :- elab M M' (arr A B), elab N N' A.
elab (fn F) (lam A F') (arr A B) :- pi x\ elab x x A => elab (F x) (F' x) B.

% Binders, hypothetical clauses and new names, as in ELPI: a copy of a term with `s` in the place of `z`.
pred copy i:tm, o:tm.
copy z s.
copy (app M N) (app M' N') :- copy M M', copy N N'.
copy (lam F) (lam G) :- pi x\ copy x x => copy (F x) (G x).
%? copy (lam x\ app x z) T
%= answer 1
%=   T = lam (@0\ app @0 s)
%= no more
